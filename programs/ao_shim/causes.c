#include "causes.h"

#include <string.h>

enum { FIRST_FAULT = 1, FIRST_VERDICT = 13 };

static const char *const names[CAUSES] = {
    "", "truncated", "version", "header-length", "header-checksum", "fragment", "not-tcp", "extension-header",
    "data-offset", "option", "no-node", "unkeyed", "checksum", "no-ao", "two-ao", "with-md5", "no-tuple", "expired",
    "mac-length", "no-context", "range", "bad-mac", "has-option", "out-no-context", "out-range", "no-key", "no-room",
    "too-long", "not-kept", "failed", "icmp"};

unsigned cause_of(const struct aotcp_shim_told *told) {
    static const uint8_t others[] = {
        [AOTCP_SHIM_NO_NODE] = 10, [AOTCP_SHIM_UNKEYED] = CAUSE_UNKEYED, [AOTCP_SHIM_CHECKSUM] = 12, [AOTCP_SHIM_SIGNED] = 22,
        [AOTCP_SHIM_NO_CONTEXT] = 23, [AOTCP_SHIM_RANGE] = 24, [AOTCP_SHIM_NO_KEY] = 25, [AOTCP_SHIM_NO_ROOM] = 26,
        [AOTCP_SHIM_TOO_LONG] = 27};
    if (told->cause == AOTCP_SHIM_PASSED) return CAUSE_PASSED;
    if (told->cause == AOTCP_SHIM_BAD && told->reason >= 1 && told->reason <= AOTCP_DATAGRAM_OPTION)
        return FIRST_FAULT + told->reason - 1u;
    if (told->cause == AOTCP_SHIM_REFUSED && told->reason >= 1 && told->reason <= AOTCP_VERDICT_BAD_MAC)
        return FIRST_VERDICT + told->reason - 1u;
    if (told->cause < sizeof others && others[told->cause] != 0) return others[told->cause];
    return CAUSE_FAILED;
}

const char *cause_name(unsigned cause, enum way way) {
    if (cause == CAUSE_PASSED) return way == OUT ? "signed" : "verified";
    return cause < CAUSES ? names[cause] : "failed";
}

unsigned cause_named(const char *name, enum way way) {
    unsigned cause = 0;
    while (cause < CAUSES && strcmp(name, cause_name(cause, way)) != 0) cause++;
    return cause;
}
