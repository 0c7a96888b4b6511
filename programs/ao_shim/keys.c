#include "keys.h"

#include "files.h"
#include "words.h"

#include <errno.h>
#include <string.h>
#include <sys/stat.h>
#include <time.h>

static const char *column_name(unsigned column) {
    static const char *const names[] = {
        "a key that isn't known, or a value that should be a table", "name", "address", "key", "AdminKeyName",
        "LocalKeyName", "PeerKeyName", "Peers", "Interfaces", "Protocol", "ProtocolSpecificInfo", "KDF", "AlgID",
        "Key", "Direction", "SendLifetimeStart", "SendLifetimeEnd", "AcceptLifetimeStart", "AcceptLifetimeEnd",
        "LocalPort", "PeerPort"};
    return column < sizeof names / sizeof names[0] ? names[column] : "?";
}

static void tell_place(const struct aotcp_fault *fault) {
    if (fault->node != 0) fprintf(stderr, "node %u: ", fault->node);
    if (fault->row != 0) fprintf(stderr, "row %u: ", fault->row);
}

/* What is wrong with a key file, without what stands in it. */
static void tell_fault(const char *path, int code, const struct aotcp_fault *fault) {
    fprintf(stderr, "ao-shim: keys %s: ", path);
    if (code != AOTCP_BAD_KEYS) {
        fprintf(stderr, code == AOTCP_NO_MEMORY ? "memory ran out\n" : "the library answers with code %d\n", code);
        return;
    }
    tell_place(fault);
    switch (fault->kind) {
    case AOTCP_FAULT_MEMORY: fprintf(stderr, "memory ran out\n"); break;
    case AOTCP_FAULT_SYNTAX: fprintf(stderr, "it is no UTF-8 or no TOML\n"); break;
    case AOTCP_FAULT_COLUMN: fprintf(stderr, "%s\n", column_name(fault->other)); break;
    case AOTCP_FAULT_MANY: fprintf(stderr, fault->node == 0 ? "over 16 nodes\n" : "over 64 rows\n"); break;
    case AOTCP_FAULT_OVERLAP: fprintf(stderr, "it overlaps row %u\n", fault->other); break;
    default: fprintf(stderr, "fault %u\n", fault->kind);
    }
}

/* The keys of the file for a shim: one is made where the handle holds none, and else goes on with them. */
static bool give_keys(struct aotcp_shim *shim, const char *path, uint16_t most) {
    size_t length = 0;
    struct aotcp_fault fault = {0, 0, 0, 0};
    uint8_t *text = read_file(path, &length);
    if (text == NULL) {
        fprintf(stderr, "ao-shim: keys %s: %s\n", path, strerror(errno));
        return false;
    }
    int code = shim->live ? aotcp_shim_keys(shim, seconds(), text, length, &fault)
                          : aotcp_shim_new(shim, text, length, most, &fault);
    forget_file(text, length);
    if (code != AOTCP_OK) tell_fault(path, code, &fault);
    return code == AOTCP_OK;
}

static unsigned count_kept(struct aotcp_shim *shim) {
    struct aotcp_saved saved;
    unsigned count = 0;
    for (uint32_t at = 0; next_saved(shim, &at, &saved);) count++;
    return count;
}

bool read_keys(struct program *p) {
    unsigned before = p->shim.live ? count_kept(&p->shim) : 0;
    if (!give_keys(&p->shim, p->options.keys, p->options.most)) return false;
    unsigned gone = before - count_kept(&p->shim);
    if (gone > 0) fprintf(stderr, "ao-shim: keys: %u connections end, since no node has their local address\n", gone);
    p->tally.keys_read = seconds();
    p->stirred = true;
    fprintf(stderr, "ao-shim: keys read\n");
    return true;
}

int check_keys(const struct options *options) {
    struct aotcp_shim shim;
    struct stat about;
    memset(&shim, 0, sizeof shim);
    if (!give_keys(&shim, options->keys, 1)) return 1;
    aotcp_shim_free(&shim);
    if (stat(options->keys, &about) == 0 && (about.st_mode & (S_IRWXG | S_IRWXO)) != 0)
        printf("%s: others than its owner may read or write it (mode %o)\n", options->keys, about.st_mode & 0777u);
    printf("%s: no fault\n", options->keys);
    return 0;
}
