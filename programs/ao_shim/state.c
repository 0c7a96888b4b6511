#include "state.h"

#include "files.h"
#include "words.h"

#include <errno.h>
#include <inttypes.h>
#include <string.h>

static const char head[] = "ao-shim 1\n";

/* LOCAL PORT REMOTE PORT OWN-ISN PEER-ISN SENT HEARD KEYID, a dash in place of the last where no key is current */
static void print_state(FILE *file, void *with) {
    struct program *p = with;
    struct aotcp_saved saved;
    char local[SOCKET_TEXT], remote[SOCKET_TEXT];
    fputs(head, file);
    for (uint32_t at = 0; next_saved(&p->shim, &at, &saved);) {
        char key[4] = "-";
        if (saved.has_key) snprintf(key, sizeof key, "%u", saved.key_id);
        fprintf(file, "%s %u %s %u %" PRIu32 " %" PRIu32 " %" PRIu64 " %" PRIu64 " %s\n",
                address_text(local, saved.pair.family, saved.pair.local), saved.pair.local_port,
                address_text(remote, saved.pair.family, saved.pair.remote), saved.pair.remote_port, saved.own_isn,
                saved.peer_isn, saved.sent, saved.heard, key);
    }
}

bool keep_state(struct program *p) {
    return p->options.state == NULL || write_file(p->options.state, 0600, print_state, p);
}

enum { WORDS = 9, KEY = 8 };

/* A whole number within its bound. */
static bool read_number(const char *text, uint64_t most, uint64_t *value) {
    char *end = NULL;
    errno = 0;
    *value = strtoumax(text, &end, 10);
    return text[0] >= '0' && text[0] <= '9' && *end == '\0' && errno == 0 && *value <= most;
}

/* The KeyID of the current key, or a dash. */
static bool read_key(const char *text, struct aotcp_saved *saved) {
    uint64_t value = 0;
    saved->has_key = strcmp(text, "-") != 0;
    if (saved->has_key && !read_number(text, UINT8_MAX, &value)) return false;
    saved->key_id = (uint8_t)value;
    return true;
}

/* The numbers of a line. */
static bool read_numbers(char *const words[WORDS], struct aotcp_saved *saved) {
    static const struct {
        int word;
        uint64_t most;
    } of[6] = {{1, UINT16_MAX}, {3, UINT16_MAX}, {4, UINT32_MAX}, {5, UINT32_MAX}, {6, INT64_MAX}, {7, INT64_MAX}};
    uint64_t value[6];
    for (int i = 0; i < 6; i++)
        if (!read_number(words[of[i].word], of[i].most, &value[i])) return false;
    saved->pair.local_port = (uint16_t)value[0];
    saved->pair.remote_port = (uint16_t)value[1];
    saved->own_isn = (uint32_t)value[2];
    saved->peer_isn = (uint32_t)value[3];
    saved->sent = value[4];
    saved->heard = value[5];
    return read_key(words[KEY], saved);
}

static bool read_line(char *line, struct aotcp_saved *saved) {
    char *words[WORDS], *rest = NULL;
    uint8_t family = 0;
    memset(saved, 0, sizeof *saved);
    for (int i = 0; i < WORDS; i++) {
        words[i] = strtok_r(i == 0 ? line : NULL, " ", &rest);
        if (words[i] == NULL) return false;
    }
    return strtok_r(NULL, " ", &rest) == NULL && read_numbers(words, saved)
        && read_address_text(words[0], &saved->pair.family, saved->pair.local)
        && read_address_text(words[2], &family, saved->pair.remote) && family == saved->pair.family;
}

/* Why a line is left out, by what aotcp_shim_restore answers; null: it isn't. */
static const char *fault_of(int code) {
    switch (code) {
    case AOTCP_OK: return NULL;
    case AOTCP_NO_NODE: return "no node of the key file has its local address";
    case AOTCP_IN_USE: return "an earlier line has its sockets";
    default: return "it isn't understood";
    }
}

static unsigned go_on(struct program *p, char *text) {
    unsigned number = 1, count = 0;
    for (char *line = strsep(&text, "\n"); line != NULL; line = strsep(&text, "\n")) {
        struct aotcp_saved saved;
        number++;
        if (text == NULL && line[0] == '\0') break; /* after the last line */
        int code = read_line(line, &saved) ? aotcp_shim_restore(&p->shim, seconds(), &saved) : -1;
        const char *fault = fault_of(code);
        if (fault != NULL) {
            fprintf(stderr, "ao-shim: state %s: line %u is left out: %s\n", p->options.state, number, fault);
            continue;
        }
        make_end(&p->tally, &saved.pair);
        count++;
    }
    return count;
}

/* A file that isn't a state file stays, under another name. */
static bool put_aside(const char *path) {
    char aside[4096];
    fprintf(stderr, "ao-shim: state %s: line 1 isn't \"ao-shim 1\": no connection goes on\n", path);
    if (snprintf(aside, sizeof aside, "%s.damaged", path) < (int)sizeof aside && rename(path, aside) == 0) {
        fprintf(stderr, "ao-shim: state: it is %s now\n", aside);
        return true;
    }
    fprintf(stderr, "ao-shim: state %s: it can't be renamed: %s\n", path, strerror(errno));
    return false;
}

bool read_state(struct program *p) {
    size_t length = 0;
    if (p->options.state == NULL) return true;
    uint8_t *bytes = read_file(p->options.state, &length);
    if (bytes == NULL && errno == ENOENT) return true;
    if (bytes == NULL) {
        fprintf(stderr, "ao-shim: state %s: %s\n", p->options.state, strerror(errno));
        return false;
    }
    bool right = length >= strlen(head) && memcmp(bytes, head, strlen(head)) == 0;
    if (right) {
        bytes[length] = '\0';
        unsigned count = go_on(p, (char *)bytes + strlen(head));
        fprintf(stderr, "ao-shim: %u connections go on\n", count);
    }
    forget_file(bytes, length);
    return right || put_aside(p->options.state);
}
