#include "options.h"

#include "causes.h"

#include <errno.h>
#include <stdio.h>
#include <stdlib.h>
#include <string.h>

const char usage[] =
    "usage: ao-shim run --keys FILE --queue-out N --queue-in N [--state FILE] [--status FILE] [--metrics FILE]\n"
    "                   [--mtu N] [--mark N] [--mark-in N] [--most N] [--pass-unkeyed]\n"
    "       ao-shim rules --peer ADDRESS [--port N] [--nft | --iptables] [--forward IN OUT]\n"
    "                     [--queue-out N] [--queue-in N] [--mark-in N]\n"
    "       ao-shim check --keys FILE\n"
    "       ao-shim status [--json] FILE\n"
    "       ao-shim --help | --version\n";

/* A whole number within its bounds; 0x.. is hexadecimal. */
static bool read_number(const char *text, unsigned long least, unsigned long most, unsigned long *to) {
    char *end = NULL;
    errno = 0;
    *to = strtoul(text, &end, strncmp(text, "0x", 2) == 0 ? 16 : 10);
    return text[0] >= '0' && text[0] <= '9' && *end == '\0' && errno == 0 && *to >= least && *to <= most;
}

static bool read_queue(struct options *o, enum way way, const char *value) {
    unsigned long n = 0;
    o->has_queues[way] = read_number(value, 0, 65535, &n);
    o->queues[way] = (uint16_t)n;
    return o->has_queues[way];
}

static bool read_mark(struct options *o, enum way way, const char *value) {
    unsigned long n = 0;
    bool right = read_number(value, 1, 0xffffffff, &n);
    o->marks[way] = (uint32_t)n;
    return right;
}

static bool read_small(uint16_t *to, const char *value, unsigned long least, unsigned long most) {
    unsigned long n = 0;
    bool right = read_number(value, least, most, &n);
    *to = (uint16_t)n;
    return right;
}

static bool read_text(const char **to, const char *value) {
    *to = value;
    return value[0] != '\0';
}

/* An option with its value: 1 where it is right, 0 where the value isn't, -1 where there is no such option. */
static int read_of_run(struct options *o, const char *word, const char *value) {
    if (strcmp(word, "--keys") == 0) return read_text(&o->keys, value);
    if (strcmp(word, "--queue-out") == 0) return read_queue(o, OUT, value);
    if (strcmp(word, "--queue-in") == 0) return read_queue(o, IN, value);
    if (strcmp(word, "--state") == 0) return read_text(&o->state, value);
    if (strcmp(word, "--status") == 0) return read_text(&o->status, value);
    if (strcmp(word, "--metrics") == 0) return read_text(&o->metrics, value);
    if (strcmp(word, "--mtu") == 0) return read_small(&o->mtu, value, 576, 65535);
    if (strcmp(word, "--mark") == 0) return read_mark(o, OUT, value);
    if (strcmp(word, "--mark-in") == 0) return read_mark(o, IN, value);
    if (strcmp(word, "--most") == 0) return read_small(&o->most, value, 1, 4096);
    return -1;
}

static int read_of_rules(struct options *o, const char *word, const char *value) {
    if (strcmp(word, "--peer") == 0) return read_text(&o->peer, value);
    if (strcmp(word, "--port") == 0) return read_small(&o->port, value, 1, 65535);
    if (strcmp(word, "--queue-out") == 0) return read_queue(o, OUT, value);
    if (strcmp(word, "--queue-in") == 0) return read_queue(o, IN, value);
    if (strcmp(word, "--mark-in") == 0) return read_mark(o, IN, value);
    return -1;
}

static bool is_word_alone(struct options *o, const char *word, const char *option) {
    bool rules = strcmp(word, "rules") == 0;
    if (rules && strcmp(option, "--nft") == 0) return true;
    if (rules && strcmp(option, "--iptables") == 0) return o->for_iptables = true;
    if (strcmp(word, "status") == 0 && strcmp(option, "--json") == 0) return o->as_json = true;
    if (strcmp(word, "run") == 0 && strcmp(option, "--pass-unkeyed") == 0) return o->pass_unkeyed = true;
    return false;
}

static int read_value(struct options *o, const char *word, const char *option, const char *value) {
    if (strcmp(word, "run") == 0) return read_of_run(o, option, value);
    if (strcmp(word, "rules") == 0) return read_of_rules(o, option, value);
    if (strcmp(word, "check") == 0 && strcmp(option, "--keys") == 0) return read_text(&o->keys, value);
    return -1;
}

static bool is_whole(const struct options *o, const char *word) {
    const char *lacks = NULL;
    if (strcmp(word, "run") == 0 && !(o->has_queues[OUT] && o->has_queues[IN])) lacks = "--queue-out N, --queue-in N";
    if ((strcmp(word, "run") == 0 || strcmp(word, "check") == 0) && o->keys == NULL) lacks = "--keys FILE";
    if (strcmp(word, "rules") == 0 && o->peer == NULL) lacks = "--peer ADDRESS";
    if (strcmp(word, "status") == 0 && o->file == NULL) lacks = "FILE";
    if (strcmp(word, "run") == 0 && lacks == NULL && o->queues[OUT] == o->queues[IN]) lacks = "two different queues";
    if (lacks != NULL) fprintf(stderr, "ao-shim: %s: it needs %s\n", word, lacks);
    return lacks == NULL;
}

bool read_options(struct options *o, const char *word, int argc, char **argv) {
    memset(o, 0, sizeof *o);
    o->most = 1024;
    o->port = 179;
    for (int at = 0; at < argc; at++) {
        const char *option = argv[at];
        if (is_word_alone(o, word, option)) continue;
        if (strcmp(word, "rules") == 0 && strcmp(option, "--forward") == 0 && at + 2 < argc) {
            o->forward_in = argv[++at];
            o->forward_out = argv[++at];
        } else if (strcmp(word, "status") == 0 && option[0] != '-' && o->file == NULL) {
            o->file = option;
        } else {
            int right = at + 1 < argc ? read_value(o, word, option, argv[at + 1]) : -1;
            if (right == 0) fprintf(stderr, "ao-shim: %s: %s %s isn't right\n", word, option, argv[at + 1]);
            if (right < 0) fprintf(stderr, "ao-shim: %s: %s isn't known, or has no value\n", word, option);
            if (right != 1) return false;
            at++;
        }
    }
    return is_whole(o, word);
}
