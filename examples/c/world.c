#include "world.h"

#include <string.h>

unsigned roll(struct world *w, unsigned n) {
    w->dice = w->dice * 6364136223846793005u + 1442695040888963407u;
    return (unsigned)(w->dice >> 33) % n;
}

static void open_end(struct world *w, int end, const char *keys) {
    struct aotcp_address node = {4, {0}};
    struct aotcp_fault fault = {0, 0, 0, 0};
    memcpy(node.bytes, w->pairs[end].local, sizeof node.bytes);
    int code = aotcp_new(&w->stacks[end], (const uint8_t *)keys, strlen(keys), &node, 4, &fault);
    if (code == AOTCP_BAD_KEYS) fprintf(stderr, "key file: kind %d node %d row %d other %d\n", fault.kind, fault.node, fault.row, fault.other);
    CHECK(code == AOTCP_OK);
}

void world_open(struct world *w, const char *keys, uint64_t now, uint64_t seed, struct way way) {
    struct aotcp_pair client = {4, {10, 0, 0, 1}, {10, 0, 0, 2}, 40000, 179};
    struct aotcp_pair server = {4, {10, 0, 0, 2}, {10, 0, 0, 1}, 179, 40000};
    memset(w, 0, sizeof *w);
    w->pairs[CLIENT] = client;
    w->pairs[SERVER] = server;
    w->way = way;
    w->now = now;
    w->dice = seed;
    w->flying = malloc(MOST_FLYING * sizeof *w->flying);
    CHECK(w->flying != NULL);
    open_end(w, CLIENT, keys);
    open_end(w, SERVER, keys);
    CHECK(aotcp_listen(&w->stacks[SERVER], &w->pairs[SERVER], roll(w, 1u << 30)) == AOTCP_OK);
    CHECK(aotcp_open(&w->stacks[CLIENT], &w->pairs[CLIENT], 4294967295u - roll(w, 20000)) == AOTCP_OK);
}

static void put(struct world *w, int to, const uint8_t *bytes, size_t length) {
    if (w->on_way == MOST_FLYING) return;
    struct flying *f = &w->flying[w->on_way++];
    f->at = w->now + w->way.delay + (w->way.jitter > 0 ? roll(w, (unsigned)w->way.jitter) : 0);
    f->to = to;
    f->length = length;
    memcpy(f->bytes, bytes, length);
}

void world_send(struct world *w, int end) {
    uint8_t out[1500];
    for (;;) {
        size_t length = 0;
        int code = aotcp_output(&w->stacks[end], w->now, out, sizeof out, &length);
        CHECK(code == AOTCP_OK || code == AOTCP_NOTHING);
        if (code == AOTCP_NOTHING) return;
        CHECK(length <= sizeof out);
        w->sent[end]++;
        if (roll(w, 1000) < w->way.lost) {
            w->lost++;
            continue;
        }
        put(w, 1 - end, out, length);
        if (roll(w, 1000) < w->way.repeated) put(w, 1 - end, out, length);
        if (roll(w, 1000) < w->way.altered) {
            w->altered++;
            out[length - 1] ^= 1;
            put(w, 1 - end, out, length);
        }
    }
}

static void deliver(struct world *w, const struct flying *f) {
    struct aotcp_heard heard;
    CHECK(aotcp_input(&w->stacks[f->to], w->now, f->bytes, f->length, &heard) == AOTCP_OK);
    if (heard.answer == AOTCP_ANSWER_REFUSED || heard.answer == AOTCP_ANSWER_CHECKSUM) w->refused[f->to]++;
    if (heard.passed) {
        CHECK(heard.row == 1 || heard.row == 2);
        CHECK(memcmp(&heard.pair.local, &w->pairs[f->to].local, 16) == 0 && heard.pair.local_port == w->pairs[f->to].local_port);
        w->rows[f->to][heard.row]++;
    }
}

void world_deliver(struct world *w) {
    for (size_t i = 0; i < w->on_way;) {
        if (w->flying[i].at > w->now) {
            i++;
            continue;
        }
        deliver(w, &w->flying[i]);
        w->on_way--;
        memmove(&w->flying[i], &w->flying[i + 1], (w->on_way - i) * sizeof *w->flying);
    }
}

bool world_wait(struct world *w) {
    bool any = false;
    uint64_t next = 0, at = 0;
    for (size_t i = 0; i < w->on_way; i++)
        if (!any || w->flying[i].at < next) {
            any = true;
            next = w->flying[i].at;
        }
    for (int end = 0; end < 2; end++) {
        int code = aotcp_deadline(&w->stacks[end], &at);
        CHECK(code == AOTCP_OK || code == AOTCP_NOTHING);
        if (code == AOTCP_OK && (!any || at < next)) {
            any = true;
            next = at;
        }
    }
    if (any && next > w->now) w->now = next;
    return any;
}

struct aotcp_state world_state(struct world *w, int end) {
    struct aotcp_state state;
    CHECK(aotcp_state(&w->stacks[end], &w->pairs[end], &state) == AOTCP_OK);
    return state;
}

void world_close(struct world *w) {
    for (int end = 0; end < 2; end++) {
        CHECK(aotcp_free(&w->stacks[end]) == AOTCP_OK);
        CHECK(aotcp_free(&w->stacks[end]) == AOTCP_NO_STACK);
    }
    free(w->flying);
}
