/* ao-nc: a TCP connection with TCP-AO over a TUN device, in the manner of netcat.
 *
 *   ao-nc --tun DEV --keys FILE [--listen] LOCAL:PORT REMOTE:PORT
 *
 * An address of IPv6 stands in brackets. SIGTERM aborts the connection; then the status is 1. For tests: --isn N is the own
 * initial sequence number, in the place of a random one; --lose N loses so many of a hundred datagrams each way, by
 * --seed N; --weather loses, doubles and delays chosen ones, as out:syn:drop,in:data%5:hold does (weather.h).
 *
 * Standard input is given to the connection, and what is taken goes to standard output; the end of the input closes it.
 * SIGHUP reads the key file again. Each change of phase is a line on standard error, with what was counted and the key ids
 * that were sent and heard last. The status is 0 where both ends
 * closed, 1 where the connection was reset, was overdue or couldn't begin, 2 for other words. */
#include "aotcp.h"
#include "key_rows.h"
#include "options.h"
#include "tun.h"

#include <errno.h>
#include <limits.h>
#include <poll.h>
#include <signal.h>
#include <stdio.h>
#include <stdlib.h>
#include <string.h>
#include <sys/random.h>
#include <time.h>
#include <unistd.h>

/* How long TIME-WAIT is waited out, in milliseconds, so that a FIN that comes again is answered. */
static const uint64_t REST = 2000;

struct program {
    struct options options;
    struct aotcp_stack stack;
    struct key_rows known;
    int tun;
    uint64_t now, rests_from;
    uint8_t piece[8192];
    size_t waiting;
    bool input_ended, output_full, closed, ended, aborted;
    int phase;
};

static int hangup[2];

static void on_signal(int number) {
    int before = errno;
    ssize_t done = write(hangup[1], number == SIGTERM ? "t" : "h", 1);
    (void)done;
    errno = before;
}

static const char *phase_name(int phase) {
    static const char *const names[] = {"LISTEN", "SYN-SENT", "SYN-RECEIVED", "ESTABLISHED", "FIN-WAIT-1", "FIN-WAIT-2",
                                        "CLOSE-WAIT", "CLOSING", "LAST-ACK", "TIME-WAIT", "CLOSED"};
    return phase >= 0 && phase <= AOTCP_CLOSED ? names[phase] : "?";
}

/* The clock in milliseconds since 1970, which doesn't go back. */
static void look_at_clock(struct program *p) {
    struct timespec t;
    clock_gettime(CLOCK_REALTIME, &t);
    uint64_t now = (uint64_t)t.tv_sec * 1000 + (uint64_t)t.tv_nsec / 1000000;
    if (now > p->now) p->now = now;
}

static struct aotcp_address local_node(const struct aotcp_pair *pair) {
    struct aotcp_address node;
    node.family = pair->family;
    memcpy(node.bytes, pair->local, sizeof node.bytes);
    return node;
}

/* The stack for one connection, from the key file, whose rows are noted. */
static bool begin_stack(struct program *p) {
    struct aotcp_address node = local_node(&p->options.pair);
    struct aotcp_fault fault = {0, 0, 0, 0};
    size_t length = 0;
    uint8_t *text = read_file(p->options.keys, &length);
    if (text == NULL) {
        fprintf(stderr, "ao-nc: %s isn't read\n", p->options.keys);
        return false;
    }
    int code = aotcp_new(&p->stack, text, length, &node, 1, &fault);
    if (code != AOTCP_OK) tell_fault(code, &fault);
    bool done = code == AOTCP_OK && read_rows(text, length, &node, &p->known);
    free(text);
    return done;
}

static bool begin(struct program *p) {
    uint32_t isn = p->options.isn;
    if (!p->options.has_isn && getrandom(&isn, sizeof isn, 0) != sizeof isn) return false;
    if (!begin_stack(p)) return false;
    int code = p->options.listens ? aotcp_listen(&p->stack, &p->options.pair, isn)
                                  : aotcp_open(&p->stack, &p->options.pair, isn);
    if (code != AOTCP_OK) fprintf(stderr, "ao-nc: no connection begins: code %d\n", code);
    return code == AOTCP_OK;
}

/* What stands in the device is handed in. */
static void come(struct program *p) {
    uint8_t bytes[65536];
    ssize_t length;
    while ((length = weather_read(&p->options.weather, p->tun, bytes, sizeof bytes)) > 0) {
        struct aotcp_heard heard;
        if (aotcp_input(&p->stack, p->now, bytes, (size_t)length, &heard) != AOTCP_OK) return;
        if (heard.answer == AOTCP_ANSWER_REFUSED) fprintf(stderr, "ao-nc: refused: verdict %d\n", heard.reason);
    }
}

/* What is due goes to the device. */
static void go(struct program *p) {
    uint8_t out[1500];
    size_t length = 0;
    while (aotcp_output(&p->stack, p->now, out, sizeof out, &length) == AOTCP_OK) {
        ssize_t done = weather_write(&p->options.weather, p->tun, out, length);
        if (done < 0) perror("ao-nc: write"); /* as if it was lost on the way */
    }
}

/* The piece that waits is given; behind the last one the connection is closed. */
static void give(struct program *p) {
    if (p->waiting > 0) {
        int code = aotcp_write(&p->stack, &p->options.pair, p->piece, p->waiting);
        if (code != AOTCP_NO_SPACE) p->waiting = 0;
    }
    if (p->input_ended && p->waiting == 0 && !p->closed && p->phase >= AOTCP_ESTABLISHED) {
        aotcp_close(&p->stack, &p->options.pair);
        p->closed = true;
    }
}

/* Whether standard output is full: a pipe that isn't takes a piece of PIPE_BUF bytes without waiting. */
static bool is_output_full(void) {
    struct pollfd fd = {STDOUT_FILENO, POLLOUT, 0};
    return poll(&fd, 1, 0) == 0;
}

/* What was received goes to standard output, while that takes it. */
static bool take(struct program *p) {
    uint8_t room[PIPE_BUF];
    struct aotcp_taken taken;
    do {
        p->output_full = is_output_full();
        if (p->output_full) return true;
        if (aotcp_read(&p->stack, &p->options.pair, room, sizeof room, &taken) != AOTCP_OK) return false;
        for (size_t at = 0; at < taken.count;) {
            ssize_t done = write(STDOUT_FILENO, room + at, taken.count - at);
            if (done < 0 && errno != EINTR) return false;
            if (done > 0) at += (size_t)done;
        }
    } while (taken.count > 0);
    p->ended = taken.at_end;
    return true;
}

/* The ids of the last segment that was sent or heard: its key, and the one that it asks for. */
static void tell_ids(const char *word, const struct aotcp_key_ids *ids) {
    if (ids->there)
        fprintf(stderr, " %s %d/%d", word, ids->key_id, ids->rnext_key_id);
    else
        fprintf(stderr, " %s none", word);
}

static void tell_count(const char *word, uint64_t count) {
    if (count > 0) fprintf(stderr, " %s %llu", word, (unsigned long long)count);
}

/* What was counted of the connection, behind its phase; a reason to refuse only where it was met. */
static void tell_counters(struct program *p) {
    struct aotcp_counters c;
    if (aotcp_counters(&p->stack, &p->options.pair, &c) != AOTCP_OK) return;
    fprintf(stderr, " sent %llu again %llu passed %llu", (unsigned long long)c.sent, (unsigned long long)c.sent_again,
            (unsigned long long)c.passed);
    tell_count("checksum", c.checksum);
    tell_count("closed", c.closed);
    tell_count("no-ao", c.no_ao);
    tell_count("two-ao", c.two_ao);
    tell_count("with-md5", c.with_md5);
    tell_count("no-row", c.no_row);
    tell_count("expired", c.expired);
    tell_count("mac-length", c.mac_length);
    tell_count("no-context", c.no_context);
    tell_count("range", c.range);
    tell_count("bad-mac", c.bad_mac);
    tell_ids("key", &c.ids_sent);
    tell_ids("peer-key", &c.ids_heard);
}

static void tell_phase(struct program *p) {
    struct aotcp_state state;
    if (aotcp_state(&p->stack, &p->options.pair, &state) != AOTCP_OK || state.phase == p->phase) return;
    if (state.phase == AOTCP_TIME_WAIT) p->rests_from = p->now;
    p->phase = state.phase;
    fprintf(stderr, "ao-nc: %s una %llu next %llu", phase_name(state.phase), (unsigned long long)state.una,
            (unsigned long long)state.next);
    tell_counters(p);
    fputc('\n', stderr);
}

/* How long to wait for something to come, in milliseconds. */
static int wait_time(struct program *p) {
    uint64_t at = 0;
    uint64_t most = p->phase == AOTCP_TIME_WAIT && !p->output_full ? p->rests_from + REST : p->now + 60000;
    if (aotcp_deadline(&p->stack, &at) != AOTCP_OK || at > most) at = most;
    return at > p->now ? (int)(at - p->now) : 0;
}

/* A signal that came: the key file is read again, or the connection is aborted. */
static void heed_signal(struct program *p) {
    char word = ' ';
    struct aotcp_address node = local_node(&p->options.pair);
    if (read(hangup[0], &word, 1) != 1) return;
    if (word == 'h') read_again(&p->stack, p->options.keys, &node, &p->known);
    if (word == 't') p->aborted = aotcp_abort(&p->stack, &p->options.pair) == AOTCP_OK; /* the RST goes with what is due */
}

static void wait_for_something(struct program *p) {
    bool wants_input = !p->input_ended && p->waiting == 0 && p->phase >= AOTCP_ESTABLISHED;
    struct pollfd fds[4] = {{p->tun, POLLIN, 0}, {hangup[0], POLLIN, 0}, {wants_input ? STDIN_FILENO : -1, POLLIN, 0},
                            {p->output_full ? STDOUT_FILENO : -1, POLLOUT, 0}};
    if (poll(fds, 4, wait_time(p)) < 0) return;
    if (fds[1].revents != 0) heed_signal(p);
    if (fds[2].revents != 0) {
        ssize_t count = read(STDIN_FILENO, p->piece, sizeof p->piece);
        if (count > 0) p->waiting = (size_t)count;
        if (count == 0 || (count < 0 && errno != EINTR && errno != EAGAIN)) p->input_ended = true;
    }
}

/* The status, or -1 while the connection goes on. */
static int status(struct program *p) {
    bool overdue = false;
    if (p->aborted) return 1;
    if (p->phase == AOTCP_CLOSED && !p->output_full) return p->closed && p->ended ? 0 : 1;
    if (p->phase == AOTCP_TIME_WAIT && !p->output_full && p->now >= p->rests_from + REST) return 0;
    aotcp_is_overdue(&p->stack, &p->options.pair, p->now, &overdue);
    if (!overdue) return -1;
    fprintf(stderr, "ao-nc: nothing was heard for five minutes\n");
    aotcp_abort(&p->stack, &p->options.pair);
    go(p);
    return 1;
}

int main(int argc, char **argv) {
    static struct program p;
    struct sigaction action;
    memset(&action, 0, sizeof action);
    action.sa_handler = on_signal;
    p.phase = -1;
    if (!read_options(&p.options, argc, argv)) return 2;
    if (pipe(hangup) != 0 || sigaction(SIGHUP, &action, NULL) != 0 || sigaction(SIGTERM, &action, NULL) != 0) return 1;
    p.tun = open_tun(p.options.tun);
    look_at_clock(&p);
    if (p.tun < 0 || !begin(&p)) return 1;
    int ends = -1;
    while (ends < 0) {
        look_at_clock(&p);
        come(&p);
        if (!take(&p)) break;
        tell_phase(&p);
        give(&p);
        go(&p);
        tell_phase(&p);
        ends = status(&p);
        if (ends < 0) wait_for_something(&p);
    }
    aotcp_free(&p.stack);
    return ends < 0 ? 1 : ends;
}
