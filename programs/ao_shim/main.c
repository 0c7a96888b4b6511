/* ao-shim: TCP-AO (RFC 5925) for the TCP connections of a kernel and of daemons that know nothing of it, by two
 * NFQUEUEs.
 *
 * `run` judges each datagram that the firewall's rules hand to its queues: those that leave get an option of TCP-AO;
 * those that come lose it where it is right, and are dropped where it isn't. It sets no rules; `rules` prints them.
 * SIGHUP reads the key file again, SIGUSR1 writes the counters to standard error, SIGTERM writes the state and ends.
 */
#include "keys.h"
#include "queues.h"
#include "report.h"
#include "rights.h"
#include "state.h"
#include "words.h"

#include <errno.h>
#include <string.h>

static volatile sig_atomic_t hangup, asked, ended;

static void on_signal(int number) {
    if (number == SIGHUP)
        hangup = 1;
    else if (number == SIGUSR1)
        asked = 1;
    else
        ended = 1;
}

/* The signals are let through only where the program waits. */
static bool catch_signals(sigset_t *before) {
    static const int numbers[] = {SIGHUP, SIGUSR1, SIGTERM, SIGINT};
    struct sigaction action;
    sigset_t held;
    memset(&action, 0, sizeof action);
    action.sa_handler = on_signal;
    sigemptyset(&held);
    for (size_t i = 0; i < sizeof numbers / sizeof numbers[0]; i++) {
        sigaddset(&held, numbers[i]);
        if (sigaction(numbers[i], &action, NULL) != 0) return false;
    }
    if (sigprocmask(SIG_BLOCK, &held, before) != 0) return false;
    for (size_t i = 0; i < sizeof numbers / sizeof numbers[0]; i++) sigdelset(before, numbers[i]);
    return true;
}

static void heed_signals(struct program *p) {
    if (hangup) {
        hangup = 0;
        if (!read_keys(p)) fprintf(stderr, "ao-shim: the keys stay as they were\n");
    }
    if (asked) {
        asked = 0;
        tell_counters(p);
    }
}

static bool tell_kept(struct program *p) {
    if (keep_state(p)) return true;
    fprintf(stderr, "ao-shim: state %s: %s\n", p->options.state, strerror(errno));
    return false;
}

static bool begin(struct program *p, sigset_t *before) {
    setvbuf(stderr, NULL, _IOLBF, 0);
    p->round = 1;
    if (!catch_signals(before) || !drop_capabilities()) return false;
    if (!begin_tally(&p->tally, p->options.most)) return false;
    if (!read_keys(p) || !read_state(p) || !tell_kept(p) || !open_queues(p) || !filter_calls()) return false;
    fprintf(stderr, "ao-shim: ready\n");
    return true;
}

static int run(const struct options *options) {
    static struct program p;
    sigset_t before;
    p.options = *options;
    if (!begin(&p, &before)) return 1;
    bool reports = options->status != NULL || options->metrics != NULL;
    uint64_t told = 0;
    while (!ended) {
        serve_queues(&before, reports && p.stirred ? 1000 : -1);
        heed_signals(&p);
        if (reports && p.stirred && seconds() != told) {
            write_reports(&p);
            told = p.tally.at;
        }
    }
    bool kept = tell_kept(&p);
    if (reports) write_reports(&p);
    tell_counters(&p);
    aotcp_shim_free(&p.shim);
    return kept ? 0 : 1;
}

int main(int argc, char **argv) {
    struct options options;
    const char *word = argc > 1 ? argv[1] : "";
    if (argc == 2 && strcmp(word, "--help") == 0) return fputs(usage, stdout) < 0;
    if (argc == 2 && strcmp(word, "--version") == 0) return printf("ao-shim %s\n", VERSION) < 0;
    int (*const does)(const struct options *) = strcmp(word, "run") == 0 ? run
                                              : strcmp(word, "rules") == 0 ? print_rules
                                              : strcmp(word, "check") == 0 ? check_keys
                                              : strcmp(word, "status") == 0 ? print_status : NULL;
    if (does == NULL || !read_options(&options, word, argc - 2, argv + 2)) {
        fputs(usage, stderr);
        return 2;
    }
    return does(&options);
}
