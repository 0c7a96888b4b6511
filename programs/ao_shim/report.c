#include "report.h"

#include "files.h"
#include "words.h"

#include <errno.h>
#include <inttypes.h>
#include <string.h>
#include <sys/resource.h>

/* Brings up to date what isn't counted by each datagram: which pairs are live, with their numbers, and times. */
static void bring_up(struct program *p) {
    struct tally *tally = &p->tally;
    struct aotcp_saved saved;
    struct rusage used;
    for (unsigned i = 0; i < tally->most; i++) tally->ends[i].live = false;
    for (uint32_t at = 0; next_saved(&p->shim, &at, &saved);) {
        struct end *end = find_end(tally, &saved.pair);
        if (end == NULL) continue;
        end->live = true;
        end->number_sent = saved.sent;
        end->number_heard = saved.heard;
    }
    getrusage(RUSAGE_SELF, &used);
    tally->user_us = (uint64_t)used.ru_utime.tv_sec * 1000000 + (uint64_t)used.ru_utime.tv_usec;
    tally->system_us = (uint64_t)used.ru_stime.tv_sec * 1000000 + (uint64_t)used.ru_stime.tv_usec;
    tally->at = seconds();
}

static void print_counts(FILE *file, const uint64_t counts[CAUSES], enum way way, unsigned from) {
    const char *comma = "";
    fputc('{', file);
    for (unsigned cause = from; cause < CAUSES; cause++) {
        if (counts[cause] == 0) continue;
        fprintf(file, "%s\"%s\":%" PRIu64, comma, cause_name(cause, way), counts[cause]);
        comma = ",";
    }
    fputc('}', file);
}

static void print_ids(FILE *file, const char *word, const struct ids *ids) {
    if (ids->there)
        fprintf(file, ",\"%s\":[%u,%u]", word, ids->key, ids->asks);
    else
        fprintf(file, ",\"%s\":null", word);
}

static void print_end(FILE *file, const struct end *end) {
    char local[SOCKET_TEXT], remote[SOCKET_TEXT];
    fprintf(file, "{\"local\":\"%s\",\"lport\":%u,\"remote\":\"%s\",\"rport\":%u,\"live\":%s,\"closed\":%s",
            address_text(local, end->pair.family, end->pair.local), end->pair.local_port,
            address_text(remote, end->pair.family, end->pair.remote), end->pair.remote_port,
            end->live ? "true" : "false", end->closed ? "true" : "false");
    if (end->live) fprintf(file, ",\"snd\":%" PRIu64 ",\"rcv\":%" PRIu64, end->number_sent, end->number_heard);
    print_ids(file, "sent", &end->sent);
    print_ids(file, "heard", &end->heard);
    fprintf(file, ",\"out\":%" PRIu64 ",\"in\":%" PRIu64 ",\"refused\":", end->passed[OUT], end->passed[IN]);
    print_counts(file, end->refused, IN, CAUSE_PASSED + 1);
    fprintf(file, ",\"last\":%" PRIu64 "}", end->last);
}

void print_json(FILE *file, const struct tally *tally) {
    const char *comma = "";
    fprintf(file, "{\"at\":%" PRIu64 ",\"keys_read\":%" PRIu64 ",\"out\":", tally->at, tally->keys_read);
    print_counts(file, tally->counts[OUT], OUT, 0);
    fprintf(file, ",\"in\":");
    print_counts(file, tally->counts[IN], IN, 0);
    uint64_t macs = tally->counts[OUT][CAUSE_PASSED] + tally->counts[IN][CAUSE_PASSED]
        + tally->counts[IN][cause_named("bad-mac", IN)];
    fprintf(file, ",\"macs\":%" PRIu64 ",\"rollovers\":%" PRIu64 ",\"overruns\":%" PRIu64 ",\"user_us\":%" PRIu64
            ",\"system_us\":%" PRIu64 ",\"connections\":[", macs, tally->rollovers, tally->overruns, tally->user_us,
            tally->system_us);
    for (unsigned i = 0; i < tally->most; i++) {
        if (!tally->ends[i].used) continue;
        fputs(comma, file);
        print_end(file, &tally->ends[i]);
        comma = ",";
    }
    fprintf(file, "]}\n");
}

void tell_counters(struct program *p) {
    bring_up(p);
    fprintf(stderr, "counters ");
    print_json(stderr, &p->tally);
    fflush(stderr);
}

static void print_status_file(FILE *file, void *with) { print_json(file, with); }

/* Metrics in the text form of Prometheus. */
static void print_metrics_file(FILE *file, void *with) {
    const struct tally *tally = with;
    unsigned live = 0;
    fputs("# HELP ao_shim_datagrams_total Datagrams by what became of them.\n"
          "# TYPE ao_shim_datagrams_total counter\n", file);
    for (int way = OUT; way <= IN; way++)
        for (unsigned cause = 0; cause < CAUSES; cause++)
            if (cause == CAUSE_PASSED || tally->counts[way][cause] != 0)
                fprintf(file, "ao_shim_datagrams_total{way=\"%s\",cause=\"%s\"} %" PRIu64 "\n",
                        way == OUT ? "out" : "in", cause_name(cause, way), tally->counts[way][cause]);
    for (unsigned i = 0; i < tally->most; i++) live += tally->ends[i].live;
    fprintf(file, "# HELP ao_shim_connections Connections whose initial sequence numbers are known.\n"
                  "# TYPE ao_shim_connections gauge\nao_shim_connections %u\n", live);
    fprintf(file, "# HELP ao_shim_rollovers_total Changes of the key that signs, over all connections.\n"
                  "# TYPE ao_shim_rollovers_total counter\nao_shim_rollovers_total %" PRIu64 "\n", tally->rollovers);
    fprintf(file, "# HELP ao_shim_keys_read_seconds When the key file was read, in seconds since 1970.\n"
                  "# TYPE ao_shim_keys_read_seconds gauge\nao_shim_keys_read_seconds %" PRIu64 "\n", tally->keys_read);
    fprintf(file, "# HELP ao_shim_cpu_seconds_total Processor time of the program.\n"
                  "# TYPE ao_shim_cpu_seconds_total counter\nao_shim_cpu_seconds_total %.6f\n",
            (double)(tally->user_us + tally->system_us) / 1e6);
}

static void write_report(struct program *p, const char *path, mode_t mode, void (*print)(FILE *file, void *with)) {
    if (path == NULL || write_file(path, mode, print, &p->tally)) return;
    int why = errno;
    if (may_tell(&p->reports, p->tally.at)) fprintf(stderr, "ao-shim: %s: %s\n", path, strerror(why));
}

void write_reports(struct program *p) {
    bring_up(p);
    write_report(p, p->options.status, 0600, print_status_file);
    write_report(p, p->options.metrics, 0644, print_metrics_file);
    p->stirred = false;
}
