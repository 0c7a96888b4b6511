/* The word `status`: the table of a status file, in which ao-shim writes one line of JSON (report.c). */
#include "ends.h"
#include "files.h"
#include "words.h"

#include <errno.h>
#include <stdlib.h>
#include <string.h>

/* What a row of the table says. */
struct row {
    char local[SOCKET_TEXT], remote[SOCKET_TEXT];
    unsigned local_port, remote_port;
    char live[6], closed[6], refused[512];
    char sent[16], heard[16];
    unsigned long long out, in, last;
};

static void read_ids(const char *text, const char *name, char to[16]) {
    unsigned key = 0, asks = 0;
    const char *at = strstr(text, name);
    snprintf(to, 16, "-");
    if (at != NULL && sscanf(at + strlen(name), "[%3u,%3u]", &key, &asks) == 2) snprintf(to, 16, "%u/%u", key, asks);
}

/* The text between the braces, without quotes. */
static void read_counts(const char *text, const char *name, char to[512]) {
    const char *at = strstr(text, name);
    size_t length = 0;
    for (at = at != NULL ? at + strlen(name) : ""; *at != '\0' && *at != '}' && length + 2 < 512; at++) {
        if (*at == '{' || *at == '"') continue;
        if (*at == ',') to[length++] = ',';
        to[length++] = *at == ':' || *at == ',' ? ' ' : *at;
    }
    to[length] = '\0';
    if (length == 0) snprintf(to, 512, "-");
}

static unsigned long long read_count(const char *text, const char *name) {
    const char *at = strstr(text, name);
    return at != NULL ? strtoull(at + strlen(name), NULL, 10) : 0;
}

static bool read_row(const char *text, struct row *row) {
    if (sscanf(text, "\"local\":\"%63[^\"]\",\"lport\":%5u,\"remote\":\"%63[^\"]\",\"rport\":%5u,"
                     "\"live\":%5[a-z],\"closed\":%5[a-z]",
               row->local, &row->local_port, row->remote, &row->remote_port, row->live, row->closed) != 6)
        return false;
    read_ids(text, "\"sent\":", row->sent);
    read_ids(text, "\"heard\":", row->heard);
    read_counts(text, "\"refused\":", row->refused);
    row->out = read_count(text, "\"out\":");
    row->in = read_count(text, "\"in\":");
    row->last = read_count(text, "\"last\":");
    return true;
}

static void print_time(const char *before, unsigned long long at, const char *after) {
    time_t time = (time_t)at;
    struct tm parts;
    char text[32] = "-";
    if (at != 0 && gmtime_r(&time, &parts) != NULL) strftime(text, sizeof text, "%Y-%m-%dT%H:%M:%SZ", &parts);
    printf("%s%s%s", before, text, after);
}

static void print_socket(const char *address, unsigned port) {
    char text[2 * SOCKET_TEXT];
    snprintf(text, sizeof text, strchr(address, ':') != NULL ? "[%s]:%u" : "%s:%u", address, port);
    printf("%-24s ", text);
}

static void print_row(const struct row *row) {
    const char *state = strcmp(row->live, "true") == 0 ? "known" : "opening";
    if (strcmp(row->closed, "true") == 0) state = "reset";
    print_socket(row->local, row->local_port);
    print_socket(row->remote, row->remote_port);
    printf("%-8s %-9s %-9s %10llu %10llu  ", state, row->sent, row->heard, row->out, row->in);
    print_time("", row->last, "  ");
    printf("%s\n", row->refused);
}

static bool print_table(char *text) {
    char counts[512];
    struct row row;
    if (strncmp(text, "{\"at\":", 6) != 0) return false;
    print_time("at ", read_count(text, "{\"at\":"), "");
    print_time(", keys read at ", read_count(text, "\"keys_read\":"), "\n");
    read_counts(text, "\"out\":", counts);
    printf("out: %s\n", counts);
    read_counts(text, "\"in\":", counts);
    printf("in:  %s\n", counts);
    printf("%-24s %-24s %-8s %-9s %-9s %10s %10s  %-20s  %s\n", "LOCAL", "REMOTE", "STATE", "SENT", "HEARD", "OUT",
           "IN", "LAST", "REFUSED");
    char *at = strstr(text, "\"connections\":[");
    for (at = at != NULL ? strstr(at, "{\"local\"") : NULL; at != NULL;) {
        char *next = strstr(at + 1, "{\"local\"");
        if (next != NULL) *next = '\0';
        if (!read_row(at + 1, &row)) return false;
        print_row(&row);
        at = next;
        if (next != NULL) *next = '{';
    }
    return true;
}

int print_status(const struct options *options) {
    size_t length = 0;
    uint8_t *bytes = read_file(options->file, &length);
    if (bytes == NULL) {
        fprintf(stderr, "ao-shim: %s: %s\n", options->file, strerror(errno));
        return 1;
    }
    bytes[length] = '\0';
    bool right = strncmp((char *)bytes, "{\"at\":", 6) == 0 && length > 0 && bytes[length - 1] == '\n';
    if (right && options->as_json) right = fputs((char *)bytes, stdout) >= 0;
    if (right && !options->as_json) right = print_table((char *)bytes);
    if (!right) fprintf(stderr, "ao-shim: %s is no status file\n", options->file);
    forget_file(bytes, length);
    return right ? 0 : 1;
}
