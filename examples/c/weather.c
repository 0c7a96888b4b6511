#include "weather.h"

#include <stdlib.h>
#include <string.h>
#include <unistd.h>

enum { FIN_FLAG = 1, SYN_FLAG = 2, RST_FLAG = 4 };

/* The name in front of the text, which then begins behind it; -1 where none of the names stands there. */
static int read_name(const char **text, const char *const names[], int count) {
    for (int i = 0; i < count; i++) {
        size_t length = strlen(names[i]);
        if (strncmp(*text, names[i], length) == 0) {
            *text += length;
            return i;
        }
    }
    return -1;
}

static unsigned read_number(const char **text) {
    char *end = NULL;
    unsigned long number = **text >= '0' && **text <= '9' ? strtoul(*text, &end, 10) : 0;
    if (end != NULL) *text = end;
    return (unsigned)number;
}

/* N, N-M, %N, ~N or nothing. */
static bool read_numbers(struct rule *rule, const char **text) {
    rule->first = rule->last = 1;
    if (**text == ':') return true;
    if (**text == '%' || **text == '~') {
        unsigned *number = **text == '%' ? &rule->each : &rule->of_hundred;
        ++*text;
        *number = read_number(text);
        return *number > 0;
    }
    rule->first = rule->last = read_number(text);
    if (**text == '-') {
        ++*text;
        rule->last = read_number(text);
    }
    return rule->first > 0 && rule->last >= rule->first;
}

static bool read_rule(struct rule *rule, const char **text) {
    static const char *const ways[] = {"out:", "in:"};
    static const char *const kinds[] = {"any", "syn", "fin", "rst", "data", "bare", "ending"};
    static const char *const fates[] = {":pass", ":drop", ":dup", ":hold"};
    memset(rule, 0, sizeof *rule);
    int way = read_name(text, ways, 2);
    if (way < 0) return false;
    int kind = read_name(text, kinds, 7);
    if (!read_numbers(rule, text)) return false;
    int fate = read_name(text, fates, 4);
    if (fate < 0) return false;
    rule->way = (enum way)way;
    rule->kind = kind < 0 ? ANY : (enum kind)kind;
    rule->fate = (enum fate)fate;
    return true;
}

bool read_weather(struct weather *weather, const char *text) {
    size_t most = sizeof weather->rules / sizeof weather->rules[0];
    for (;;) {
        if (weather->count == most || !read_rule(&weather->rules[weather->count], &text)) return false;
        weather->count++;
        if (*text == '\0') return true;
        if (*text++ != ',') return false;
    }
}

/* Where the TCP header of a datagram stands and where the datagram ends; false where it is no whole TCP segment. */
static bool find_segment(const uint8_t *bytes, size_t length, size_t *at, size_t *end) {
    if (length < 40) return false;
    bool is_four = bytes[0] >> 4 == 4;
    *at = is_four ? (bytes[0] & 15) * 4u : 40;
    *end = is_four ? (size_t)(bytes[2] << 8 | bytes[3]) : 40u + (size_t)(bytes[4] << 8 | bytes[5]);
    return (is_four ? bytes[9] : bytes[6]) == 6 && *at + 20 <= *end && *end <= length;
}

static bool is_of_kind(enum kind kind, uint8_t flags, bool has_data, bool is_behind_fin) {
    bool is_bare = !has_data && (flags & (FIN_FLAG | SYN_FLAG | RST_FLAG)) == 0;
    switch (kind) {
    case SYN: return (flags & SYN_FLAG) != 0;
    case FIN: return (flags & FIN_FLAG) != 0;
    case RST: return (flags & RST_FLAG) != 0;
    case DATA: return has_data;
    case BARE: return is_bare;
    case ENDING: return is_bare && is_behind_fin;
    default: return true;
    }
}

static unsigned roll_hundred(struct weather *weather) {
    weather->seed = weather->seed * 6364136223846793005u + 1442695040888963407u;
    return (unsigned)((weather->seed >> 33) % 100);
}

/* Whether the rule takes a segment that it counts. */
static bool takes(struct weather *weather, struct rule *rule) {
    rule->seen++;
    if (rule->each > 0) return rule->seen % rule->each == 0;
    if (rule->of_hundred > 0) return roll_hundred(weather) < rule->of_hundred;
    return rule->first <= rule->seen && rule->seen <= rule->last;
}

static enum fate fate_of(struct weather *weather, enum way way, const uint8_t *bytes, size_t length) {
    size_t at = 0, end = 0;
    enum fate fate = PASSES;
    bool is_decided = false;
    if (!find_segment(bytes, length, &at, &end)) return PASSES;
    uint8_t flags = bytes[at + 13];
    bool has_data = at + (bytes[at + 12] >> 4) * 4u < end;
    for (size_t i = 0; i < weather->count; i++) {
        struct rule *rule = &weather->rules[i];
        if (rule->way != way || !is_of_kind(rule->kind, flags, has_data, weather->saw_fin[1 - way])) continue;
        bool is_taken = takes(weather, rule);
        if (is_taken && !is_decided) fate = rule->fate;
        is_decided = is_decided || is_taken;
    }
    if ((flags & FIN_FLAG) != 0) weather->saw_fin[way] = true;
    return fate == LATE && length > sizeof weather->next.bytes ? PASSES : fate;
}

static void keep(struct kept *kept, const uint8_t *bytes, size_t length) {
    if (length > sizeof kept->bytes) return;
    memcpy(kept->bytes, bytes, length);
    kept->length = length;
}

ssize_t weather_read(struct weather *weather, int device, uint8_t *bytes, size_t room) {
    if (weather->next.length > 0 && weather->next.length <= room) {
        size_t length = weather->next.length;
        memcpy(bytes, weather->next.bytes, length);
        weather->next.length = 0;
        return (ssize_t)length;
    }
    ssize_t length;
    while ((length = read(device, bytes, room)) > 0) {
        struct kept *late = &weather->late[COMES_IN];
        enum fate fate = fate_of(weather, COMES_IN, bytes, (size_t)length);
        if (fate == LATE && late->length == 0) {
            keep(late, bytes, (size_t)length);
        } else if (fate != LOST) {
            if (fate == TWICE) {
                keep(&weather->next, bytes, (size_t)length);
            } else if (late->length > 0) {
                weather->next = *late;
                late->length = 0;
            }
            return length;
        }
    }
    return length;
}

ssize_t weather_write(struct weather *weather, int device, const uint8_t *bytes, size_t length) {
    struct kept *late = &weather->late[GOES_OUT];
    enum fate fate = fate_of(weather, GOES_OUT, bytes, length);
    if (fate == LATE && late->length == 0) {
        keep(late, bytes, length);
        return (ssize_t)length;
    }
    if (fate == LOST) return (ssize_t)length;
    ssize_t done = write(device, bytes, length);
    if (fate == TWICE) done = write(device, bytes, length);
    if (late->length > 0 && write(device, late->bytes, late->length) > 0) late->length = 0;
    return done;
}
