/* The weather of a test: chosen datagrams are lost, come twice or come late on their way between ao-nc and its device. */
#ifndef WEATHER_H
#define WEATHER_H

#include <stdbool.h>
#include <stddef.h>
#include <stdint.h>
#include <sys/types.h>

enum way { GOES_OUT, COMES_IN };

/* What becomes of a datagram. One that is late goes on behind the next of its way. */
enum fate { PASSES, LOST, TWICE, LATE };

/* What a segment is. A bare one has no data and none of the three flags; an ending one is a bare one behind a FIN of the
 * other way, so the first of these acknowledges that FIN where nothing else was left to do so. */
enum kind { ANY, SYN, FIN, RST, DATA, BARE, ENDING };

/* A rule counts the segments of one kind on one way, and takes some of them by their number, from 1. */
struct rule {
    enum way way;
    enum kind kind;
    enum fate fate;
    unsigned first, last; /* those from first to last, */
    unsigned each;        /* or, if it isn't 0, each of so many, */
    unsigned of_hundred;  /* or, if it isn't 0, so many of a hundred, by chance */
    unsigned seen;
};

/* A datagram that is kept; none where the length is 0. */
struct kept {
    size_t length;
    uint8_t bytes[1500];
};

struct weather {
    struct rule rules[24];
    size_t count;
    uint64_t seed;
    bool saw_fin[2];
    struct kept late[2], next;
};

/* Adds the rules of a text, between which commas stand; false where it has a fault. A rule is WAY:WHICH:FATE. WAY is out
 * or in; WHICH any, syn, fin, rst, data, bare or ending, or nothing for any, and then N, N-M, %N (each N-th) or ~N (N of
 * a hundred), or nothing for the first; FATE drop, dup or hold. The first rule that takes a segment counts. */
bool read_weather(struct weather *weather, const char *text);

/* As read(2) and write(2) on the device, under this weather. */
ssize_t weather_read(struct weather *weather, int device, uint8_t *bytes, size_t room);
ssize_t weather_write(struct weather *weather, int device, const uint8_t *bytes, size_t length);

#endif
