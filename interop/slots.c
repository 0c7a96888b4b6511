/* What stands in slots: sockets of the kernel, and running ao-ncs, whose bytes and ends are told to the host. */
#define _GNU_SOURCE
#include "guest.h"

#include <errno.h>
#include <fcntl.h>
#include <netinet/in.h>
#include <netinet/tcp.h>
#include <signal.h>
#include <stdlib.h>
#include <string.h>
#include <sys/wait.h>
#include <unistd.h>

struct slot slots[SLOTS];

void clear(struct slot *slot) {
    if (slot->kind == CHILD) {
        if (slot->child > 0) {
            kill(slot->child, SIGKILL);
            waitpid(slot->child, NULL, 0);
        }
        if (slot->in >= 0)
            close(slot->in);
        close(slot->out);
        if (slot->err >= 0)
            close(slot->err);
    } else if (slot->kind != FREE) {
        close(slot->in);
    }
    free(slot->bytes);
    memset(slot, 0, sizeof *slot);
}

/* nc SLOT WORD..: ao-nc with these words */
static int start_nc(struct slot *slot, char **words) {
    int in[2], out[2], err[2];
    if (pipe2(in, O_CLOEXEC) || pipe2(out, O_CLOEXEC) || pipe2(err, O_CLOEXEC))
        return fail("pipe");
    pid_t child = fork();
    if (child == 0) {
        dup2(in[0], 0);
        dup2(out[1], 1);
        dup2(err[1], 2);
        words[1] = "/ao-nc";
        execv("/ao-nc", words + 1);
        _exit(127);
    }
    close(in[0]);
    close(out[1]);
    close(err[1]);
    fcntl(in[1], F_SETFL, O_NONBLOCK);
    *slot = (struct slot){.kind = CHILD, .in = in[1], .out = out[0], .err = err[0], .child = child};
    return 0;
}

/* Writes what waits; behind the last of it the slot is shut, if that was asked. */
void flush_slot(int number) {
    struct slot *slot = &slots[number];
    while (slot->done < slot->count) {
        ssize_t wrote = write(slot->in, slot->bytes + slot->done, slot->count - slot->done);
        if (wrote < 0 && errno == EAGAIN)
            return;
        if (wrote < 0) {
            say('E', "unwritten %d %s", number, strerror(errno));
            slot->done = slot->count;
            break;
        }
        slot->done += (size_t)wrote;
    }
    slot->done = slot->count = 0;
    if (!slot->shut)
        return;
    slot->shut = 0;
    if (slot->kind == CHILD) {
        close(slot->in);
        slot->in = -1;
    } else {
        shutdown(slot->in, SHUT_WR);
    }
}

/* Bytes to be written. */
void give_slot(int number, const unsigned char *bytes, size_t count) {
    struct slot *slot = &slots[number];
    if (slot->kind == FREE)
        return;
    if (slot->done > slot->count / 2) {
        memmove(slot->bytes, slot->bytes + slot->done, slot->count - slot->done);
        slot->count -= slot->done;
        slot->done = 0;
    }
    slot->bytes = realloc(slot->bytes, slot->count + count);
    memcpy(slot->bytes + slot->count, bytes, count);
    slot->count += count;
    flush_slot(number);
}

/* file NAME HEX: a file of these bytes */
int write_file(char **words) {
    int file = open(words[1], O_WRONLY | O_CREAT | O_TRUNC, 0600);
    static unsigned char bytes[50000];
    size_t count = bytes_of(words[2], bytes, sizeof bytes);
    ssize_t wrote = write(file, bytes, count);
    close(file);
    return wrote < 0 || (size_t)wrote != count ? fail("file") : 0;
}

int at_slot(int number, char **words) {
    struct slot *slot = &slots[number];
    if (!strcmp(words[0], "nc"))
        return start_nc(slot, words);
    if (!strcmp(words[0], "signal"))
        return kill(slot->child, atoi(words[2])) ? fail("kill") : 0;
    if (!strcmp(words[0], "read")) {
        slot->deaf = !atoi(words[2]);
        return 0;
    }
    if (!strcmp(words[0], "shut")) {
        slot->shut = 1;
        flush_slot(number);
        return 0;
    }
    if (!strcmp(words[0], "close")) {
        clear(slot);
        return 0;
    }
    if (!strcmp(words[0], "reset")) {
        struct linger now = {1, 0};
        setsockopt(slot->in, SOL_SOCKET, SO_LINGER, &now, sizeof now);
        clear(slot);
        return 0;
    }
    return at_socket(slot, words);
}

/* A listener's next connection gets a slot. */
void take_in(int number) {
    int free_slot = number + 1, one = 1;
    int accepted = accept4(slots[number].in, NULL, NULL, SOCK_NONBLOCK | SOCK_CLOEXEC);
    if (accepted < 0)
        return;
    while (free_slot < SLOTS && slots[free_slot].kind != FREE)
        free_slot++;
    if (free_slot == SLOTS) {
        close(accepted);
        return;
    }
    setsockopt(accepted, IPPROTO_TCP, TCP_NODELAY, &one, sizeof one);
    slots[free_slot] = (struct slot){.kind = SOCKET, .in = accepted, .out = accepted, .err = -1};
    say('E', "accepted %d %d", number, free_slot);
}

void end_connecting(int number) {
    int error = 0;
    socklen_t length = sizeof error;
    getsockopt(slots[number].in, SOL_SOCKET, SO_ERROR, &error, &length);
    slots[number].kind = SOCKET;
    slots[number].ended = error != 0;
    if (error)
        say('E', "failed %d %s", number, strerror(error));
    else
        say('E', "connected %d", number);
}

/* Tells of each ao-nc that has ended, with its status. */
void tell_ended(void) {
    for (int i = 0; i < SLOTS; i++) {
        int status;
        if (slots[i].kind != CHILD || slots[i].child == 0 || waitpid(slots[i].child, &status, WNOHANG) <= 0)
            continue;
        slots[i].child = 0;
        say('E', "exit %d %d", i, WIFEXITED(status) ? WEXITSTATUS(status) : 128 + WTERMSIG(status));
    }
}

void read_slot(int number) {
    unsigned char bytes[65536], which = (unsigned char)number;
    ssize_t got = read(slots[number].out, bytes, sizeof bytes);
    if (got > 0)
        frame('D', &which, 1, bytes, (size_t)got);
    if (got > 0 || (got < 0 && errno == EAGAIN))
        return;
    slots[number].ended = 1;
    if (got == 0)
        say('E', "end %d", number);
    else
        say('E', "broken %d %s", number, strerror(errno));
}

void read_lines(int number) {
    char text[4000];
    ssize_t got = read(slots[number].err, text, sizeof text - 1);
    if (got <= 0) {
        close(slots[number].err);
        slots[number].err = -1;
        return;
    }
    text[got] = 0;
    say('E', "said %d %s", number, text);
}
