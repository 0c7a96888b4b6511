/* The first program of the guest. It does what the host says over a virtio-serial port: it sets up networks, starts
   ao-nc on a TUN device, opens ordinary TCP sockets with TCP-AO keys at the kernel, and passes bytes on.

   A frame is a length (4 bytes, little-endian, of what follows), a type byte and its content.
   Host to guest: C, a command; W, a slot's number and bytes for it.
   Guest to host: A, the answer to a command; E, an event; D, a slot's number and bytes that it read; P, seconds and
   microseconds (4 bytes each) and a packet that passed a TUN device. */
#define _GNU_SOURCE
#include "guest.h"

#include <errno.h>
#include <fcntl.h>
#include <poll.h>
#include <signal.h>
#include <stdarg.h>
#include <stdint.h>
#include <stdio.h>
#include <stdlib.h>
#include <string.h>
#include <sys/mount.h>
#include <sys/reboot.h>
#include <sys/stat.h>
#include <sys/syscall.h>
#include <sys/wait.h>
#include <time.h>
#include <unistd.h>

static int port = -1;

static void send_all(const unsigned char *bytes, size_t count) {
    while (count > 0) {
        ssize_t wrote = write(port, bytes, count);
        if (wrote < 0) {
            struct pollfd ready = {port, POLLOUT, 0};
            poll(&ready, 1, 100);
            continue;
        }
        bytes += wrote;
        count -= (size_t)wrote;
    }
}

void frame(char type, const void *head, size_t head_count, const void *bytes, size_t count) {
    static unsigned char all[200000];
    uint32_t length = (uint32_t)(1 + head_count + count);
    memcpy(all, &length, 4);
    all[4] = (unsigned char)type;
    memcpy(all + 5, head, head_count);
    if (count > 0)
        memcpy(all + 5 + head_count, bytes, count);
    send_all(all, 5 + head_count + count);
}

void say(char type, const char *format, ...) {
    char text[8000];
    va_list values;
    va_start(values, format);
    int count = vsnprintf(text, sizeof text, format, values);
    va_end(values);
    frame(type, text, (size_t)count, NULL, 0);
}

int fail(const char *what) {
    say('A', "ERR %s: %s", what, strerror(errno));
    return -1;
}

/* What is asked and not done: whether it was answered. */
static int is_told(char **words) {
    if (!strcmp(words[0], "exit"))
        reboot(RB_AUTOBOOT);
    if (!strcmp(words[0], "clock"))
        say('A', "ok %lld", (long long)time(NULL));
    else if (!strcmp(words[0], "counters"))
        tell_counters();
    else if (!strcmp(words[0], "cat"))
        tell_file(words[1]);
    else if (!strcmp(words[0], "info"))
        tell_socket(slots[atoi(words[1]) % SLOTS].in);
    else
        return 0;
    return 1;
}

static void command(char *text) {
    static char *words[WORDS];
    char *rest = NULL;
    int count = 0;
    memset(words, 0, sizeof words);
    for (char *word = strtok_r(text, " \n", &rest); word && count < WORDS - 1; word = strtok_r(NULL, " \n", &rest))
        words[count++] = word;
    if (count == 0) {
        say('A', "ERR empty");
        return;
    }
    if (is_told(words))
        return;
    int number = count > 1 ? atoi(words[1]) : -1, failed;
    if (!strcmp(words[0], "net"))
        failed = net(words);
    else if (!strcmp(words[0], "file"))
        failed = write_file(words);
    else if (!strcmp(words[0], "put"))
        failed = put_packet(words);
    else if (number < 0 || number >= SLOTS)
        failed = fail("slot");
    else
        failed = at_slot(number, words);
    if (!failed)
        say('A', "ok");
}

static void hear(unsigned char *bytes, uint32_t length) {
    static char text[100000];
    if (bytes[0] == 'C' && length < sizeof text) {
        memcpy(text, bytes + 1, length - 1);
        text[length - 1] = 0;
        command(text);
    } else if (bytes[0] == 'W' && bytes[1] < SLOTS) {
        give_slot(bytes[1], bytes + 2, length - 2);
    }
}

/* The frames that came over the port. */
static void hear_port(void) {
    static unsigned char bytes[400000];
    static size_t have;
    ssize_t got = read(port, bytes + have, sizeof bytes - have);
    if (got <= 0) { /* no host is there; poll doesn't wait for one */
        usleep(got == 0 ? 500000 : 20000);
        return;
    }
    have += (size_t)got;
    size_t at = 0;
    while (have - at >= 4) {
        uint32_t length;
        memcpy(&length, bytes + at, 4);
        if (length > 300000)
            _exit(1);
        if (have - at < 4 + length)
            break;
        hear(bytes + at + 4, length);
        at += 4 + length;
    }
    memmove(bytes, bytes + at, have - at);
    have -= at;
}

static void serve(void) {
    struct pollfd all[2 + 3 * SLOTS];
    int of[2 + 3 * SLOTS], count = 0;
    all[count] = (struct pollfd){port, POLLIN, 0};
    of[count++] = -1;
    all[count] = (struct pollfd){sniffer, POLLIN, 0};
    of[count++] = -2;
    for (int i = 0; i < SLOTS; i++) {
        struct slot *slot = &slots[i];
        if (slot->kind == FREE)
            continue;
        if (!slot->ended && !slot->deaf) {
            all[count] = (struct pollfd){slot->out, slot->kind == CONNECTING ? POLLOUT : POLLIN, 0};
            of[count++] = i;
        }
        if (slot->done < slot->count && slot->in >= 0) {
            all[count] = (struct pollfd){slot->in, POLLOUT, 0};
            of[count++] = SLOTS + i;
        }
        if (slot->kind == CHILD && slot->err >= 0) {
            all[count] = (struct pollfd){slot->err, POLLIN, 0};
            of[count++] = 2 * SLOTS + i;
        }
    }
    poll(all, (nfds_t)count, 200);
    tell_ended();
    if (all[1].revents)
        hear_packets();
    for (int i = 2; i < count; i++) {
        int number = of[i] % SLOTS;
        if (!all[i].revents)
            continue;
        if (of[i] >= 2 * SLOTS)
            read_lines(number);
        else if (of[i] >= SLOTS)
            flush_slot(number);
        else if (slots[number].kind == LISTENER)
            take_in(number);
        else if (slots[number].kind == CONNECTING)
            end_connecting(number);
        else
            read_slot(number);
    }
    if (all[0].revents) /* last, since slots may change */
        hear_port();
}

static void load(const char *module) {
    int file = open(module, O_RDONLY | O_CLOEXEC);
    if (file >= 0 && syscall(SYS_finit_module, file, "", 0))
        printf("module %s: %s\n", module, strerror(errno));
    close(file);
}

static void tell_version(void) {
    char version[500] = "";
    int file = open("/proc/version", O_RDONLY | O_CLOEXEC);
    if (read(file, version, sizeof version - 1) < 0)
        version[0] = 0;
    close(file);
    say('E', "up %s", version);
}

static int open_port(int number) {
    char name[2][32];
    snprintf(name[0], sizeof name[0], "/dev/vport0p%d", number);
    snprintf(name[1], sizeof name[1], "/dev/vport1p%d", number);
    for (int i = 0; i < 400; i++) {
        int opened = open(name[i % 2], O_RDWR | O_NONBLOCK | O_CLOEXEC);
        if (opened >= 0)
            return opened;
        usleep(25000);
    }
    printf("no port %d: %s\n", number, strerror(errno));
    return -1;
}

static void set_up(void) {
    mkdir("/proc", 0755);
    mkdir("/sys", 0755);
    mkdir("/dev", 0755);
    mount("proc", "/proc", "proc", 0, NULL);
    mount("sysfs", "/sys", "sysfs", 0, NULL);
    mount("dev", "/dev", "devtmpfs", 0, NULL);
    int console = open("/dev/console", O_RDWR);
    for (int i = 0; i < 3 && console >= 0; i++)
        dup2(console, i);
    load("/tun.ko");
    load("/cmac.ko");
    if (access("/dev/net/tun", F_OK)) {
        mkdir("/dev/net", 0755);
        mknod("/dev/net/tun", S_IFCHR | 0600, 10 << 8 | 200);
    }
    signal(SIGPIPE, SIG_IGN);
}

/* One process for each port, of which the kernel's command line says how many there are (ports=N): each has networks of
   its own. */
int main(void) {
    set_up();
    const char *ports = getenv("ports");
    for (int number = 1; number <= (ports ? atoi(ports) : 1); number++) {
        if (fork() > 0)
            continue;
        port = open_port(number);
        if (port < 0)
            _exit(1);
        tell_version();
        for (;;)
            serve();
    }
    for (;;)
        wait(NULL);
}
