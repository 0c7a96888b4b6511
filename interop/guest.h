/* What the parts of the guest's first program share. */
#ifndef GUEST_H
#define GUEST_H

#include <stddef.h>
#include <sys/socket.h>
#include <sys/types.h>

#define SLOTS 64
#define WORDS 40

enum kind { FREE, LISTENER, CONNECTING, SOCKET, CHILD };

/* A socket, or a running ao-nc with its three pipes. */
struct slot {
    enum kind kind;
    int in, out, err; /* of a socket all one, but for err */
    pid_t child;
    int ended; /* nothing more comes */
    int deaf;  /* nothing is read for now */
    int shut;  /* shut once all is written */
    unsigned char *bytes;
    size_t count, done;
};

extern struct slot slots[SLOTS];
extern int sniffer, is_v6;

/* guest.c: frames to the host. fail answers a command by errno, and is -1. */
void frame(char type, const void *head, size_t head_count, const void *bytes, size_t count);
void say(char type, const char *format, ...);
int fail(const char *what);

/* slots.c: what stands in slots. */
void clear(struct slot *slot);
int at_slot(int number, char **words);
int write_file(char **words);
void give_slot(int number, const unsigned char *bytes, size_t count);
void flush_slot(int number);
void take_in(int number);
void end_connecting(int number);
void read_slot(int number);
void read_lines(int number);
void tell_ended(void);

/* network.c: networks, packets, and what the kernel tells of itself. -1 where a command was answered by its fault. */
socklen_t address(const char *text, int number, struct sockaddr_storage *to);
size_t bytes_of(const char *hex, unsigned char *bytes, size_t most);
int net(char **words);
int put_packet(char **words);
void hear_packets(void);
void tell_file(const char *path);
void tell_counters(void);

/* sockets.c: commands to one socket; info is answered by itself. */
int at_socket(struct slot *slot, char **words);
void tell_socket(int socket);

#endif
