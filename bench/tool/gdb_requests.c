/* A client of `gdbserver` that reads 4 bytes of memory, one request at a time, and prints how many a second: the
   counterpart of requests.c, which asks the same of `tcf agent`.

       cc -O2 -o gdb_requests gdb_requests.c
       gdb_requests ADDRESS PORT COUNT

   It asks for no acknowledgements, and reads at the stack pointer of an x86-64 process. */
#include <arpa/inet.h>
#include <netinet/in.h>
#include <netinet/tcp.h>
#include <stdio.h>
#include <stdlib.h>
#include <string.h>
#include <sys/socket.h>
#include <time.h>
#include <unistd.h>

static int line;
static char came[1 << 16];
static size_t count;
static char packet[1 << 16];

static void stop(const char *why) {
    fprintf(stderr, "gdb_requests: %s\n", why);
    exit(1);
}

static void put(const char *bytes, size_t length) {
    while (length > 0) {
        ssize_t sent = send(line, bytes, length, MSG_NOSIGNAL);
        if (sent <= 0) stop("the server takes nothing");
        bytes += sent;
        length -= (size_t)sent;
    }
}

/* Takes the next packet, without its `$` and its sum; what stands before the `$` is passed over. */
static void take(void) {
    for (;;) {
        char *begin = memchr(came, '$', count);
        char *end = begin ? memchr(begin, '#', (size_t)(came + count - begin)) : NULL;
        if (end && end + 3 <= came + count) {
            size_t length = (size_t)(end - begin - 1);
            memcpy(packet, begin + 1, length);
            packet[length] = 0;
            count = (size_t)(came + count - (end + 3));
            memmove(came, end + 3, count);
            return;
        }
        if (count == sizeof came) stop("a packet without an end");
        ssize_t more = recv(line, came + count, sizeof came - count, 0);
        if (more <= 0) stop("the server's stream ended");
        count += (size_t)more;
    }
}

static char asked[256];
static size_t length;

static void write_packet(const char *text) {
    unsigned char sum = 0;
    for (const char *at = text; *at; at++) sum = (unsigned char)(sum + *at);
    length = (size_t)snprintf(asked, sizeof asked, "$%s#%02x", text, sum);
}

static void ask(void) {
    put(asked, length);
    take();
}

/* Writes out the runs of a packet: `*` and a letter say how often more the letter before them stands (29 is none). */
static void spread(void) {
    char all[sizeof packet];
    size_t at = 0;
    for (char *from = packet; *from; from++) {
        if (*from == '*' && at > 0 && from[1]) {
            for (int more = *++from - 29; more > 0; more--) all[at] = all[at - 1], at++;
        } else {
            all[at++] = *from;
        }
    }
    all[at] = 0;
    strcpy(packet, all);
}

static double now(void) {
    struct timespec t;
    clock_gettime(CLOCK_MONOTONIC, &t);
    return (double)t.tv_sec + 1e-9 * (double)t.tv_nsec;
}

int main(int words, char **word) {
    if (words != 4) stop("usage: gdb_requests ADDRESS PORT COUNT");
    struct sockaddr_in address = {.sin_family = AF_INET, .sin_port = htons((unsigned short)atoi(word[2]))};
    if (inet_pton(AF_INET, word[1], &address.sin_addr) != 1) stop("no address");
    long wanted = atol(word[3]);
    line = socket(AF_INET, SOCK_STREAM, 0);
    if (connect(line, (struct sockaddr *)&address, sizeof address)) stop("nobody listens there");
    int on = 1;
    setsockopt(line, IPPROTO_TCP, TCP_NODELAY, &on, sizeof on);
    put("+", 1);
    write_packet("QStartNoAckMode");
    ask();
    if (strcmp(packet, "OK")) stop("it wants acknowledgements");
    put("+", 1);
    write_packet("?");
    ask();
    write_packet("Hg0");
    ask();
    write_packet("g");
    ask();
    spread();
    if (strlen(packet) < 8 * 16) stop("no registers came");
    unsigned long stack = 0;
    for (int byte = 7; byte >= 0; byte--) {
        unsigned one;
        if (sscanf(packet + 7 * 16 + 2 * byte, "%2x", &one) != 1) stop("a register that doesn't read");
        stack = stack << 8 | one;
    }
    char text[64];
    snprintf(text, sizeof text, "m%lx,4", stack);
    write_packet(text);
    ask();
    spread();
    if (strlen(packet) != 8) stop("no bytes were read");
    double begin = now();
    for (long done = 0; done < wanted; done++) ask();
    double time = now() - begin;
    printf("%ld requests in %.3f s: %.0f a second, %.2f microseconds each\n", wanted, time, (double)wanted / time,
           1e6 * time / (double)wanted);
    return 0;
}
