/* A client of `tcf agent` that does one request at a time, and prints how many a second.

       cc -O2 -o requests requests.c
       requests ADDRESS PORT COUNT             Locator sync
       requests ADDRESS PORT COUNT IMAGE       Memory get of 4 bytes, of a process that it starts from the image and
                                               terminates at the end

   It spends little time itself, so that the rate is the agent's and the system's. */
#define _GNU_SOURCE
#include <arpa/inet.h>
#include <netinet/in.h>
#include <netinet/tcp.h>
#include <stdio.h>
#include <stdlib.h>
#include <string.h>
#include <sys/socket.h>
#include <time.h>
#include <unistd.h>

#define EOM "\3\1"

static int line;
static char came[1 << 20]; /* what came and wasn't taken yet */
static size_t count;
static char taken[1 << 16]; /* the message that was taken last, ended by a zero byte of its own */

static void stop(const char *why) {
    fprintf(stderr, "requests: %s\n", why);
    exit(1);
}

static void put(const char *bytes, size_t length) {
    while (length > 0) {
        ssize_t sent = send(line, bytes, length, MSG_NOSIGNAL);
        if (sent <= 0) stop("the agent takes nothing");
        bytes += sent;
        length -= (size_t)sent;
    }
}

/* Takes the next message, without its end, and answers its length. */
static size_t message(void) {
    for (;;) {
        char *end = memmem(came, count, EOM, 2);
        if (end) {
            size_t length = (size_t)(end - came);
            if (length >= sizeof taken) stop("a long message");
            memcpy(taken, came, length);
            taken[length] = 0;
            count -= length + 2;
            memmove(came, end + 2, count);
            return length;
        }
        if (count == sizeof came) stop("a message without an end");
        ssize_t more = recv(line, came + count, sizeof came - count, 0);
        if (more <= 0) stop("the agent's stream ended");
        count += (size_t)more;
    }
}

/* Puts one command under this token, and takes all up to its answer, which is left in `taken`. */
static size_t ask(unsigned long token, const char *rest, size_t length) {
    char command[1024];
    char want[32];
    int head = snprintf(command, sizeof command, "C%c%lu%c", 0, token, 0);
    if (head + length + 2 > sizeof command) stop("a long command");
    memcpy(command + head, rest, length);
    memcpy(command + head + length, EOM, 2);
    put(command, (size_t)head + length + 2);
    snprintf(want, sizeof want, "%lu", token);
    for (;;) {
        size_t got = message();
        if (got > 2 && taken[0] == 'R' && strcmp(taken + 2, want) == 0) return got;
        if (got > 2 && taken[0] == 'N') stop("a command that the agent doesn't know");
    }
}

static double now(void) {
    struct timespec t;
    clock_gettime(CLOCK_MONOTONIC, &t);
    return (double)t.tv_sec + 1e-9 * (double)t.tv_nsec;
}

/* The text of an answer, its zero bytes as blanks. */
static char *text(size_t length) {
    for (size_t at = 0; at < length; at++)
        if (taken[at] == 0) taken[at] = ' ';
    return taken;
}

int main(int words, char **word) {
    if (words != 4 && words != 5) stop("usage: requests ADDRESS PORT COUNT [IMAGE]");
    struct sockaddr_in address = {.sin_family = AF_INET, .sin_port = htons((unsigned short)atoi(word[2]))};
    if (inet_pton(AF_INET, word[1], &address.sin_addr) != 1) stop("no address");
    long wanted = atol(word[3]);
    line = socket(AF_INET, SOCK_STREAM, 0);
    if (connect(line, (struct sockaddr *)&address, sizeof address)) stop("nobody listens there");
    int on = 1;
    setsockopt(line, IPPROTO_TCP, TCP_NODELAY, &on, sizeof on);
    static const char hello[] = "E\0Locator\0Hello\0[\"Locator\"]\0" EOM;
    put(hello, sizeof hello - 1);
    message();

    unsigned long token = 0;
    char rest[1024];
    int length;
    char process[32] = "";
    if (words == 4) {
        static const char sync[] = "Locator\0sync\0";
        memcpy(rest, sync, length = (int)sizeof sync - 1);
    } else {
        length = snprintf(rest, sizeof rest, "Processes%cstart%c\"\"%c\"%s\"%c[]%c[]%ctrue%c", 0, 0, 0, word[4], 0, 0, 0, 0);
        char *id = strstr(text(ask(++token, rest, (size_t)length)), "\"ID\":\"");
        if (!id || sscanf(id, "\"ID\":\"%31[^\"]", process) != 1) stop("no process was started");
        length = snprintf(rest, sizeof rest, "Memory%cget%c\"%s\"%c0%c1%c4%c0%c", 0, 0, process, 0, 0, 0, 0, 0);
        if (!strstr(text(ask(++token, rest, (size_t)length)), "=\"")) stop("no bytes were read");
    }
    double begin = now();
    for (long done = 0; done < wanted; done++) ask(++token, rest, (size_t)length);
    double time = now() - begin;
    printf("%ld requests in %.3f s: %.0f a second, %.2f microseconds each\n", wanted, time, (double)wanted / time,
           1e6 * time / (double)wanted);
    if (words == 5) {
        length = snprintf(rest, sizeof rest, "Processes%cterminate%c\"%s\"%c", 0, 0, process, 0);
        ask(++token, rest, (size_t)length);
    }
    return 0;
}
