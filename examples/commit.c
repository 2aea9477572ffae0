/* commit ADDRESS PORT VERSION KEY: puts a key in a transaction and reads it there. It prints the value and the outcome
 * of each request. All requests go out in one pipeline. VERSION is 44, 50 or 51, or 0 for the newest that the server
 * takes.
 *
 *     scripts/build_unproved bolt_c        (or scripts/build_libbolt out/proved, which proves it first)
 *     cc -I include examples/commit.c out/unproved/libbolt.a -o commit */
#include "bolt.h"
#include <arpa/inet.h>
#include <errno.h>
#include <fcntl.h>
#include <stdio.h>
#include <stdlib.h>
#include <string.h>
#include <sys/socket.h>
#include <sys/time.h>
#include <unistd.h>

static const char *const outcomes[] = {"Done", "Committed", "Refused", "Ignored", "Lost", "Unknown", "Waits"};
static bolt_client client;
static bolt_standing now;
static bolt_asked last;
static uint64_t asked, pull;
static int fd;

static void stop(const char *why) { fprintf(stderr, "%s\n", why); bolt_close(&client); exit(3); }

static void ask(const char *message, size_t length) {
    uint32_t code = bolt_ask(&client, (const uint8_t *)message, length, &last);
    if (code == BOLT_NO_REQUEST || code == BOLT_UNWRITABLE)
        fprintf(stderr, "%c%c at %d\n", (char)(last.rule >> 8), (char)(last.rule & 255), (int)last.place);
    if (code) stop(code == BOLT_MEMORY ? "out of memory" : "not asked");
    asked = last.ordinal + 1;
}
#define ASK(text) ask(text, sizeof text - 1)

/* Makes a call again if a signal interrupts it. A stop of the process interrupts its wait at a socket too. */
#define AGAIN(count, call) do count = call; while (count < 0 && errno == EINTR)

static int send_all(void) {
    uint8_t bytes[4096];
    size_t count = 0;
    ssize_t sent;
    while (!bolt_unsent(&client, bytes, sizeof bytes, &count) && count) {
        AGAIN(sent, send(fd, bytes, count < sizeof bytes ? count : sizeof bytes, MSG_NOSIGNAL));
        if (sent <= 0) return 0;
        bolt_sent(&client, (size_t)sent);
    }
    return 1;
}

/* Reads answers until none is to come. Returns 0 if the connection ends first, or memory runs out. */
static int settle(void) {
    uint8_t bytes[4096];
    while (!bolt_state(&client, &now) && now.awaits) {
        ssize_t count = 0;
        size_t used = 0;
        if (send_all()) AGAIN(count, recv(fd, bytes, sizeof bytes, 0));
        if (count <= 0) return 0;
        uint32_t code = bolt_feed(&client, bytes, (size_t)count, &used);
        if (code == BOLT_MEMORY) fprintf(stderr, "out of memory\n");
        if (code || used < (size_t)count) return 0;
    }
    return !now.has_ended;
}

/* Prints the integers of a request's rows, and says so if memory runs out before the last of them. */
static void show(uint64_t ordinal) {
    static uint8_t row[BOLT_MESSAGE];
    size_t length = 0;
    uint32_t code;
    bolt_value value;
    for (uint64_t i = 0; !(code = bolt_row(&client, ordinal, i, row, sizeof row, &length)); i++)
        for (size_t at = 0; !bolt_value_at(row, length, &at, &value);)
            if (value.kind == BOLT_INT) printf("value: %lld\n", (long long)value.integer);
    if (code == BOLT_MEMORY) fprintf(stderr, "out of memory\n");
}

/* Returns the number that a word is, or -1 if it is none from 0 to `most`. */
static long number(const char *word, long most) {
    char *end;
    long it = strtol(word, &end, 10);
    return *word && !*end && it >= 0 && it <= most ? it : -1;
}

/* Returns a socket that waits for ten seconds at most. If a standard stream was closed, its descriptor is free, and the
 * socket must not get it. */
static int open_socket(void) {
    struct timeval longest = {.tv_sec = 10};
    int it = socket(AF_INET, SOCK_STREAM, 0), behind = fcntl(it, F_DUPFD, STDERR_FILENO + 1);
    setsockopt(it, SOL_SOCKET, SO_RCVTIMEO, &longest, sizeof longest);
    setsockopt(it, SOL_SOCKET, SO_SNDTIMEO, &longest, sizeof longest);
    return close(it), behind;
}

/* Returns a socket that is connected to an address, or -1. After an interrupted connect the socket can't be used, so it
 * takes a new one. */
static int connect_to(const struct sockaddr_in *at) {
    for (;;) {
        int it = open_socket();
        if (!connect(it, (const struct sockaddr *)at, sizeof *at)) return it;
        if (errno != EINTR) return -1;
        close(it);
    }
}

int main(int argc, char **argv) {
    long port = argc == 5 ? number(argv[2], 65535) : -1, version = argc == 5 ? number(argv[3], BOLT_5_1) : -1;
    if (port < 0 || version < 0 || strlen(argv[4]) > 15) return fprintf(stderr, "commit ADDRESS PORT VERSION KEY\n"), 2;
    struct sockaddr_in at = {.sin_family = AF_INET, .sin_port = htons((uint16_t)port)};
    char put[64], get[64], tiny = (char)(0x80 + strlen(argv[4]));
    int put_length = snprintf(put, sizeof put, "\xb3\x10\x83PUT\xa2\x83key%c%s\x85value\x01\xa0", tiny, argv[4]);
    int get_length = snprintf(get, sizeof get, "\xb3\x10\x83GET\xa1\x83key%c%s\xa0", tiny, argv[4]);
    int is_address = inet_pton(AF_INET, argv[1], &at.sin_addr) == 1;
    if (!is_address || (fd = connect_to(&at)) < 0) return fprintf(stderr, "no server\n"), 2;
    if (bolt_open(&client, (uint32_t)version, 1000)) stop("no client");
    if (!settle()) stop("no version was taken");
    if (now.version == BOLT_5_1) {
        ASK("\xb1\x01\xa1\x8auser_agent\x88" "commit/1");
        ASK("\xb1\x6a\xa3\x86scheme\x85" "basic\x89principal\x84user\x8b" "credentials\x84pass");
    } else {
        ASK("\xb1\x01\xa4\x8auser_agent\x88" "commit/1\x86scheme\x85" "basic\x89principal\x84user\x8b"
            "credentials\x84pass");
    }
    ASK("\xb1\x11\xa0"), ask(put, (size_t)put_length), ASK("\xb1\x2f\xa1\x81n\xff");
    ask(get, (size_t)get_length), ASK("\xb1\x3f\xa1\x81n\xff");
    pull = last.ordinal;
    ASK("\xb0\x12");
    if (!settle()) bolt_lose(&client);
    show(pull);
    for (uint64_t i = 0; i < asked; i++) {
        uint32_t outcome = BOLT_WAITS;
        bolt_outcome(&client, i, &outcome);
        printf("%d: %s\n", (int)i, outcomes[outcome]);
    }
    int printed = !fflush(stdout) && !ferror(stdout);
    if (!printed) fprintf(stderr, "standard output failed\n");
    return bolt_close(&client), close(fd), printed ? 0 : 1;
}
