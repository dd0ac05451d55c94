// What bench/cycle needs beside a node, each in a process of its own.
//
// cycle loop MS UNTIL: a cycle that does nothing: wakes at the multiples of MS by clock_nanosleep until UNTIL ms have gone, and
// writes the lines of a node whose task is due then: START, EVAL, and before it OVERRUN with the due moments that it skips.
// cycle stamp: reads a node's lines, and once they end writes the clock's ns at which each of these came, and its beginning.
#include <stdint.h>
#include <stdio.h>
#include <stdlib.h>
#include <string.h>
#include <time.h>
#include <unistd.h>

static int64_t now(void) {
    struct timespec at;
    clock_gettime(CLOCK_MONOTONIC, &at);
    return at.tv_sec * 1000000000LL + at.tv_nsec;
}

static void loop(int64_t each, int64_t until) {
    int64_t start = now();
    puts("START LOOP 1");
    fflush(stdout);
    for (int64_t due = each; due <= until; due += each) {
        int64_t at = start + due;
        struct timespec wake = {at / 1000000000, at % 1000000000};
        clock_nanosleep(CLOCK_MONOTONIC, TIMER_ABSTIME, &wake, NULL);
        int64_t skipped = (now() - at) / each;
        if (skipped)
            printf("OVERRUN L.T %lld\n", (long long)skipped);
        due += skipped * each;
        puts("EVAL 1 L.T");
        fflush(stdout);
    }
}

struct stamp {
    int64_t at;
    char text[32];
};

static struct stamp *stamps;
static size_t count, room;

// Keeps a line of which so much has come: its beginning, if it is one that bench/cycle looks at.
static void keep(int64_t at, const char *text, size_t length) {
    if (strncmp(text, "START", 5) && strncmp(text, "EVAL", 4) && strncmp(text, "OVERRUN", 7))
        return;
    if (count == room) {
        room = room ? 2 * room : 1 << 16;
        stamps = realloc(stamps, room * sizeof *stamps);
        if (!stamps)
            exit(1);
    }
    struct stamp *it = &stamps[count++];
    it->at = at;
    size_t kept = length < sizeof it->text - 1 ? length : sizeof it->text - 1;
    memcpy(it->text, text, kept);
    it->text[kept] = 0;
}

static void stamp(void) {
    static char piece[1 << 16];
    char line[32] = {0};
    size_t length = 0;
    ssize_t came;
    while ((came = read(0, piece, sizeof piece)) > 0) {
        int64_t at = now();
        for (ssize_t k = 0; k < came; k++) {
            if (piece[k] == '\n') {
                keep(at, line, length);
                memset(line, 0, sizeof line);
                length = 0;
            } else if (length < sizeof line) {
                line[length++] = piece[k];
            }
        }
    }
    for (size_t k = 0; k < count; k++)
        printf("%lld %s\n", (long long)stamps[k].at, stamps[k].text);
}

int main(int words, char **word) {
    if (words == 4 && !strcmp(word[1], "loop"))
        loop(atoll(word[2]) * 1000000, atoll(word[3]) * 1000000);
    else if (words == 2 && !strcmp(word[1], "stamp"))
        stamp();
    else
        return 2;
    return 0;
}
