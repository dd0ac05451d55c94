// Times the scans of a drawing: scan PATH INPUTS DT. INPUTS are names that blanks part, DT is in milliseconds.
//
// Prints the number of graphic elements, how many BOOL variables are TRUE after one scan, and nanoseconds a scan. The
// time is that of many scans with loading, less that of loading alone, each the least of some runs; it is the
// processor's time, so that other programs count little. With status 3: why the drawing is refused, and where.
#include <stdbool.h>
#include <stdint.h>
#include <stdio.h>
#include <stdlib.h>
#include <string.h>
#include <time.h>

struct size {
    uint32_t refusal;
    uint64_t line, column, elements;
};

struct size scan_bench_load(const char *text, size_t length);
uint64_t scan_bench_scan(const char *text, size_t length, const char *inputs, size_t inputs_length, uint32_t dt,
                         uint32_t scans);

static const uint64_t REFUSED = UINT64_MAX;
static const double ENOUGH = 0.3e9;
static const uint32_t MOST_SCANS = 1u << 30;
static const int RUNS = 5;

static char text[1 << 20];
static size_t length;
static const char *inputs;
static uint32_t dt;

static double now(void) {
    struct timespec at;
    clock_gettime(CLOCK_THREAD_CPUTIME_ID, &at);
    return at.tv_sec * 1e9 + at.tv_nsec;
}

static double time_of(uint32_t scans) {
    double begun = now();
    if (scan_bench_scan(text, length, inputs, strlen(inputs), dt, scans) == REFUSED) {
        fprintf(stderr, "scan: refused\n");
        exit(1);
    }
    return now() - begun;
}

static double least_time_of(uint32_t scans) {
    double least = time_of(scans);
    for (int run = 1; run < RUNS; run++) {
        double time = time_of(scans);
        if (time < least)
            least = time;
    }
    return least;
}

static bool read_text(const char *path) {
    FILE *file = fopen(path, "rb");
    if (!file)
        return false;
    length = fread(text, 1, sizeof text, file);
    bool whole = feof(file) && !ferror(file);
    fclose(file);
    return whole;
}

static const char *crate_of(uint32_t refusal) {
    static const char *names[] = {"", "not well drawn", "no networks", "names not bound", "no memory", "not UTF-8"};
    return refusal < sizeof names / sizeof *names ? names[refusal] : "refused";
}

int main(int count, char **words) {
    if (count != 4 || !read_text(words[1])) {
        fprintf(stderr, "usage: scan PATH INPUTS DT, and PATH is read whole\n");
        return 2;
    }
    inputs = words[2];
    dt = strtoul(words[3], 0, 10);
    struct size size = scan_bench_load(text, length);
    if (size.refusal) {
        printf("%llu:%llu: %s\n", (unsigned long long)size.line, (unsigned long long)size.column,
               crate_of(size.refusal));
        return 3;
    }
    uint64_t lit = scan_bench_scan(text, length, inputs, strlen(inputs), dt, 1);
    double loading = least_time_of(0);
    uint32_t scans = 1;
    while (time_of(scans) - loading < ENOUGH && scans < MOST_SCANS)
        scans *= 2;
    double scan = (least_time_of(scans) - loading) / scans;
    printf("%llu %llu %.3f\n", (unsigned long long)size.elements, (unsigned long long)lit, scan);
    return 0;
}
