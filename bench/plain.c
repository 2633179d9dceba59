/* Settles a packed book from standard input by plain rounds over arrays (Bellman-Ford), and prints the nanoseconds of the
   fastest of several runs, then how many events and rules there are and either the sum of the times or the word ring. */
#include <stdint.h>
#include <stdio.h>
#include <stdlib.h>
#include <time.h>

static uint8_t file[70000];
static int first[4096], second[4096];
static int64_t limit[4096], at[1024];

static int u16_at(int i) { return file[i] << 8 | file[i + 1]; }

/* Whether the times settle within as many rounds as there are events. */
static int settle(int events, int rules) {
    for (int v = 0; v < events; v++) at[v] = 0;
    for (int round = 0; round <= events; round++) {
        int lowered = 0;
        for (int r = 0; r < rules; r++) {
            int64_t latest = at[first[r]] + limit[r];
            if (latest < at[second[r]]) { at[second[r]] = latest; lowered = 1; }
        }
        if (!lowered) return 1;
    }
    return 0;
}

static int64_t now(void) {
    struct timespec t;
    clock_gettime(CLOCK_MONOTONIC, &t);
    return (int64_t)t.tv_sec * 1000000000 + t.tv_nsec;
}

int main(int argc, char **argv) {
    int runs = argc > 1 ? atoi(argv[1]) : 20;
    if (fread(file, 1, sizeof file, stdin) < 9) return 1;
    int events = u16_at(5), rules = u16_at(7);
    for (int r = 0; r < rules; r++) {
        int start = 9 + 10 * r;
        first[r] = u16_at(start + 2);
        second[r] = u16_at(start + 4);
        limit[r] = (int32_t)((uint32_t)u16_at(start + 6) << 16 | u16_at(start + 8));
    }
    int64_t best = INT64_MAX, sum = 0;
    int met = 0;
    for (int run = 0; run < runs; run++) {
        int64_t start = now();
        met = settle(events, rules);
        int64_t took = now() - start;
        if (took < best) best = took;
    }
    for (int v = 0; v < events; v++) sum += at[v];
    printf("%lld events %d rules %d ", (long long)best, events, rules);
    if (met) printf("sum %lld\n", (long long)sum); else printf("ring\n");
    return 0;
}
