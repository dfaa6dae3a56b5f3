/* Times the walk of one function of 65,536 words by the proved library: `timed RUNS` prints the best and the mean in
   nanoseconds, and the best of the checks alone, which are a part of the walk. Built and run by bench/walk. */
#include <stddef.h>
#include <stdint.h>
#include <stdio.h>
#include <stdlib.h>
#include <time.h>

/* A slice is passed as a pointer and then a length. */
size_t timed_walk(const uint32_t *sections, size_t sections_len, const uint8_t *bytes, size_t bytes_len, const uint32_t *outcomes,
                  size_t outcomes_len, const uint32_t *none, size_t none_len, const uint64_t *known, size_t known_len, uint64_t start);

uint32_t timed_check(const uint32_t *sections, size_t sections_len, const uint8_t *bytes, size_t bytes_len, const uint32_t *outcomes,
                     size_t outcomes_len, const uint32_t *none, size_t none_len);

enum { WORDS = 65536 };
static const uint32_t base = 0x80003000u;

static uint32_t sections[4] = {1, 0x80003000u, 4 * WORDS, 4 * WORDS}, outcomes[6 * WORDS];
static uint8_t bytes[4 * WORDS];
static uint64_t known[1];

static double now(void) {
    struct timespec t;
    clock_gettime(CLOCK_MONOTONIC, &t);
    return t.tv_sec * 1e9 + t.tv_nsec;
}

/* `addi r3,r3,1`, which goes on, again and again, and `blr`, which returns. */
static void fill(void) {
    for (size_t i = 0; i < WORDS; i++) {
        uint32_t word = i < WORDS - 1 ? 0x38630001u : 0x4E800020u;
        for (int j = 0; j < 4; j++) bytes[4 * i + j] = word >> (24 - 8 * j);
    }
    outcomes[6 * (WORDS - 1)] = 3;
}

static size_t walk(void) {
    return timed_walk(sections, 4, bytes, 4 * WORDS, outcomes, 6 * WORDS, sections, 0, known, 0, ((uint64_t)1 << 32) + base);
}

int main(int argc, char **argv) {
    int runs = argc == 2 ? atoi(argv[1]) : 1;
    fill();
    double best = 1e18, sum = 0;
    for (int i = 0; i < runs; i++) {
        double from = now();
        size_t blocks = walk();
        double took = now() - from;
        if (blocks != 1) {
            fprintf(stderr, "%zu blocks, and there is one\n", blocks);
            return 1;
        }
        if (took < best) best = took;
        sum += took;
    }
    double least = 1e18;
    for (int i = 0; i < runs; i++) {
        double from = now();
        uint32_t number = timed_check(sections, 4, bytes, 4 * WORDS, outcomes, 6 * WORDS, sections, 0);
        double took = now() - from;
        if (number != 0) {
            fprintf(stderr, "the image is refused under %u\n", number);
            return 1;
        }
        if (took < least) least = took;
    }
    printf("%.0f %.0f %.0f\n", best, sum / runs, least);
    return 0;
}
