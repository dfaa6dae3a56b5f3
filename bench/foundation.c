/* Times a mark in a full table and the sequence tests, by the proved libraries. Built and run by bench/foundation. */
#include <stdbool.h>
#include <stddef.h>
#include <stdint.h>
#include <stdio.h>
#include <time.h>

/* A slice is passed as a pointer and then a length. */
uint32_t blocks_mark(uint64_t *starts, size_t starts_len, uint64_t *ends, size_t ends_len, size_t n, uint64_t addr,
                     size_t *count, bool *is_new);
bool check_prologue_sequence(const uint8_t *bytes, size_t len, uint32_t base, uint32_t addr);
bool check_epilogue_sequence(const uint8_t *bytes, size_t len, uint32_t base, uint32_t addr);

static double now(void) {
    struct timespec t;
    clock_gettime(CLOCK_MONOTONIC, &t);
    return t.tv_sec * 1e9 + t.tv_nsec;
}

static uint64_t starts[256], ends[256];
static uint8_t code[4 * 65536];
static volatile uint64_t sink;

static void fill(size_t n) {
    for (size_t i = 0; i < 256; i++) {
        starts[i] = i < n ? 0x100001000u + 16 * i : 0;
        ends[i] = i < n ? starts[i] + 16 : 0;
    }
}

/* The least of many runs: what else the machine does only adds to it. */
#define BEST(runs, calls, body)                                                                                     \
    ({                                                                                                              \
        double best = 1e18, worst = 0;                                                                              \
        for (int run = 0; run < (runs); run++) {                                                                    \
            double from = now();                                                                                    \
            for (int i = 0; i < (calls); i++) { body; }                                                             \
            double took = (now() - from) / (calls);                                                                 \
            if (took < best) best = took;                                                                           \
            if (took > worst) worst = took;                                                                         \
        }                                                                                                           \
        spread = worst / best;                                                                                      \
        best;                                                                                                       \
    })

int main(void) {
    double spread;
    size_t count;
    bool is_new;

    fill(256);
    double held = BEST(200, 10000, sink += blocks_mark(starts, 256, ends, 256, 256, 0x100001000u + 16 * (i % 256), &count, &is_new));
    printf("mark, 256 blocks, a start that is there          %7.1f ns   (slowest run %.1f times that)\n", held, spread);
    double full = BEST(200, 10000, sink += blocks_mark(starts, 256, ends, 256, 256, 0x100001008u + 16 * (i % 256), &count, &is_new));
    printf("mark, 256 blocks, full                           %7.1f ns   (%.1f)\n", full, spread);
    double cut = BEST(2000, 1, { fill(255); sink += blocks_mark(starts, 256, ends, 256, 255, 0x100001004u, &count, &is_new); });
    double copy = BEST(2000, 1, { fill(255); sink += starts[i % 256]; });
    printf("mark, 255 blocks, a cut in the first             %7.1f ns   (with the table's copying taken off)\n", cut - copy);

    for (size_t i = 0; i < sizeof code; i += 4) { code[i] = 0x38; code[i + 1] = 0x63; code[i + 2] = 0; code[i + 3] = 1; } /* addi r3,r3,1 */
    double fails = BEST(200, 65000, sink += check_prologue_sequence(code, sizeof code, 0x1000, 0x1000 + 4 * (uint32_t)i));
    printf("prologue test that fails at once                 %7.1f ns   (%.1f)\n", fails, spread);
    double fails_e = BEST(200, 65000, sink += check_epilogue_sequence(code, sizeof code, 0x1000, 0x1000 + 4 * (uint32_t)i));
    printf("epilogue test that fails at once                 %7.1f ns   (%.1f)\n", fails_e, spread);
    code[0] = 0x94; code[1] = 0x21; code[2] = 0xFF; code[3] = 0xF0; /* stwu r1,-16(r1), and no mflr up to the end */
    double scan = BEST(20, 10, sink += check_prologue_sequence(code, sizeof code, 0x1000, 0x1000)) / 65535;
    printf("a scan over 65,535 words, for each word          %7.1f ns   (%.1f)\n", scan, spread);
    return 0;
}
