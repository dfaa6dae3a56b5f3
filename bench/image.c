/* Times the check of a large image, by the proved library. Built and run by bench/image. */
#include <stddef.h>
#include <stdint.h>
#include <stdio.h>
#include <time.h>

/* A slice is passed as a pointer and then a length. */
uint32_t timed_check(const uint32_t *sections, size_t sections_len, const uint8_t *bytes, size_t bytes_len,
                     const uint32_t *outcomes, size_t outcomes_len, const uint32_t *functions, size_t functions_len,
                     const uint32_t *objects, size_t objects_len, const uint32_t *skips, size_t skips_len,
                     const uint32_t *entry, size_t entry_len);

enum { WORDS = 65536, SYMBOLS = 1024, SKIPS = 64, OTHERS = 7, OTHER_SIZE = 0x1000 };
static const uint32_t code = 0x80100000u, other = 0x80000000u;

static uint32_t sections[4 * 8], outcomes[6 * WORDS], functions[3 * SYMBOLS], objects[3 * SYMBOLS], skips[2 * SKIPS], entry[1];
static uint8_t bytes[4 * WORDS + OTHERS * OTHER_SIZE];
static size_t bytes_len;
static volatile uint32_t sink;

static double now(void) {
    struct timespec t;
    clock_gettime(CLOCK_MONOTONIC, &t);
    return t.tv_sec * 1e9 + t.tv_nsec;
}

static void row(uint32_t *list, size_t width, size_t i, const uint32_t *numbers) {
    for (size_t j = 0; j < width; j++) list[width * i + j] = numbers[j];
}

/* Eight sections with code last, so that each address is looked for in all of them; two branches on each code word. */
static void fill(void) {
    for (uint32_t i = 0; i < OTHERS; i++) {
        uint32_t kind = 2 + i % 3, given = kind == 4 ? 0 : OTHER_SIZE;
        row(sections, 4, i, (uint32_t[]){kind, other + i * OTHER_SIZE, OTHER_SIZE, given});
        bytes_len += given;
    }
    row(sections, 4, OTHERS, (uint32_t[]){1, code, 4 * WORDS, 4 * WORDS});
    bytes_len += 4 * WORDS;
    for (uint32_t i = 0; i < WORDS; i++)
        row(outcomes, 6, i, (uint32_t[]){6, i % 2, 1, code + 4 * (i * 7919u % WORDS), 5, code + 4 * (WORDS - 1 - i)});
    for (uint32_t i = 0; i < SYMBOLS; i++) {
        row(functions, 3, i, (uint32_t[]){code + 256 * i, 256, i % 2});
        row(objects, 3, i, (uint32_t[]){other + 28 * i, 28, i % 2});
    }
    for (uint32_t i = 0; i < SKIPS; i++) row(skips, 2, i, (uint32_t[]){code + 4096 * i, code + 4096 * i + 64});
    entry[0] = code;
}

static uint32_t check(void) {
    return timed_check(sections, 4 * 8, bytes, bytes_len, outcomes, 6 * WORDS, functions, 3 * SYMBOLS, objects, 3 * SYMBOLS, skips,
                       2 * SKIPS, entry, 1);
}

int main(void) {
    fill();
    if (check() != 0) {
        printf("the image does not pass: %u\n", check());
        return 1;
    }
    enum { RUNS = 1000 };
    double best = 1e18, worst = 0, sum = 0;
    for (int i = 0; i < RUNS; i++) {
        double from = now();
        sink += check();
        double took = now() - from;
        if (took < best) best = took;
        if (took > worst) worst = took;
        sum += took;
    }
    printf("check of 65,536 code words, eight sections, 1,024 symbols of each kind\n");
    printf("best of %d runs %.2f ms, mean %.1f times that, slowest %.1f times\n", RUNS, best / 1e6, sum / RUNS / best, worst / best);
    return 0;
}
