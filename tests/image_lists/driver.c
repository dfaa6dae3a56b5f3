/* The library on images that come as one list each. Built and run by `run` in this folder.

   Standard input, numbers in the machine's order: how many numbers the list has and the numbers, how many bytes and the bytes; how many
   numbers are lent for rows and for lists; and so on to its end. For each image it writes the number, how many entries and numbers there
   are, and the rows and numbers of a map. Everything that is lent has exactly its length, with words around what is written that must stay
   as they are; after 1 to 3 what is lent must be as it was, after 4 to 17 it must be zero, and so must be what lies behind a map. */
#include <stdio.h>
#include <stdlib.h>
#include <string.h>

#include "woqchari.h"

enum { AROUND = 16 };
static const uint64_t untouched = 0xA5A5A5A55A5A5A5Au;

static void demand(int holds, const char *words) {
    if (holds) return;
    fprintf(stderr, "%s\n", words);
    exit(1);
}

/* Whether there is something to be read. */
static int read_whole(void *to, size_t size, size_t count) {
    size_t got = fread(to, size, count, stdin);
    demand(got == count || (got == 0 && feof(stdin)), "the input is cut");
    return got == count;
}

static uint32_t read_count(void) {
    uint32_t n;
    demand(read_whole(&n, sizeof n, 1), "the input is cut");
    return n;
}

/* So many bytes and no more; none has an address, too. */
static void *room(size_t bytes) {
    void *got = malloc(bytes ? bytes : 1);
    demand(got != NULL, "no memory");
    return got;
}

static uint64_t *lent(size_t n) {
    uint64_t *got = room((n + 2 * AROUND) * sizeof *got);
    for (size_t i = 0; i < n + 2 * AROUND; i++) got[i] = untouched;
    return got + AROUND;
}

static int all(const uint64_t *list, size_t n, uint64_t value) {
    for (size_t i = 0; i < n; i++)
        if (list[i] != value) return 0;
    return 1;
}

static void look_around(const uint64_t *list, size_t n) {
    demand(all(list - AROUND, AROUND, untouched) && all(list + n, AROUND, untouched), "written outside what is lent");
}

int main(void) {
    uint32_t n;
    while (read_whole(&n, sizeof n, 1)) {
        uint32_t *image = room(n * sizeof *image), *before = room(n * sizeof *image);
        demand(n == 0 || read_whole(image, sizeof *image, n), "the input is cut");
        memcpy(before, image, n * sizeof *image);
        uint32_t m = read_count();
        uint8_t *bytes = room(m);
        demand(m == 0 || read_whole(bytes, 1, m), "the input is cut");
        uint32_t rows_len = read_count(), lists_len = read_count();
        uint64_t *rows = lent(rows_len), *lists = lent(lists_len);
        size_t entries = 99, numbers = 99;
        uint32_t checked = woqchari_check_image(image, n, bytes, m);
        uint32_t number = woqchari_detect_in_image(image, n, bytes, m, rows, rows_len, lists, lists_len, &entries, &numbers);
        look_around(rows, rows_len);
        look_around(lists, lists_len);
        demand(memcmp(before, image, n * sizeof *image) == 0, "the image is written to");
        demand(woqchari_words(number) != NULL, "a number that there is not");
        demand(number > 3 || number == 0 ? checked == 0 : checked == number, "the check says another number");
        if (number != 0) {
            uint64_t left = number <= 3 ? untouched : 0;
            demand(entries == 0 && numbers == 0, "counts beside a number");
            demand(all(rows, rows_len, left) && all(lists, lists_len, left), "the lent lists are not as they should be beside a number");
        } else {
            demand(entries <= rows_len / WOQCHARI_ROW && numbers <= lists_len, "more than is lent");
            demand(all(rows + entries * WOQCHARI_ROW, rows_len - entries * WOQCHARI_ROW, 0), "behind the rows is no zero");
            demand(all(lists + numbers, lists_len - numbers, 0), "behind the lists is no zero");
        }
        uint64_t told[] = {number, entries, numbers};
        fwrite(told, sizeof *told, 3, stdout);
        fwrite(rows, sizeof *rows, entries * WOQCHARI_ROW, stdout);
        fwrite(lists, sizeof *lists, numbers, stdout);
        free(image), free(before), free(bytes), free(rows - AROUND), free(lists - AROUND);
    }
    return 0;
}
