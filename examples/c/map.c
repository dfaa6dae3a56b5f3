/* Prints the map of a small image, in the lines that `fmap` prints. Built and run by tests/link. */
#include <inttypes.h>
#include <stdio.h>

#include "woqchari.h"

/* Three functions: one with a frame, a call and a jump table; one that jumps to the third; and a symbol at a word of padding. */
static const uint32_t sections[] = {
    1, 0x1000, 80, 80, /* code */
    2, 0x2000, 8, 8,   /* data */
};

static const uint32_t words[] = {
    0x9421FFF0, 0x7C0802A6, 0x90010014, 0x2C030000, 0x4182000C, 0x48000025, 0x38630001, 0x4E800420, 0x38630002, 0x80010014, 0x7C0803A6,
    0x38210010, 0x4E800020, 0x00000000, 0x38630003, 0x4D820020, 0x48000008, 0x00000000, 0x38630004, 0x4E800020,
    0x00001020, 0x00001024, /* the jump table */
};

static const uint32_t outcomes[] = {
    0, 0, 0, 0, 0, 0,           /* 1000 stwu  r1,-16(r1) */
    0, 0, 0, 0, 0, 0,           /* 1004 mflr  r0 */
    0, 0, 0, 0, 0, 0,           /* 1008 stw   r0,20(r1) */
    0, 0, 0, 0, 0, 0,           /* 100C cmpwi r3,0 */
    6, 0, 1, 0x1014, 1, 0x101C, /* 1010 beq   101C */
    6, 0, 1, 0x1018, 5, 0x1038, /* 1014 bl    1038 */
    0, 0, 0, 0, 0, 0,           /* 1018 addi  r3,r3,1 */
    5, 0, 0x2000, 8, 0, 0,      /* 101C bctr */
    0, 0, 0, 0, 0, 0,           /* 1020 addi  r3,r3,2 */
    0, 0, 0, 0, 0, 0,           /* 1024 lwz   r0,20(r1) */
    0, 0, 0, 0, 0, 0,           /* 1028 mtlr  r0 */
    0, 0, 0, 0, 0, 0,           /* 102C addi  r1,r1,16 */
    3, 0, 0, 0, 0, 0,           /* 1030 blr */
    1, 0, 0, 0, 0, 0,           /* 1034 padding */
    0, 0, 0, 0, 0, 0,           /* 1038 addi  r3,r3,3 */
    6, 0, 1, 0x1040, 3, 0,      /* 103C beqlr */
    4, 0, 0x1048, 0, 0, 0,      /* 1040 b     1048 */
    1, 0, 0, 0, 0, 0,           /* 1044 padding */
    0, 0, 0, 0, 0, 0,           /* 1048 addi  r3,r3,4 */
    3, 0, 0, 0, 0, 0,           /* 104C blr */
};

static const uint32_t functions[] = {0x1044, 4, 1};
static const uint32_t entry[] = {0x1000};
static const uint32_t none[1];

#define LENGTH(list) (sizeof(list) / sizeof *(list))

enum { ENTRIES = 1024, NUMBERS = 131072 };
static uint64_t rows[WOQCHARI_ROW * ENTRIES], lists[NUMBERS];
static size_t entries, numbers;

/* An address, or - for none. */
static const char *printed(char *text, uint64_t key) {
    if (key == 0) return "-";
    snprintf(text, 9, "%08" PRIX32, woqchari_address(key));
    return text;
}

static void print_address(char letter, uint64_t key) { printf("%c %08" PRIX32 "\n", letter, woqchari_address(key)); }

/* Two columns of n numbers, one behind the other. */
static void print_pairs(char letter, const uint64_t *columns, uint64_t n) {
    char text[9];
    for (uint64_t i = 0; i < n; i++)
        printf("%c %08" PRIX32 " %s\n", letter, woqchari_address(columns[i]), printed(text, columns[n + i]));
}

/* A function's lines; where the next one's lists begin. */
static const uint64_t *print_function(const uint64_t *row, const uint64_t *list) {
    char prologue[9], epilogue[9];
    uint64_t flags = row[WOQCHARI_FLAGS];
    printf("F %08" PRIX32 " %08" PRIX32 " %s %s %d%d%d\n", woqchari_address(row[WOQCHARI_ENTRY]), woqchari_address(row[WOQCHARI_END]),
           printed(prologue, row[WOQCHARI_PROLOGUE]), printed(epilogue, row[WOQCHARI_EPILOGUE]), (flags & WOQCHARI_CONDITIONAL_BLR) != 0,
           (flags & WOQCHARI_RFI) != 0, (flags & WOQCHARI_LOAD_R1) != 0);
    print_pairs('B', list, row[WOQCHARI_BLOCKS]);
    list += 2 * row[WOQCHARI_BLOCKS];
    print_pairs('C', list, row[WOQCHARI_WAYS]);
    list += 2 * row[WOQCHARI_WAYS];
    for (uint64_t i = 0; i < row[WOQCHARI_REFERENCES]; i++) print_address('X', list[i]);
    list += row[WOQCHARI_REFERENCES];
    for (uint64_t i = 0; i < row[WOQCHARI_TABLES]; i++)
        printf("J %08" PRIX32 " %08" PRIX64 "\n", woqchari_address(list[i]), list[row[WOQCHARI_TABLES] + i]);
    return list + 2 * row[WOQCHARI_TABLES] + row[WOQCHARI_POSSIBLE];
}

int main(void) {
    uint8_t bytes[4 * LENGTH(words)];
    for (size_t i = 0; i < sizeof bytes; i++) bytes[i] = (uint8_t)(words[i / 4] >> (24 - 8 * (i % 4)));
    uint32_t number = woqchari_detect_functions(sections, LENGTH(sections), bytes, sizeof bytes, outcomes, LENGTH(outcomes), functions,
                                                LENGTH(functions), none, 0, none, 0, entry, LENGTH(entry), rows, LENGTH(rows), lists,
                                                LENGTH(lists), &entries, &numbers);
    printf("R %02" PRIu32 "\n", number);
    if (number != 0) return 1;
    const uint64_t *list = lists;
    for (size_t i = 0; i < entries; i++) {
        const uint64_t *row = rows + WOQCHARI_ROW * i;
        if (row[WOQCHARI_FLAGS] & WOQCHARI_HAS_LISTS) list = print_function(row, list);
        else print_address('N', row[WOQCHARI_ENTRY]);
    }
    return 0;
}
