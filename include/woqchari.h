/* The function map of a PowerPC image, by a library that is proved to give the map of the rules.

   Link with libwoqchari.a (tools/library builds it). The library allocates nothing, keeps nothing between calls, and reads and writes
   nothing but what it is lent. docs/ARCHITECTURE.md says more of each list.

   A call takes up to some 175 KB of stack (1,024 bytes each), whatever it is lent: measured on 2,625 images of all kinds, on x86-64. A thread
   of 174 KB, its own needs among them, crashed, and one of 176 KB did not; the code does not recurse. 256 KB leave room for the caller. */
#ifndef WOQCHARI_H
#define WOQCHARI_H

#include <stddef.h>
#include <stdint.h>

#ifdef __cplusplus
extern "C" {
#endif

/* ---- what is handed in: an image, as seven single lists (woqchari_detect_functions), or as one list of numbers that begins with a header,
   and its bytes (woqchari_detect_in_image). The lists' rows are the same in both.

   The header has WOQCHARI_HEADER numbers: the kind of image, how it is to be read, and for each list where it begins, counted in numbers
   from the header's first, and how many rows it has. A list is rows of so many numbers, one row behind the other. Lists may lie anywhere
   inside, in any order, with anything between them; nothing of it is written. woqchari_build below makes such a list of single arrays.

   A header that is not whole, a kind that there is not, and relocations are refused by 1. A list that does not lie inside breaks its own
   rule: 1 for sections, 2 for outcomes, 3 for the others; so does an empty one whose place lies behind the end. A reading that there is not
   is 3.

   sections   4 numbers: kind, base, size in bytes, how many bytes of it are lent (0 for bss, else its size). 1 to 8 sections, exactly one of
              code; at most 262,144 bytes of code.
   outcomes   6 numbers for each code word: kind, mark, and four by kind:
                go on, illegal, unknown jump, return     0, 0, 0, 0
                jump                                     target, 0, 0, 0
                jump table                               address, size (0 for none), 0, 0
                list of branches                         way, address, way, address; 0, 0 for no branch
              A way is one of three (elsewhere has the address 0), and WOQCHARI_WITH_LINK more with link. The mark is 1 where the link
              register holds 0x43300000, else 0.
   functions  3 numbers for each function symbol: address, size, 1 if the size is known, else 0. At most 1,024, ascending.
   objects    the same for object symbols, which lie outside code.
   skips      2 numbers for each range to skip: first address, first address past it. At most 64, ascending.
   entry      1 number: the entry point. At most one row.

   bytes      the bytes of all sections that have any, in the sections' order; words are big-endian. */

/* The header. Of a list its place, and behind that its rows: image[WOQCHARI_OUTCOMES], image[WOQCHARI_OUTCOMES + 1]. */
enum {
    WOQCHARI_KIND = 0,    /* 0: an executable */
    WOQCHARI_READING = 1, /* 0 */
    WOQCHARI_SECTIONS = 2,
    WOQCHARI_OUTCOMES = 4,
    WOQCHARI_FUNCTIONS = 6,
    WOQCHARI_OBJECTS = 8,
    WOQCHARI_SKIPS = 10,
    WOQCHARI_ENTRY_POINT = 12,
    WOQCHARI_RELOCATIONS = 14, /* none: 0 rows */
    WOQCHARI_HEADER = 16
};

/* How many numbers a row has. */
enum {
    WOQCHARI_SECTION = 4,
    WOQCHARI_OUTCOME = 6,
    WOQCHARI_SYMBOL = 3,
    WOQCHARI_SKIP = 2
};

/* Kinds of sections. */
enum {
    WOQCHARI_CODE = 1,
    WOQCHARI_DATA = 2,
    WOQCHARI_READ_ONLY = 3,
    WOQCHARI_BSS = 4
};

/* Kinds of outcomes: what a code word does. */
enum {
    WOQCHARI_GO_ON = 0,
    WOQCHARI_ILLEGAL = 1,
    WOQCHARI_UNKNOWN_JUMP = 2,
    WOQCHARI_RETURN = 3,
    WOQCHARI_JUMP = 4,
    WOQCHARI_JUMP_TABLE = 5,
    WOQCHARI_BRANCHES = 6
};

/* Ways of a list of branches. */
enum {
    WOQCHARI_TO_ADDRESS = 1,
    WOQCHARI_TO_TABLE = 2,
    WOQCHARI_ELSEWHERE = 3,
    WOQCHARI_WITH_LINK = 4
};

/* An image's lists as single arrays, each with how many rows it has; NULL and 0 for none. */
struct woqchari_arrays {
    const uint32_t *sections, *outcomes, *functions, *objects, *skips, *entry;
    size_t section_rows, outcome_rows, function_rows, object_rows, skip_rows, entry_rows;
};

/* One of them put behind `at` numbers of an image; how many numbers there are then. Rows past 2^32 - 1 cannot be told. */
static inline size_t woqchari_put(uint32_t *image, size_t at, size_t place, const uint32_t *list, size_t rows, size_t row) {
    image[place] = (uint32_t)at;
    image[place + 1] = (uint32_t)rows;
    for (size_t i = 0; i < rows * row; i++) image[at + i] = list[i];
    return at + rows * row;
}

/* How many numbers the image of these arrays takes. */
static inline size_t woqchari_length(const struct woqchari_arrays *of) {
    return WOQCHARI_HEADER + of->section_rows * WOQCHARI_SECTION + of->outcome_rows * WOQCHARI_OUTCOME +
           (of->function_rows + of->object_rows) * WOQCHARI_SYMBOL + of->skip_rows * WOQCHARI_SKIP + of->entry_rows;
}

/* The image of these arrays: woqchari_length(of) numbers of `image` are written. */
static inline void woqchari_build(uint32_t *image, const struct woqchari_arrays *of) {
    size_t at = WOQCHARI_HEADER;
    for (size_t i = 0; i < WOQCHARI_HEADER; i++) image[i] = 0;
    at = woqchari_put(image, at, WOQCHARI_SECTIONS, of->sections, of->section_rows, WOQCHARI_SECTION);
    at = woqchari_put(image, at, WOQCHARI_OUTCOMES, of->outcomes, of->outcome_rows, WOQCHARI_OUTCOME);
    at = woqchari_put(image, at, WOQCHARI_FUNCTIONS, of->functions, of->function_rows, WOQCHARI_SYMBOL);
    at = woqchari_put(image, at, WOQCHARI_OBJECTS, of->objects, of->object_rows, WOQCHARI_SYMBOL);
    at = woqchari_put(image, at, WOQCHARI_SKIPS, of->skips, of->skip_rows, WOQCHARI_SKIP);
    woqchari_put(image, at, WOQCHARI_ENTRY_POINT, of->entry, of->entry_rows, 1);
}

/* ---- what comes back. An address is one number, (section + 1) * 2^32 + address, with the sections counted from 0; 0 is none.

   rows       10 numbers for each entry, in order of address: entry, end (0 where it was set aside), flags, prologue, epilogue (0 for none),
              and how many blocks, ways on, references, jump tables and possible blocks it has (of these none in a map). At most 1,024 entries.
   lists      the numbers of all entries' lists, one entry's directly behind the other's, each column as long as its count:
                starts of basic blocks, then their ends (0 is open);
                words with ways on, then where these go;
                references;
                addresses of jump tables, then their sizes;
                possible blocks.
   entries    one number: how many entries there are.
   numbers    one number: how many numbers of `lists` they take.

   The lists may have any length; behind the map they are zero. While a run goes on, `lists` holds possible blocks as well, one number
   each: so lending exactly as many numbers as an earlier map took can give 4 (docs/ARCHITECTURE.md has an image whose map takes 26
   numbers and whose run needs 27). WOQCHARI_ROWS_ENOUGH and WOQCHARI_LISTS_ENOUGH are lengths that are always enough, by the limits:
   1,024 entries, each with 256 blocks, 1,024 ways on and 256 jump tables, two numbers each, 256 references and 128 possible blocks. */
enum {
    WOQCHARI_ROW = 10,
    WOQCHARI_ROWS_ENOUGH = 1024 * WOQCHARI_ROW,
    WOQCHARI_LISTS_ENOUGH = 1024 * (2 * 256 + 2 * 1024 + 256 + 2 * 256 + 128), /* 3,538,944 numbers, 27 MB */
    WOQCHARI_ANALYZED = 1,
    WOQCHARI_HAS_LISTS = 2, /* a function; else set aside */
    WOQCHARI_CONDITIONAL_BLR = 4,
    WOQCHARI_RFI = 8,
    WOQCHARI_LOAD_R1 = 16,
    WOQCHARI_FINALIZED = 32
};

/* A row of `rows`. */
enum {
    WOQCHARI_ENTRY,
    WOQCHARI_END,
    WOQCHARI_FLAGS,
    WOQCHARI_PROLOGUE,
    WOQCHARI_EPILOGUE,
    WOQCHARI_BLOCKS,
    WOQCHARI_WAYS,
    WOQCHARI_REFERENCES,
    WOQCHARI_TABLES,
    WOQCHARI_POSSIBLE
};

static inline uint32_t woqchari_address(uint64_t key) { return (uint32_t)key; }
static inline uint32_t woqchari_section(uint64_t key) { return (uint32_t)(key >> 32) - 1; }

/* Why there is no map. 1 to 3: what was handed in breaks a rule. The others ended the walk. woqchari_words has them in words. */
enum {
    WOQCHARI_MAP = 0,
    WOQCHARI_NO_IMAGE = 1,
    WOQCHARI_BAD_OUTCOME = 2,
    WOQCHARI_BAD_REST = 3,
    WOQCHARI_LIMIT = 4,
    WOQCHARI_SECOND_PROLOGUE = 5,
    WOQCHARI_SECOND_EPILOGUE = 6,
    WOQCHARI_TABLE_IN_LIST = 7,
    WOQCHARI_JUMP_TO_ITSELF = 8,
    WOQCHARI_ENTRY_IN_NO_SECTION = 9,
    WOQCHARI_ENTRY_NOT_ALIGNED = 10,
    WOQCHARI_OPEN_BLOCK = 11,
    WOQCHARI_EPILOGUE_ALONE = 12,
    WOQCHARI_OPEN_END = 13,
    WOQCHARI_OVER_NEXT_ENTRY = 14,
    WOQCHARI_OUTSIDE_SECTION = 15,
    WOQCHARI_PAST_LAST_WORD = 16,
    WOQCHARI_NOT_FINALIZED = 17
};

/* A number in words, as docs/numbers.txt has them for fmap. NULL for a number that there is not. */
static inline const char *woqchari_words(uint32_t number) {
    static const char *const words[] = {
        "a map",
        "no image: the header or a section breaks a rule",
        "what a code word does breaks a rule: a target, a table or a branch is missing, out of place or one too many",
        "a symbol, a skip range or the entry point breaks a rule",
        "a list would pass its limit, or the memory that is lent for the map is too small",
        "a function has a second prologue, below its first one or behind a word at which a function ends",
        "a function has a second epilogue",
        "a list of branches names a jump table",
        "a jump out of a function leads to that function itself",
        "an entry of a jump table with a size lies in no section",
        "an entry of a jump table, or the size of one, is no multiple of 4",
        "a walk ended with a basic block whose end was not found",
        "a function takes down a frame that it does not set up",
        "the end of a function's last block was not found",
        "a function reaches over the next entry",
        "the walk was to go on outside its section",
        "the walk goes past the last code word, or a pass over what is left visits no new word",
        "functions are left of which it cannot be told where they end, or one would be finished twice",
    };
    return number < sizeof words / sizeof *words ? words[number] : NULL;
}

/* Each slice is a pointer and then how many elements it has. A pointer may not be null, even of an empty slice; the lists that are written
   may overlap no other. */

/* Answers 0: the map is in the lent lists.
   1, 2, 3: the image, an outcome, or something else that was handed in breaks a rule; `rows` and `lists` are as they were.
   4: a list of the walk, or a lent one, is too short. 5 to 17: the walk met a fault. `rows` and `lists` are zero after these.
   After 1 to 17 *entries and *numbers are 0. */
uint32_t woqchari_detect_functions(const uint32_t *sections, size_t sections_len, const uint8_t *bytes, size_t bytes_len,
                                   const uint32_t *outcomes, size_t outcomes_len, const uint32_t *functions, size_t functions_len,
                                   const uint32_t *objects, size_t objects_len, const uint32_t *skips, size_t skips_len,
                                   const uint32_t *entry, size_t entry_len, uint64_t *rows, size_t rows_len, uint64_t *lists,
                                   size_t lists_len, size_t *entries, size_t *numbers);

/* The same of an image that is one list with a header. */
uint32_t woqchari_detect_in_image(const uint32_t *image, size_t image_len, const uint8_t *bytes, size_t bytes_len, uint64_t *rows,
                                  size_t rows_len, uint64_t *lists, size_t lists_len, size_t *entries, size_t *numbers);

/* 0 where the image, one list with a header, breaks no rule, else 1, 2 or 3. */
uint32_t woqchari_check_image(const uint32_t *image, size_t image_len, const uint8_t *bytes, size_t bytes_len);

#ifdef __cplusplus
}
#endif
#endif
