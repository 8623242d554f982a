/* Harpginger: k bits on a sheet of flash cells whose levels only rise, so that erasing is put off
   for as long as the guarantee says. Link with libharpginger.a: checks/native writes it for this
   machine to target/native, and for another target to target/native/TARGET.

   Each of the four calls takes any numbers, any lengths and any levels, and always ends with one of
   the answers below, as its number. The answer's value goes to the place `value`, which each of
   them writes. A number is of 64 bits on every machine, one of 32 bits too. C99 or C++11.

   What the caller owes, and the library cannot check:
   - a pointer lends as many places as the length after it says, and is not null, for a length of 0 too;
   - `value` lends one place and is not null;
   - `numbers` and `value` are aligned as the compiler aligns an uint64_t; cells and outputs are
     bytes, and may stand anywhere;
   - nothing lent to one call for writing overlaps anything else that is lent to it;
   - while a call runs, no other thread, interrupt or device writes what is lent to it, and none
     reads what is lent to it for writing.
   The library keeps nothing between calls, and all memory is the caller's. So calls on different
   sheets are independent, and may run at once in as many threads as there are.

   A refusal writes the value place and nothing else: no cell of a sheet, no place of an output.
   The one exception is refused settings, which also write the record of zeros where seven places
   are lent for it.

   The sheet on a part. A call works on levels in memory; the caller reads them from the part and
   programs the part after Done. A cell of b bits has the top level L = 2^b - 1.
   - Which cells: those that stand lower on the part than in the new levels, each to its new level.
     On a part that holds the sheet as it was before the call these are the cells that rose in it;
     a copy that is a change behind lacks that change's cells too. Only erasing lowers a cell.
   - A change that answers Done with the value 1 raised one cell by one level: a power cut leaves
     the old sheet or the new one, on a part where it leaves each cell at a level from its old one
     to its new one. Every plain change is so.
   - A change of a staged sheet may raise several cells, or one cell by several levels. Cut on the
     way, the sheet may be accepted with bits that are neither the old nor the new ones.
   - An erase that is cut may leave an accepted sheet with other bits, of either kind. So erase no
     sheet whose bits are needed, and read none before its erase has ended.
   - In which order: first the index blocks that do not end full (a cell of them is below L after
     the change), then the cells of the m blocks, then the index blocks that end full. Index block
     j, from 0, has the w cells from m * k + j * w on. Cut then, most changes read as old, as new
     or as BadSheet; but not all, and for some no order does.
   - What is right for every change: two copies of the sheet, written in turn, never the only good
     one, and a note outside both that says which one that is. examples/barge.c does so in a file;
     docs/RULES.md says what to do with cells, and how often a cut misreads.
   - Settings are not on the sheet. Keep kind, k, L and n with it: with others the same cells may
     be accepted and give other bits. */
#ifndef HARPGINGER_H
#define HARPGINGER_H

#include <stdint.h>

#ifdef __cplusplus
extern "C" {
#endif

/* Where the compiler has them: whoever passes a null pointer, drops an answer or lends fewer places
   than the length says is warned. A pointer and its length are named by their places in the call. */
#if defined(__GNUC__)
#define HARPGINGER_ANSWERS __attribute__((nonnull, warn_unused_result))
#else
#define HARPGINGER_ANSWERS
#endif
#if defined(__has_attribute)
#if __has_attribute(access)
#define HARPGINGER_LENDS(...) __attribute__((access(__VA_ARGS__)))
#endif
#endif
#ifndef HARPGINGER_LENDS
#define HARPGINGER_LENDS(...)
#endif

/* The version of this interface. It is one more whenever a function, an answer or a place of the
   record is added or means something else. */
#define HARPGINGER_VERSION 3

/* How many numbers a settings record has, and which stands where.
   Only harpginger_settings makes a record. Any other call answers BadShape to a record of another
   count of numbers, to the record of zeros, and to any seven numbers that acceptance never gives. */
#define HARPGINGER_RECORD 7
enum harpginger_place {
    HARPGINGER_KIND = 0,   /* plain or staged */
    HARPGINGER_BITS = 1,   /* k: how many bits a sheet keeps, and how many cells a block has */
    HARPGINGER_TOP = 2,    /* L: the top level of a cell */
    HARPGINGER_CELLS = 3,  /* n: how many cells a sheet has */
    HARPGINGER_BLOCKS = 4, /* m: how many blocks; they stand first, and after them the index cells */
    HARPGINGER_STAGES = 5, /* s: how many stages, stage 0 included; 0 for plain */
    HARPGINGER_WIDTH = 6   /* w: how many cells an index block has; 0 for plain */
};

/* The limits of settings. Room: m blocks of k cells, m at least k, beside the index cells of a
   staged sheet. A plain sheet also needs k * L to be even; a staged one, k of 4, 8, 16, 32 or 64. */
#define HARPGINGER_PLAIN 0
#define HARPGINGER_STAGED 1
#define HARPGINGER_MOST_BITS 64
#define HARPGINGER_MOST_LEVEL 255
#define HARPGINGER_MOST_CELLS 16384

/* What a call answers. Checks run in the order of these numbers, and the first refusal ends the
   call. The value is 0 but for Done, where each call names it, and for BadLevel.
   BadSheet is answered to a plain sheet, and to a staged one at stage 0, if a block is neither
   empty, full nor on a bit's cycle; if two active blocks have one bit; if an empty block stands
   before one that isn't empty; if all k bits have active blocks and the last block that isn't empty
   is full; or if a spare cell isn't 0. docs/RULES.md has the rules of later stages. Calls that ran
   to their end never make such a sheet, and every plain sheet that is accepted is one that changes
   make from an erased sheet. */
enum harpginger_answer {
    HARPGINGER_DONE = 0,         /* accepted */
    HARPGINGER_BAD_SHAPE = 1,    /* a setting outside the limits, or a record that is not genuine */
    HARPGINGER_BAD_LENGTH = 2,   /* the sheet's length is not n */
    HARPGINGER_SHORT_OUTPUT = 3, /* reading: fewer than k places */
    HARPGINGER_BAD_BIT = 4,      /* change: bit number k or more */
    HARPGINGER_BAD_LEVEL = 5,    /* a cell above L; the value is the first such cell */
    HARPGINGER_BAD_SHEET = 6,    /* the sheet breaks the rules of its kind */
    HARPGINGER_ERASE = 7,        /* change: no place for this bit before the sheet is erased */
    HARPGINGER_BAD_RECORD = 8    /* the drive program only: no call here answers it */
};

/* An answer in words. */
static inline const char *harpginger_text(uint64_t answer) {
    switch (answer) {
    case HARPGINGER_DONE: return "done";
    case HARPGINGER_BAD_SHAPE: return "a setting is outside the limits, or the record is not genuine";
    case HARPGINGER_BAD_LENGTH: return "the sheet has another length than its settings";
    case HARPGINGER_SHORT_OUTPUT: return "the output has fewer places than there are bits";
    case HARPGINGER_BAD_BIT: return "there is no bit of this number";
    case HARPGINGER_BAD_LEVEL: return "a cell is above the top level";
    case HARPGINGER_BAD_SHEET: return "the sheet breaks the rules of its kind";
    case HARPGINGER_ERASE: return "no place for this bit before the sheet is erased";
    case HARPGINGER_BAD_RECORD: return "a bad record";
    default: return "no answer of this version";
    }
}

/* The version of the archive that is linked: HARPGINGER_VERSION, where header and archive belong
   together. A program compares the two once, before any other call. */
uint64_t harpginger_version(void);

/* Accepts settings: kind (plain or staged), k bits (2 to 64), top level L of a cell (1 to 255) and
   n cells (at most 16,384).
   Answers Done or BadShape.
   Done writes the record to `numbers`; its value is the guarantee: how many changes, at least, an
   erased sheet of these settings accepts before the first Erase.
   BadShape writes the value place and the record of zeros; or, where `numbers_length` is not
   HARPGINGER_RECORD, the value place only. */
HARPGINGER_ANSWERS HARPGINGER_LENDS(write_only, 5, 6) HARPGINGER_LENDS(write_only, 7)
uint64_t harpginger_settings(uint64_t kind, uint64_t k, uint64_t top, uint64_t n,
                             uint64_t *numbers, uint64_t numbers_length,
                             uint64_t *value);

/* Erases a sheet: Done sets all n cells to 0, whatever they were; its value is the guarantee.
   Answers Done, BadShape or BadLength. A refusal writes the value place only. */
HARPGINGER_ANSWERS HARPGINGER_LENDS(read_only, 1, 2) HARPGINGER_LENDS(write_only, 3, 4)
HARPGINGER_LENDS(write_only, 5)
uint64_t harpginger_erase(const uint64_t *numbers, uint64_t numbers_length,
                          uint8_t *sheet, uint64_t sheet_length,
                          uint64_t *value);

/* Reads the bits: Done writes k places of `out`, each 0 or 1, bit 0 first, and none after them;
   its value is how many bits are 1. The sheet is only read.
   Answers Done, BadShape, BadLength, ShortOutput, BadLevel or BadSheet. A refusal writes the value
   place only. */
HARPGINGER_ANSWERS HARPGINGER_LENDS(read_only, 1, 2) HARPGINGER_LENDS(read_only, 3, 4)
HARPGINGER_LENDS(write_only, 5, 6) HARPGINGER_LENDS(write_only, 7)
uint64_t harpginger_read(const uint64_t *numbers, uint64_t numbers_length,
                         const uint8_t *sheet, uint64_t sheet_length,
                         uint8_t *out, uint64_t out_length,
                         uint64_t *value);

/* Changes one bit: Done flips bit `bit` and no other, and lowers no cell; its value is how many
   levels were raised, over all cells.
   Answers Done, BadShape, BadLength, BadBit, BadLevel, BadSheet or Erase. A refusal, Erase too,
   writes the value place only: the sheet keeps its bits, and after Erase another bit may still
   find a place. */
HARPGINGER_ANSWERS HARPGINGER_LENDS(read_only, 1, 2) HARPGINGER_LENDS(read_write, 3, 4)
HARPGINGER_LENDS(write_only, 6)
uint64_t harpginger_change(const uint64_t *numbers, uint64_t numbers_length,
                           uint8_t *sheet, uint64_t sheet_length,
                           uint64_t bit,
                           uint64_t *value);

#ifdef __cplusplus
}
#endif

#endif
