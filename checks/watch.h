/* Cells lent between guards, and how often each is fetched: the code that is counted calls one of five functions before each load.
   A load of more than 16 bytes has no such call, and is not counted. */
#include <stddef.h>
#include <stdint.h>
#include <stdio.h>
#include <string.h>

enum { GUARD = 64, MOST_LENT = 64 * 64, ROOM = GUARD + MOST_LENT + GUARD };

static uint8_t room[ROOM], *const cells = room + GUARD;
static unsigned used, fetched[ROOM], wanted[ROOM];

static void fetch(const void *from, size_t size) {
    uintptr_t place = (uintptr_t)from - (uintptr_t)room;
    for (; size > 0; size--, place++)
        if (place < used) fetched[place]++;
}

void __sanitizer_cov_load1(const void *from);
void __sanitizer_cov_load2(const void *from);
void __sanitizer_cov_load4(const void *from);
void __sanitizer_cov_load8(const void *from);
void __sanitizer_cov_load16(const void *from);

void __sanitizer_cov_load1(const void *from) { fetch(from, 1); }
void __sanitizer_cov_load2(const void *from) { fetch(from, 2); }
void __sanitizer_cov_load4(const void *from) { fetch(from, 4); }
void __sanitizer_cov_load8(const void *from) { fetch(from, 8); }
void __sanitizer_cov_load16(const void *from) { fetch(from, 16); }

/* Lends cells that have to be fetched so often each; no guard has to be. */
static void lend(unsigned length, unsigned times) {
    unsigned cell;
    used = GUARD + length + GUARD;
    memset(room, 255, used);
    memset(fetched, 0, used * sizeof *fetched);
    memset(wanted, 0, used * sizeof *wanted);
    for (cell = 0; cell < length; cell++) wanted[GUARD + cell] = times;
}

/* This cell has to be fetched once more. */
static void once_more(unsigned cell) { wanted[GUARD + cell]++; }

/* Whether every cell and every guard was fetched as often as it has to be. */
static int as_wanted(void) { return memcmp(fetched, wanted, used * sizeof *fetched) == 0; }

/* Says how often the first cell was fetched that was not as it has to be; those before cell 0 have negative numbers. */
static void tell_cell(void) {
    int place = 0;
    while (fetched[place] == wanted[place]) place++;
    printf("cell %d is fetched %u times, and not %u", place - GUARD, fetched[place], wanted[place]);
}
