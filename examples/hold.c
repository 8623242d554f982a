/* Holds and releases fish pens on a small staged sheet: 4 pens, top level 2, 28 cells.
   A held pen is a bit that is 1. Each line: the call, the levels raised, the bits, the blocks and,
   after the bar, the index blocks; or why nothing was changed.
   Numbers are printed as unsigned, since a controller's printf may know no longer ones. */
#include <stdio.h>

#include "harpginger.h"

enum { PENS = 4, TOP = 2, CELLS = 28 };

static uint64_t record[HARPGINGER_RECORD];
static uint8_t sheet[CELLS];
static uint64_t accepted;

/* Prints cells in groups; a level is one digit here, since the top level is 2. */
static void print_groups(const uint8_t *cells, uint64_t count, uint64_t size) {
    uint64_t i;
    for (i = 0; i < count; i++) printf("%s%u", i % size == 0 ? " " : "", (unsigned)cells[i]);
}

static void print_sheet(void) {
    uint8_t bits[PENS];
    uint64_t ones, blocks = record[HARPGINGER_BLOCKS] * PENS;
    if (harpginger_read(record, HARPGINGER_RECORD, sheet, CELLS, bits, PENS, &ones) != HARPGINGER_DONE) return;
    print_groups(bits, PENS, PENS);
    printf(" :");
    print_groups(sheet, blocks, PENS);
    printf(" |");
    print_groups(sheet + blocks, CELLS - blocks, record[HARPGINGER_WIDTH]);
    printf("\n");
}

/* Flips one pen's bit, prints what came of it and hands the answer back. */
static uint64_t flip(const char *what, uint64_t pen) {
    uint64_t raised;
    uint64_t answer = harpginger_change(record, HARPGINGER_RECORD, sheet, CELLS, pen, &raised);
    printf("%-7s pen %u: ", what, (unsigned)pen);
    if (answer != HARPGINGER_DONE) {
        printf("%s\n", harpginger_text(answer));
        return answer;
    }
    printf("+%u ", (unsigned)raised);
    print_sheet();
    accepted++;
    return answer;
}

/* A change flips, so whoever wants a state reads first: a pen that has it already costs nothing. */
static uint64_t set_pen(uint64_t pen, int held) {
    uint8_t bits[PENS];
    uint64_t ones;
    uint64_t answer = harpginger_read(record, HARPGINGER_RECORD, sheet, CELLS, bits, PENS, &ones);
    if (answer == HARPGINGER_DONE && pen < PENS && bits[pen] == held) {
        printf("%-7s pen %u: already so\n", held ? "hold" : "release", (unsigned)pen);
        return answer;
    }
    return answer == HARPGINGER_DONE ? flip(held ? "hold" : "release", pen) : answer;
}

/* Holds pens 0 to 2, then holds and releases pen 3 until no block is left for it: the sheet moves to stage 1. */
static void work(void) {
    uint64_t pen, round;
    for (pen = 0; pen < 3; pen++) set_pen(pen, 1);
    set_pen(1, 1);
    set_pen(PENS, 1);
    for (round = 0; round < 4; round++) {
        set_pen(3, 1);
        set_pen(3, 0);
    }
    set_pen(3, 1);
}

static uint64_t settle(uint64_t cells, uint64_t *guarantee) {
    uint64_t answer = harpginger_settings(HARPGINGER_STAGED, PENS, TOP, cells, record, HARPGINGER_RECORD, guarantee);
    printf("settings with %u cells: %s\n", (unsigned)cells, harpginger_text(answer));
    return answer;
}

int main(void) {
    uint64_t guarantee, answer, pen = 0;
    if (harpginger_version() != HARPGINGER_VERSION) return 2;
    settle(CELLS - 1, &guarantee);
    if (settle(CELLS, &guarantee) != HARPGINGER_DONE) return 1;
    if (harpginger_erase(record, HARPGINGER_RECORD, sheet, CELLS, &guarantee) != HARPGINGER_DONE) return 1;
    printf("%-17s", "erase");
    print_sheet();

    work();
    do {
        answer = flip("flip", pen);
        pen = (pen + 1) % PENS;
    } while (answer == HARPGINGER_DONE);

    printf("%u changes were guaranteed, %u were accepted\n", (unsigned)guarantee, (unsigned)accepted);
    return answer == HARPGINGER_ERASE && accepted >= guarantee ? 0 : 1;
}
