/* Has the proved function tell the state of many blocks, each once, for a trace of what it fetches, and makes a bare pass.
   state K STATE: for each block of K cells in this state, with top level 15: where its cells stand, K, the state; last the pass's. */
#include <inttypes.h>
#include <stdio.h>
#include <stdlib.h>
#include <string.h>

#include "../checks/blocks.h"

enum { TOP = 15, WEIGHTS = 30 };

/* Says where cells stand. */
static void said(const volatile uint8_t *cells, unsigned length, const char *word) {
    printf("%" PRIxPTR " %u %s\n", (uintptr_t)cells, length, word);
}

/* The cells are never freed, and nothing but the function reads them, so that each fetch from there is its own. */
static void tried(const struct block *block) {
    struct state state = {STATES, 0, 0};
    uint8_t *cells = malloc(block->k);
    if (cells == NULL) exit(2);
    build(block, cells);
    harpginger_state_of(&state, cells, block->k, TOP);
    if (!is_told(block, &state)) {
        fprintf(stderr, "%s, %u cells, start %u, weight %u: another state is told\n", names[block->which], block->k, block->start, block->weight);
        exit(1);
    }
    said(cells, block->k, names[block->which]);
}

/* The cells are volatile, so that the compiler leaves one load of each. */
static void pass(unsigned length) {
    volatile uint8_t *cells = malloc(length);
    unsigned i, total = 0;
    if (cells == NULL) exit(2);
    for (i = 0; i < length; i++) cells[i] = 1;
    for (i = 0; i < length; i++) total += cells[i];
    if (total != length) exit(1);
    said(cells, length, "pass");
}

int main(int count, char **words) {
    struct block block = {0, TOP, 0, 0, 0};
    if (count != 3) return 2;
    block.k = (unsigned)strtoul(words[1], NULL, 10);
    if (block.k < 2 || block.k > MOST_CELLS) return 2;
    while (block.which < STATES && strcmp(names[block.which], words[2]) != 0) block.which++;
    if (block.which == STATES) return 2;
    each_block(block, WEIGHTS, tried);
    pass(block.k);
    return 0;
}
