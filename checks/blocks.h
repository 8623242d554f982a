/* Blocks in every state, for the programs that count fetches, and the proved function that tells the state of one;
   checks/state.sh gives it its name in C. */
#include <stdint.h>
#include <string.h>

enum { EMPTY, FULL, ACTIVE, BROKEN, STATES };
enum { MOST_CELLS = 64, FORMS = 10, TOPS = 6 };

static const char *const names[STATES] = {"empty", "full", "active", "broken"};

/* Top levels from the lowest to the highest, odd and even. */
static const unsigned tops[TOPS] = {1, 2, 3, 15, 254, 255};

/* A state as the module writes it: bit and weight are of an active block alone. */
struct state {
    uint8_t which;
    uint64_t bit, weight;
};

void harpginger_state_of(struct state *state, const uint8_t *cells, uint64_t length, uint8_t top);

/* A block to try: its weight goes round from the start; for a broken one it is the number of its form. */
struct block {
    unsigned k, top, which, start, weight;
};

/* A way to be broken, where a block has so many cells or more and so high a top level or a higher one.
   Levels from the start on: T is the top level, a one below it, b half of it and c 1; the last two are repeated to the block's end. */
struct form {
    const char *name;
    unsigned cells, top;
    const char *levels;
};

/* A middle is a cell between 0 and the top level; a block on a cycle has one at the most, and one rise. */
static const struct form forms[FORMS] = {
    {"top and 0 in turn", 4, 1, "T0"},
    {"two rises", 4, 1, "T0T00"},
    {"three rises", 6, 1, "T0T0T00"},
    {"two rises in a row", 3, 2, "cT00"},
    {"no rise", 2, 2, "cc"},
    {"two middles, none at the top", 2, 3, "ac00"},
    {"two middles at one level, none at the top", 3, 2, "cc00"},
    {"two middles, one at the top", 3, 2, "Tac00"},
    {"two middles, the others at the top", 3, 2, "acTT"},
    {"three falling middles", 3, 4, "abc00"},
};

/* The level that a letter of a form stands for. */
static inline unsigned level_of(char letter, unsigned top) {
    switch (letter) {
    case 'T': return top;
    case 'a': return top - 1;
    case 'b': return top / 2;
    case 'c': return 1;
    default: return 0;
    }
}

/* The level of the cell that is so many after the start. */
static inline unsigned level(const struct block *block, unsigned after) {
    unsigned top = block->top, weight = block->weight, filled = after * top, last;
    const char *levels;
    if (block->which != BROKEN) return weight < filled ? 0 : weight - filled < top ? weight - filled : top;
    levels = forms[weight].levels;
    last = (unsigned)strlen(levels) - 1;
    return level_of(levels[after <= last ? after : last - (after - last) % 2], top);
}

/* Writes the block's cells, and reads none. */
static inline void build(const struct block *block, uint8_t *cells) {
    unsigned after;
    for (after = 0; after < block->k; after++) cells[(block->start + after) % block->k] = (uint8_t)level(block, after);
}

/* Whether the state is the block's own. */
static inline int is_told(const struct block *block, const struct state *state) {
    if (state->which != block->which) return 0;
    return block->which != ACTIVE || (state->bit == block->start && state->weight == block->weight);
}

/* The weight in this turn of so many: those of active blocks are spread from 1 to k L - 1. */
static inline unsigned weight_in(const struct block *block, unsigned turn, unsigned turns) {
    unsigned all = block->k * block->top;
    if (block->which == ACTIVE) return turns < 2 ? 1 : 1 + turn * (all - 2) / (turns - 1);
    return block->which == FULL ? all : turn;
}

/* Whether there is such a block: every one but a broken one whose form needs more cells or a higher top level. */
static inline int is_block(const struct block *block) {
    return block->which != BROKEN || (block->k >= forms[block->weight].cells && block->top >= forms[block->weight].top);
}

/* Tries blocks in one state: from every start, with so many weights at the most, or broken in every form. */
static inline void each_block(struct block block, unsigned most, void (*tried)(const struct block *block)) {
    unsigned active = block.k * block.top - 1, turn, turns = 1;
    unsigned starts = block.which == ACTIVE || block.which == BROKEN ? block.k : 1;
    if (block.which == ACTIVE) turns = active < most ? active : most;
    if (block.which == BROKEN) turns = FORMS;
    for (block.start = 0; block.start < starts; block.start++)
        for (turn = 0; turn < turns; turn++) {
            block.weight = weight_in(&block, turn, turns);
            if (is_block(&block)) tried(&block);
        }
}
