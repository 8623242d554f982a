/* Counts how often a block's cells are fetched, for blocks of 2 to 64 cells.
   fetches state: by the proved function that tells a block's state.
   fetches once, twice or beside: by a pass over the cells, by two, or by one that goes a cell too far on each side.
   It ends with 1 if a cell but the first is not fetched once, the first not as often as it has to be, or a cell beside the block at all. */
#include "blocks.h"
#include "watch.h"

enum { WEIGHTS = 64, TOLD = 3, PASSES = 3 };

typedef unsigned pass(const unsigned char *cells, uint64_t length);
pass pass_once, pass_twice, pass_beside;

static unsigned blocks, wrong;

static unsigned in_all(void) {
    unsigned place, all = 0;
    for (place = 0; place < used; place++) all += fetched[place];
    return all;
}

/* Says what is wrong with a block: its state, or the fetches of a cell. */
static void tell(const struct block *block, const struct state *state) {
    printf("k = %u, L = %u, %s from cell %u, ", block->k, block->top, names[block->which], block->start);
    if (block->which == BROKEN) printf("%s: ", forms[block->weight].name);
    else printf("weight %u: ", block->weight);
    if (!is_told(block, state)) {
        printf("told as %s, ", state->which < STATES ? names[state->which] : "none");
        printf("bit %u, weight %u\n", (unsigned)state->bit, (unsigned)state->weight);
        return;
    }
    tell_cell();
    printf("; all cells %u times, and not %u\n", in_all(), block->k + 1);
}

/* One call on one block; the first few that are wrong are told. */
static void tried(const struct block *block) {
    struct state state = {STATES, 0, 0};
    lend(block->k, 1);
    once_more(0);
    build(block, cells);
    harpginger_state_of(&state, cells, block->k, (uint8_t)block->top);
    blocks++;
    if (as_wanted() && is_told(block, &state)) return;
    if (wrong++ < TOLD) tell(block, &state);
}

/* All blocks of k cells, with each top level in each state. */
static void states(unsigned k) {
    struct block block = {0, 0, 0, 0, 0};
    unsigned i;
    block.k = k;
    for (i = 0; i < TOPS; i++)
        for (block.which = 0; block.which < STATES; block.which++) {
            block.top = tops[i];
            each_block(block, WEIGHTS, tried);
        }
}

/* A pass over k cells, which must fetch each of them once. */
static void passed(unsigned k, pass *over) {
    lend(k, 1);
    over(cells, k);
    blocks++;
    if (as_wanted()) return;
    wrong++;
    printf("a pass over %u cells: ", k);
    tell_cell();
    puts("");
}

int main(int count, char **words) {
    static const char *const names_of_passes[PASSES] = {"once", "twice", "beside"};
    static pass *const passes[PASSES] = {pass_once, pass_twice, pass_beside};
    unsigned k, i = 0;
    if (count != 2) return 2;
    while (i < PASSES && strcmp(words[1], names_of_passes[i]) != 0) i++;
    if (i == PASSES && strcmp(words[1], "state") != 0) return 2;
    for (k = 2; k <= MOST_CELLS; k++)
        if (i < PASSES) passed(k, passes[i]);
        else states(k);
    printf("%u blocks, %u wrong\n", blocks, wrong);
    return wrong > 0;
}
