/* Counts how often a reading and a change fetch each cell of a plain sheet, by the archive's module: k blocks of k cells, k from 2 to 64.
   Every block is active, so that no run of full or empty ones is passed over.
   Check 5 fetches each cell once, the scan of the blocks once more and the first of each block twice; a change then fetches the cell that it raises.
   In runs of staged sheets, a change from stage 1 on that raises one cell is held to a reading of the sheet before it: it fetches the cells of its block up to that one once more.
   It ends with 1 if a cell is fetched more or less often, or one beside the sheet at all; readings again reads twice, which has to be told.
   Copies by the C library are counted too. What would go unseen is a copy that the compiler writes out as instructions,
   and a load of more than 16 bytes, for which checks/fetches looks through the scan alone. */
#include "blocks.h"
#include "harpginger.h"
#include "watch.h"

enum { WEIGHTS = 5, TOLD = 3, FAR = 977 };

void *__real_memcpy(void *to, const void *from, size_t size);
void *__wrap_memcpy(void *to, const void *from, size_t size);

void *__wrap_memcpy(void *to, const void *from, size_t size) {
    fetch(from, size);
    return __real_memcpy(to, from, size);
}

static uint64_t record[HARPGINGER_RECORD];
static unsigned calls = 1, sheets, raises, wrong;

/* Block j of the sheet that begins with this one: starts go up or down from it, so that all differ, and weights differ where they can. */
static struct block nth(const struct block *first, unsigned j) {
    struct block block = *first;
    unsigned step = first->weight % 2 == 0 ? 1 : first->k - 1;
    block.start = (first->start + j * step) % first->k;
    block.weight = 1 + (first->weight - 1 + j * FAR) % (first->k * first->top - 1);
    return block;
}

/* Lends the sheet, with the fetches of a reading. */
static void lend_sheet(const struct block *first) {
    unsigned k = first->k, j;
    lend(k * k, 2);
    for (j = 0; j < k; j++) {
        struct block block = nth(first, j);
        build(&block, cells + j * k);
        once_more(j * k);
    }
}

/* Judges a call; the first few that are wrong are told. */
static void judge(const struct block *first, const char *call, int is_right) {
    if (is_right && as_wanted()) return;
    if (wrong++ >= TOLD) return;
    printf("k = %u, L = %u, the first block from cell %u, weight %u: %s: ", first->k, first->top, first->start, first->weight, call);
    if (is_right) tell_cell();
    else printf("a wrong answer");
    puts("");
}

/* A reading, which must give each bit the parity of its block's weight. */
static void read_it(const struct block *first) {
    uint8_t bits[MOST_CELLS] = {0};
    uint64_t value, ones = 0;
    unsigned j, call;
    int is_right = 1;
    lend_sheet(first);
    for (call = 0; call < calls; call++)
        is_right &= harpginger_read(record, HARPGINGER_RECORD, cells, first->k * first->k, bits, sizeof bits, &value) == HARPGINGER_DONE;
    for (j = 0; j < first->k; j++) {
        struct block block = nth(first, j);
        is_right &= bits[block.start] == block.weight % 2;
        ones += block.weight % 2;
    }
    judge(first, "a reading", is_right && value == ones);
}

/* A change of the bit of one block, which must raise one cell by one level. */
static void change_it(const struct block *first) {
    unsigned j = first->weight % first->k, raised;
    struct block block = nth(first, j);
    uint64_t value, answer;
    uint8_t level;
    lend_sheet(first);
    raised = j * block.k + (block.start + block.weight / block.top) % block.k;
    level = cells[raised];
    once_more(raised);
    answer = harpginger_change(record, HARPGINGER_RECORD, cells, block.k * block.k, block.start, &value);
    judge(first, "a change", answer == HARPGINGER_DONE && value == 1 && cells[raised] == level + 1);
}

static void tried(const struct block *first) {
    sheets++;
    read_it(first);
    change_it(first);
}

/* Sheets of k blocks, where k times the top level is even. */
static int all_sheets(unsigned k) {
    struct block first = {0, 0, ACTIVE, 0, 0};
    uint64_t value;
    unsigned i;
    first.k = k;
    for (i = 0; i < TOPS; i++) {
        first.top = tops[i];
        if (k * first.top % 2 == 1) continue;
        if (harpginger_settings(HARPGINGER_PLAIN, k, first.top, k * k, record, HARPGINGER_RECORD, &value) != HARPGINGER_DONE) return 0;
        each_block(first, WEIGHTS, tried);
    }
    return 1;
}

/* How many cells a parity block has, by the highest batch with a cell above 0; 0 at stage 0. */
static unsigned parity_length(const uint8_t *sheet) {
    unsigned k = (unsigned)record[HARPGINGER_BITS], stages = (unsigned)record[HARPGINGER_STAGES], stage, i;
    unsigned batch = 2 * (k - 1) * (unsigned)record[HARPGINGER_WIDTH], first = k * (unsigned)record[HARPGINGER_BLOCKS];
    for (stage = stages - 1; stage > 0; stage--)
        for (i = 0; i < batch; i++)
            if (sheet[first + (stage - 1) * batch + i] > 0) return k >> stage;
    return 0;
}

/* Which cell alone rose, by one level; none where more did. */
static unsigned rose(const uint8_t *before, unsigned n) {
    unsigned cell, found = n;
    for (cell = 0; cell < n; cell++)
        if (cells[cell] != before[cell]) {
            if (found < n || cells[cell] != before[cell] + 1) return n;
            found = cell;
        }
    return found;
}

/* A change of a staged sheet, after a reading of it, which says how often each cell has to be fetched besides; whether the change was accepted. */
static int follow_it(const struct block *first, uint8_t *sheet, unsigned bit) {
    static unsigned reading[ROOM];
    uint8_t bits[MOST_CELLS];
    uint64_t value, answer;
    unsigned n = (unsigned)record[HARPGINGER_CELLS], k = first->k, length = parity_length(sheet), raised, cell;
    lend(n, 0);
    __real_memcpy(cells, sheet, n);
    if (harpginger_read(record, HARPGINGER_RECORD, cells, n, bits, k, &value) != HARPGINGER_DONE) return 0;
    __real_memcpy(reading, fetched, sizeof reading);
    lend(n, 0);
    __real_memcpy(wanted, reading, sizeof wanted);
    __real_memcpy(cells, sheet, n);
    answer = harpginger_change(record, HARPGINGER_RECORD, cells, n, bit, &value);
    raised = rose(sheet, n);
    if (answer == HARPGINGER_DONE && length > 0 && raised < k * record[HARPGINGER_BLOCKS]) {
        for (cell = raised - raised % length; cell <= raised; cell++) once_more(cell);
        raises++;
        judge(first, "a change that raises a parity block", value == 1);
    }
    __real_memcpy(sheet, cells, n);
    return answer == HARPGINGER_DONE;
}

/* A run of changes of a staged sheet of as few blocks as there may be, until one is refused. */
static int staged_run(unsigned k, unsigned top) {
    static uint8_t sheet[MOST_LENT];
    struct block first = {0, 0, ACTIVE, 0, 0};
    uint64_t value;
    unsigned n = k * k, turn;
    first.k = k;
    first.top = top;
    while (harpginger_settings(HARPGINGER_STAGED, k, top, n, record, HARPGINGER_RECORD, &value) != HARPGINGER_DONE)
        if (++n > MOST_LENT) return 0;
    memset(sheet, 0, sizeof sheet);
    for (turn = 0; follow_it(&first, sheet, turn * turn * FAR / 7 % k); turn++) {}
    return 1;
}

int main(int count, char **words) {
    unsigned k, i;
    if (count > 2 || (count == 2 && strcmp(words[1], "again") != 0)) return 2;
    calls = (unsigned)count;
    for (k = 2; k <= MOST_CELLS; k++)
        if (!all_sheets(k)) return 2;
    for (k = 4; k <= MOST_CELLS / 2; k *= 2)
        for (i = 0; i < TOPS; i++)
            if (k * tops[i] < MOST_LENT && !staged_run(k, tops[i])) return 2;
    printf("%u sheets, each read and changed, and %u raises of parity blocks, %u wrong\n", sheets, raises, wrong);
    return wrong > 0 || raises == 0;
}
