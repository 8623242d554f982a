/* Passes over cells, for checks/fetches to count as it counts the library; the kit has no C headers. */
unsigned pass_once(const unsigned char *cells, __UINT64_TYPE__ length);
unsigned pass_twice(const unsigned char *cells, __UINT64_TYPE__ length);
unsigned pass_beside(const unsigned char *cells, __UINT64_TYPE__ length);

/* The sum of the levels: each cell is fetched once. */
unsigned pass_once(const unsigned char *cells, __UINT64_TYPE__ length) {
    unsigned total = 0;
    __UINT64_TYPE__ i;
    for (i = 0; i < length; i++) total += cells[i];
    return total;
}

/* The last cell that is at the sum of the levels: each cell is fetched twice. */
unsigned pass_twice(const unsigned char *cells, __UINT64_TYPE__ length) {
    unsigned total = pass_once(cells, length), last = 0;
    __UINT64_TYPE__ i;
    for (i = 0; i < length; i++) last = cells[i] == total ? (unsigned)i : last;
    return last;
}

/* The sum of the levels and of those of the two cells beside them: each is fetched once. */
unsigned pass_beside(const unsigned char *cells, __UINT64_TYPE__ length) {
    return pass_once(cells - 1, length + 2);
}
