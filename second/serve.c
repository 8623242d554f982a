/* Serves the compiled library to a comparison that cannot link it: on a machine whose processor
   is not the archive's. Linked with libharpginger.a; reads calls on standard input and writes what each
   left behind on standard output, until the input ends. It needs no header, and of the C library
   read, write, memcpy and memcmp alone. All numbers are of 64 bits, low byte first.

   A call: which (0 settings, 1 erase, 2 read, 3 change), record places, cells, output places, bit,
   and the kind, k, L and n of settings; then the record, the sheet and the output, as lent.
   What it left: answer, value, 1 if all else is as it was; then record, sheet and output.
   "All else" is a guard on both sides of each slice, and what is lent for reading only. */

typedef unsigned long long number;
typedef __SIZE_TYPE__ size;
typedef unsigned char byte;

long read(int, void *, size);
long write(int, const void *, size);
void *memcpy(void *, const void *, size);
int memcmp(const void *, const void *, size);

number harpginger_settings(number, number, number, number, number *, number, number *);
number harpginger_erase(const number *, number, byte *, number, number *);
number harpginger_read(const number *, number, const byte *, number, byte *, number, number *);
number harpginger_change(const number *, number, byte *, number, number, number *);

enum { GUARD = 72, RECORD = 64 * 8, SHEET = 1 << 16, OUTPUT = 1 << 12, MARK = 0xa5 };

/* A lent slice between guards. The bytes start at an odd place. */
struct lent { byte *area; size most, first, length; };

static number record_area[(RECORD + 2 * GUARD) / 8];
static byte sheet_area[SHEET + 2 * GUARD], output_area[OUTPUT + 2 * GUARD];
static byte kept[RECORD + SHEET], message[RECORD + SHEET + OUTPUT + 24];

static struct lent lents[3] = {
    {(byte *)record_area, RECORD, GUARD, 0},
    {sheet_area, SHEET, GUARD - 5, 0},
    {output_area, OUTPUT, GUARD - 3, 0},
};

/* Takes exactly so many bytes; 0 if the input ends before. */
static int take(byte *to, size count) {
    while (count > 0) {
        long got = read(0, to, count);
        if (got <= 0) return 0;
        to += got;
        count -= (size)got;
    }
    return 1;
}

/* Gives exactly so many bytes; 0 if the output is closed. */
static int give(const byte *from, size count) {
    while (count > 0) {
        long put = write(1, from, count);
        if (put <= 0) return 0;
        from += put;
        count -= (size)put;
    }
    return 1;
}

/* Takes a slice of this length and sets guards around it. */
static int lend(struct lent *lent, number length) {
    volatile byte *area = lent->area;
    size i;
    if (length > lent->most) return 0;
    lent->length = (size)length;
    for (i = 0; i < GUARD; i++) {
        if (i < lent->first) area[i] = MARK;
        area[lent->first + lent->length + i] = MARK;
    }
    return take(lent->area + lent->first, lent->length);
}

static int guarded(const struct lent *lent) {
    const byte *area = lent->area;
    size i;
    for (i = 0; i < GUARD; i++) {
        if (i < lent->first && area[i] != MARK) return 0;
        if (area[lent->first + lent->length + i] != MARK) return 0;
    }
    return 1;
}

static number call(const number *asked, number *value) {
    number *record = record_area + GUARD / 8;
    byte *sheet = lents[1].area + lents[1].first, *output = lents[2].area + lents[2].first;
    switch (asked[0]) {
    case 0: return harpginger_settings(asked[5], asked[6], asked[7], asked[8], record, asked[1], value);
    case 1: return harpginger_erase(record, asked[1], sheet, asked[2], value);
    case 2: return harpginger_read(record, asked[1], sheet, asked[2], output, asked[3], value);
    default: return harpginger_change(record, asked[1], sheet, asked[2], asked[4], value);
    }
}

int main(void) {
    number asked[9];
    while (take((byte *)asked, sizeof asked)) {
        number left[3] = {0, 0xdeadbeefdeadbeef, 1};
        size end = sizeof left, read_only[2], i;
        if (!lend(&lents[0], 8 * asked[1]) || !lend(&lents[1], asked[2]) || !lend(&lents[2], asked[3])) return 1;
        read_only[0] = asked[0] == 0 ? 0 : lents[0].length;
        read_only[1] = asked[0] == 2 ? lents[1].length : 0;
        for (i = 0; i < 2; i++) memcpy(kept + i * RECORD, lents[i].area + lents[i].first, read_only[i]);
        left[0] = call(asked, &left[1]);
        for (i = 0; i < 2; i++)
            if (memcmp(kept + i * RECORD, lents[i].area + lents[i].first, read_only[i])) left[2] = 0;
        for (i = 0; i < 3; i++) {
            if (!guarded(&lents[i])) left[2] = 0;
            memcpy(message + end, lents[i].area + lents[i].first, lents[i].length);
            end += lents[i].length;
        }
        memcpy(message, left, sizeof left);
        if (!give(message, end)) return 1;
    }
    return 0;
}
