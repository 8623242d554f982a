/* Keeps a sheet of fish pens in a file, as a barge would: a power cut at any point loses nothing.
   C99 and POSIX, with flock, which is not of POSIX, and a file system that has hard links.
   rust/examples/barge.rs does the same, on the same files.

   A file is two copies of the sheet, of one length and written in turn: the first at byte 0, the second at byte 131072.
   So no usual sector or page has bytes of both, and one that fails takes one copy only; between is a hole that
   nothing reads. Numbers are little endian.

      at  bytes  what a copy has there
       0      1  mark: 60 while it is being written, 165 once it is whole; any other is damage:
                 90 while it is being mended, 0 and 255 as a lost sector may read
       1      4  CRC-32 of all that follows in this copy, the cells too
       5      7  HGBARGE
      12      2  number of this format: 1
      14      2  HARPGINGER_VERSION of the program that wrote it
      16      1  kind
      17      1  L, the top level
      18      2  k, the number of pens
      20      4  n, the number of cells
      24      8  saves, this one included: the newer copy has one more than the older
      32      8  changes since the last erase
      40      8  erases
      48      n  the cells

   A save writes the copy that is not current: its mark as 60, then all the rest, then its mark as 165,
   each on the disk before the next. So a cut leaves the current copy as it was, and the other marked as
   being written, or whole. One that is neither may have been the newer one, with a hold that the other
   has not, so no command but mend goes on without it.
   Of a cut it is assumed that bytes that are not being written stay as they were outside the sector that is written. */
#define _XOPEN_SOURCE 700
#include <errno.h>
#include <fcntl.h>
#include <inttypes.h>
#include <signal.h>
#include <stdarg.h>
#include <stdio.h>
#include <string.h>
#include <sys/file.h>
#include <sys/stat.h>
#include <unistd.h>

#include "harpginger.h"

enum place { MARK = 0, SUM = 1, MAGIC = 5, FORMAT = 12, VERSION = 14, KIND = 16, TOP = 17, PENS = 18, CELLS = 20,
             SAVES = 24, CHANGES = 32, ERASES = 40, HEAD = 48, MOST = HEAD + HARPGINGER_MOST_CELLS };
enum mark { WRITING = 60, MENDING = 90, WHOLE = 165 }; /* four bits or more from each other, and from 0 and 255 */
enum state { UNFINISHED, SOUND, DAMAGED, UNKNOWN };
enum command { NEW, HOLD, RELEASE, SHOW, MEND, COMMANDS };
enum { REFUSED = 1, BAD_WORDS = 2, THIS_FORMAT = 1, SECOND = 131072, MOST_NAMES = 1000 };

/* What one copy keeps, and the bits that are read from it. */
struct sheet {
    uint64_t record[HARPGINGER_RECORD], guarantee, saves, changes, erases;
    uint8_t cells[HARPGINGER_MOST_CELLS], held[HARPGINGER_MOST_BITS];
};

/* An open file: how long one of its copies is, which is current, and that one's sheet. */
struct barge {
    const char *name;
    int file;
    size_t length;
    unsigned current;
    struct sheet sheet;
};

static const char usage[] =
    "barge FILE new plain|staged PENS TOP CELLS  makes FILE if there is none, through FILE.new1 or the next free name\n"
    "barge FILE hold PEN                         holds a pen: it is not fed\n"
    "barge FILE release PEN                      releases a pen\n"
    "barge FILE show                             the pens held, the changes left and the erases so far\n"
    "barge FILE mend                             goes on with the whole copy where the other is damaged\n"
    "Ends with 0 if it is done, 1 if it is refused, 2 for words that it does not know.\n"
    "Commands on one file at the same time wait for each other.\n";

/* Says on standard error why it is not done, and hands the status on. */
static int say(int status, const char *format, ...) {
    va_list values;
    va_start(values, format);
    fputs("barge: ", stderr);
    vfprintf(stderr, format, values);
    fputs(status == BAD_WORDS ? "; barge --help tells the words\n" : "\n", stderr);
    va_end(values);
    return status;
}

/* Says what the system refused, by its last error. */
static int failed(const char *name, const char *what) {
    int error = errno;
    return say(REFUSED, "%s: %s: %s (os error %d)", name, what, strerror(error), error);
}

/* A number to its bytes, the lowest first on any machine. */
static void put(uint8_t *bytes, unsigned size, uint64_t number) {
    unsigned i;
    for (i = 0; i < size; i++) bytes[i] = (uint8_t)(number >> 8 * i);
}

/* A number from its bytes. */
static uint64_t get(const uint8_t *bytes, unsigned size) {
    return size == 0 ? 0 : bytes[0] | get(bytes + 1, size - 1) << 8;
}

/* The check sum that gzip and Ethernet have: it tells any one flipped bit. */
static uint32_t crc32(const uint8_t *bytes, size_t count) {
    uint32_t sum = 0xFFFFFFFFu;
    size_t i;
    for (i = 0; i < 8 * count; i++) {
        if (i % 8 == 0) sum ^= bytes[i / 8];
        sum = sum >> 1 ^ (sum & 1 ? 0xEDB88320u : 0);
    }
    return ~sum;
}

/* The sheet as one copy of the file, marked as whole. */
static void lay_out(const struct sheet *sheet, uint8_t *copy) {
    uint64_t cells = sheet->record[HARPGINGER_CELLS];
    copy[MARK] = WHOLE;
    memcpy(copy + MAGIC, "HGBARGE", FORMAT - MAGIC);
    put(copy + FORMAT, 2, THIS_FORMAT);
    put(copy + VERSION, 2, HARPGINGER_VERSION);
    put(copy + KIND, 1, sheet->record[HARPGINGER_KIND]);
    put(copy + TOP, 1, sheet->record[HARPGINGER_TOP]);
    put(copy + PENS, 2, sheet->record[HARPGINGER_BITS]);
    put(copy + CELLS, 4, cells);
    put(copy + SAVES, 8, sheet->saves);
    put(copy + CHANGES, 8, sheet->changes);
    put(copy + ERASES, 8, sheet->erases);
    memcpy(copy + HEAD, sheet->cells, cells);
    put(copy + SUM, 4, crc32(copy + MAGIC, HEAD - MAGIC + cells));
}

/* Takes the sheet from one copy: nothing is trusted before sum and settings are right and the sheet is read. */
static enum state look(const uint8_t *copy, size_t length, struct sheet *sheet) {
    uint64_t cells = length - HEAD, ones;
    if (copy[MARK] == WRITING) return UNFINISHED;
    if (copy[MARK] != WHOLE || get(copy + SUM, 4) != crc32(copy + MAGIC, length - MAGIC) ||
        memcmp(copy + MAGIC, "HGBARGE", FORMAT - MAGIC) != 0)
        return DAMAGED;
    if (get(copy + FORMAT, 2) != THIS_FORMAT || get(copy + VERSION, 2) > HARPGINGER_VERSION) return UNKNOWN;
    if (get(copy + CELLS, 4) != cells ||
        harpginger_settings(get(copy + KIND, 1), get(copy + PENS, 2), get(copy + TOP, 1), cells,
                            sheet->record, HARPGINGER_RECORD, &sheet->guarantee) != HARPGINGER_DONE)
        return DAMAGED;
    sheet->saves = get(copy + SAVES, 8);
    sheet->changes = get(copy + CHANGES, 8);
    sheet->erases = get(copy + ERASES, 8);
    memcpy(sheet->cells, copy + HEAD, cells);
    return harpginger_read(sheet->record, HARPGINGER_RECORD, sheet->cells, cells,
                           sheet->held, HARPGINGER_MOST_BITS, &ones) == HARPGINGER_DONE ? SOUND : DAMAGED;
}

/* Makes one copy the current one, or refuses: what may have lost a hold is not gone on with in silence. */
static int choose(struct barge *barge, const enum state state[2], const struct sheet sheet[2], int mending) {
    int both = state[0] == SOUND && state[1] == SOUND;
    int second = both ? sheet[1].saves == sheet[0].saves + 1 : state[1] == SOUND;
    if (state[0] == UNKNOWN || state[1] == UNKNOWN)
        return say(REFUSED, "%s: a format or version that this program does not know: take a newer program",
                   barge->name);
    if (state[0] != SOUND && state[1] != SOUND)
        return say(REFUSED, "%s: no copy is whole: it is damaged beyond mending, or no file of barge's; "
                   "hold every pen and make a new one under another name", barge->name);
    if (both && (memcmp(sheet[0].record, sheet[1].record, sizeof sheet[0].record) != 0 ||
                 (!second && sheet[0].saves != sheet[1].saves + 1)))
        return say(REFUSED, "%s: damaged, as its copies are not of one sheet: "
                   "hold every pen and make a new one under another name", barge->name);
    if (!mending && state[!second] == DAMAGED)
        return say(REFUSED, "%s: copy %d is damaged, and may have the last change: mend goes on with copy %d, "
                   "at most one change older; then look at every pen", barge->name, 2 - second, 1 + second);
    if (mending && state[!second] != DAMAGED)
        return say(REFUSED, "%s: no copy is damaged, so there is nothing to mend", barge->name);
    barge->current = (unsigned)second;
    barge->sheet = sheet[second];
    return 0;
}

/* Reads both copies of the open file, once all of it is on the disk: a program that was ended before its last fsync
   has left what is there to read, and a power cut could still undo. */
static int load(struct barge *barge, int mending) {
    struct stat found;
    uint8_t bytes[2][MOST];
    struct sheet sheet[2];
    enum state state[2];
    if (fsync(barge->file) != 0 || fstat(barge->file, &found) != 0) return failed(barge->name, "cannot be read");
    if (found.st_size <= SECOND + HEAD || found.st_size > SECOND + MOST)
        return say(REFUSED, "%s: a wrong length: it is damaged, or no file of barge's; "
                   "hold every pen and make a new one under another name", barge->name);
    barge->length = (size_t)(found.st_size - SECOND);
    errno = EIO; /* a file that was made shorter meanwhile sets no error */
    if (pread(barge->file, bytes[0], barge->length, 0) != (ssize_t)barge->length ||
        pread(barge->file, bytes[1], barge->length, SECOND) != (ssize_t)barge->length)
        return failed(barge->name, "cannot be read");
    state[0] = look(bytes[0], barge->length, &sheet[0]);
    state[1] = look(bytes[1], barge->length, &sheet[1]);
    return choose(barge, state, sheet, mending);
}

/* Writes all the bytes there, or not: a write may take fewer than it is handed. */
static int written(int file, const uint8_t *bytes, size_t count, size_t at) {
    while (count > 0) {
        ssize_t done = pwrite(file, bytes, count, (off_t)at);
        if (done == 0) errno = EIO;
        if (done == 0 || (done < 0 && errno != EINTR)) return 0;
        if (done > 0) bytes += done, at += (size_t)done, count -= (size_t)done;
    }
    return 1;
}

/* Saves the sheet over the copy that is not current, and never over the current one. */
static int save(struct barge *barge, enum mark meanwhile) {
    uint8_t copy[MOST], mark = (uint8_t)meanwhile;
    size_t at = barge->current == 0 ? SECOND : 0;
    barge->sheet.saves++;
    lay_out(&barge->sheet, copy);
    if (!written(barge->file, &mark, 1, at) || fsync(barge->file) != 0 ||
        !written(barge->file, copy + 1, barge->length - 1, at + 1) || fsync(barge->file) != 0 ||
        !written(barge->file, copy, 1, at) || fsync(barge->file) != 0)
        return failed(barge->name, "cannot be written: this may not be done, and a power cut "
                      "may undo what show says; see to the pen by hand");
    return 0;
}

/* Flips one pen on the sheet in memory, and adds to the levels raised. */
static uint64_t flip(struct sheet *sheet, uint64_t pen, uint64_t *raised) {
    uint64_t value, answer = harpginger_change(sheet->record, HARPGINGER_RECORD, sheet->cells,
                                               sheet->record[HARPGINGER_CELLS], pen, &value);
    if (answer != HARPGINGER_DONE) return answer;
    sheet->held[pen] ^= 1;
    sheet->changes++;
    *raised += value;
    return answer;
}

/* Erases the sheet in memory and holds these pens.
   They always fit: that is k changes at the most, and no accepted settings guarantee fewer than k. */
static uint64_t start_again(struct sheet *sheet, const uint8_t *wanted, uint64_t *raised) {
    uint64_t pen, answer = harpginger_erase(sheet->record, HARPGINGER_RECORD, sheet->cells,
                                            sheet->record[HARPGINGER_CELLS], &sheet->guarantee);
    memset(sheet->held, 0, sizeof sheet->held);
    sheet->changes = 0;
    sheet->erases++;
    for (pen = 0; answer == HARPGINGER_DONE && pen < sheet->record[HARPGINGER_BITS]; pen++)
        if (wanted[pen]) answer = flip(sheet, pen, raised);
    return answer;
}

/* Holds or releases a pen. What stands so already is not written: a change flips, and wears the sheet. */
static int set(struct barge *barge, uint64_t pen, int hold) {
    struct sheet *sheet = &barge->sheet;
    const char *state = hold ? "held" : "released";
    uint8_t wanted[HARPGINGER_MOST_BITS];
    uint64_t answer, raised = 0, erases = sheet->erases, pens = sheet->record[HARPGINGER_BITS];
    if (pen >= pens)
        return say(REFUSED, "%s: there is no pen %" PRIu64 ": the pens are 0 to %" PRIu64, barge->name, pen, pens - 1);
    if (sheet->held[pen] == hold) {
        printf("pen %" PRIu64 " was %s already\n", pen, state);
        return 0;
    }
    memcpy(wanted, sheet->held, pens);
    wanted[pen] ^= 1;
    answer = flip(sheet, pen, &raised);
    if (answer == HARPGINGER_ERASE) answer = start_again(sheet, wanted, &raised);
    if (answer != HARPGINGER_DONE) return say(REFUSED, "%s: %s", barge->name, harpginger_text(answer));
    if (save(barge, WRITING) != 0) return REFUSED;
    if (sheet->erases != erases) printf("erased, pens held then: %" PRIu64 "\n", sheet->changes);
    printf("pen %" PRIu64 " %s, levels raised: %" PRIu64 "\n", pen, state, raised);
    return 0;
}

/* The line of the pens held. */
static void print_held(const struct sheet *sheet) {
    uint64_t pen, held = 0;
    printf("held:");
    for (pen = 0; pen < sheet->record[HARPGINGER_BITS]; pen++)
        if (sheet->held[pen]) printf(" %" PRIu64, pen), held++;
    printf(held == 0 ? " none\n" : "\n");
}

/* The pens held, and how much the sheet takes yet. */
static int show(const struct sheet *sheet) {
    uint64_t left = sheet->guarantee > sheet->changes ? sheet->guarantee - sheet->changes : 0;
    print_held(sheet);
    printf("changes left at least: %" PRIu64 ", erases: %" PRIu64 "\n", left, sheet->erases);
    return 0;
}

/* Saves the whole copy's sheet over the damaged one.
   A cut leaves that one damaged, by a mark that is not a save's: nobody is spared the look at every pen. */
static int mend(struct barge *barge) {
    if (save(barge, MENDING) != 0) return REFUSED;
    printf("copy %u mended from copy %u\n", 2 - barge->current, 1 + barge->current);
    print_held(&barge->sheet);
    printf("look at every pen: the last change may be missing\n");
    return 0;
}

/* Makes a file under the first name that is free, and hands that name on: what is there may be in use. */
static int open_fresh(const char *name, char *fresh) {
    int file = -1, i;
    errno = EEXIST;
    for (i = 1; i <= MOST_NAMES && file < 0 && errno == EEXIST; i++) {
        sprintf(fresh, "%s.new%d", name, i);
        file = open(fresh, O_WRONLY | O_CREAT | O_EXCL, 0666);
    }
    return file;
}

/* Makes the file of these two copies, whole or not at all. By link, since a rename replaces a file that is there.
   No file is written or removed that this run has not made: one that a cut has left stays.
   It may be a second name of the file itself: whoever removes it does no harm, whoever writes to it does. */
static int place(const char *name, const uint8_t *first, const uint8_t *second, size_t length) {
    char fresh[4096], folder[4096], *slash;
    int file, whole, error, within;
    if (access(name, F_OK) == 0) return say(REFUSED, "%s: there is one already: take another name", name);
    errno = ENAMETOOLONG;
    if (strlen(name) + sizeof ".new1000" > sizeof fresh) return failed(name, "cannot be made");
    strcpy(folder, name);
    slash = strrchr(folder, '/');
    if (slash != NULL) slash[1] = 0;
    else strcpy(folder, ".");
    within = open(folder, O_RDONLY | O_DIRECTORY);
    if (within < 0) return failed(name, "cannot be made");
    file = open_fresh(name, fresh);
    if (file < 0 && errno == EEXIST)
        return say(REFUSED, "%s: %s.new1 to %s.new%d are all taken: remove those that are not in use",
                   name, name, name, MOST_NAMES);
    if (file < 0) return failed(name, "cannot be made");
    whole = written(file, first, length, 0) && written(file, second, length, SECOND) && fsync(file) == 0 &&
            link(fresh, name) == 0;
    error = errno;
    unlink(fresh);
    errno = error;
    if (!whole) return failed(name, "cannot be made");
    return fsync(within) == 0 ? 0 : failed(name, "made, and may be gone after a power cut");
}

/* Reads a number strictly: digits only, and below 2 to the 64. */
static int number(const char *word, uint64_t *value) {
    const char *at = word;
    for (*value = 0; *at >= '0' && *at <= '9'; at++) {
        uint64_t digit = (uint64_t)(*at - '0');
        if (*value > (UINT64_MAX - digit) / 10) break;
        *value = *value * 10 + digit;
    }
    return at != word && *at == 0 ? 0 : say(BAD_WORDS, "'%s' is no number", word);
}

/* Makes a file: its first copy is an erased sheet, its second is marked as being written until the first change. */
static int make(const char *name, char **words) {
    static struct sheet sheet;
    static uint8_t first[MOST], second[MOST] = {WRITING};
    uint64_t kind = strcmp(words[0], "staged") == 0 ? HARPGINGER_STAGED : HARPGINGER_PLAIN, pens, top, cells, guarantee;
    if (kind == HARPGINGER_PLAIN && strcmp(words[0], "plain") != 0)
        return say(BAD_WORDS, "'%s' is no kind", words[0]);
    if (number(words[1], &pens) != 0 || number(words[2], &top) != 0 || number(words[3], &cells) != 0) return BAD_WORDS;
    if (harpginger_settings(kind, pens, top, cells, sheet.record, HARPGINGER_RECORD, &guarantee) != HARPGINGER_DONE ||
        harpginger_erase(sheet.record, HARPGINGER_RECORD, sheet.cells, cells, &guarantee) != HARPGINGER_DONE)
        return say(REFUSED, "%s: no such sheet: take 2 to 64 pens, top level 1 to 255 and at most 16384 cells; plain "
                   "needs pens * pens cells and pens * top even, staged more cells and 4, 8, 16, 32 or 64 pens", name);
    sheet.saves = 1;
    lay_out(&sheet, first);
    if (place(name, first, second, HEAD + cells) != 0) return REFUSED;
    printf("changes guaranteed: %" PRIu64 "\n", guarantee);
    return 0;
}

/* Opens the file, until this program ends for it alone or for those that only read: another waits here.
   What is no file is not opened. */
static int open_alone(struct barge *barge, const char *name, int writing) {
    struct stat found;
    barge->name = name;
    if (stat(name, &found) != 0) return failed(name, "cannot be opened; new makes it where there is none");
    if (!S_ISREG(found.st_mode)) return say(REFUSED, "%s: no regular file: take another name", name);
    barge->file = open(name, writing ? O_RDWR : O_RDONLY);
    if (barge->file < 0 || flock(barge->file, writing ? LOCK_EX : LOCK_SH) != 0)
        return failed(name, "cannot be opened");
    return 0;
}

/* Obeys the words after the program's own name. */
static int obey(int count, char **words) {
    static const char *const names[COMMANDS] = {"new", "hold", "release", "show", "mend"};
    static const int takes[COMMANDS] = {4, 1, 1, 0, 0};
    static struct barge barge;
    uint64_t pen = 0;
    int command = 0;
    if (count < 2) return say(BAD_WORDS, "there is no command");
    while (command < COMMANDS && strcmp(words[1], names[command]) != 0) command++;
    if (command == COMMANDS) return say(BAD_WORDS, "'%s' is no command", words[1]);
    if (harpginger_version() != HARPGINGER_VERSION)
        return say(REFUSED, "%s: the library that is linked is of another version", words[0]);
    if (count - 2 != takes[command])
        return say(BAD_WORDS, "'%s' takes this many words after it: %d", words[1], takes[command]);
    if (command == NEW) return make(words[0], words + 2);
    if (takes[command] == 1 && number(words[2], &pen) != 0) return BAD_WORDS;
    if (open_alone(&barge, words[0], command != SHOW) != 0 || load(&barge, command == MEND) != 0) return REFUSED;
    if (command == SHOW) return show(&barge.sheet);
    return command == MEND ? mend(&barge) : set(&barge, pen, command == HOLD);
}

int main(int count, char **words) {
    int status = 0, spare;
    do spare = open("/dev/null", O_RDWR);
    while (spare >= 0 && spare <= 2); /* the file must not take the number of a closed output, and be printed into */
    signal(SIGPIPE, SIG_IGN);         /* a closed pipe is told as any output that fails */
    if (count == 1 || (count == 2 && (strcmp(words[1], "--help") == 0 || strcmp(words[1], "-h") == 0)))
        fputs(usage, stdout);
    else status = obey(count - 1, words + 1);
    if (fflush(stdout) != 0 || ferror(stdout)) return say(REFUSED, "the output cannot be written; see what show says");
    return status;
}
