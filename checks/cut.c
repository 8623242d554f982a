/* A power cut for the program that it is loaded before (LD_PRELOAD): CUT steps are let through, then the process ends
   with 9. A step is a byte written to a regular file, or a call that syncs, links or unlinks.
   LOSE is eight bits: of the bytes that no sync has followed, those go back to what they were whose place modulo 8
   has its bit set. TELL says each call on standard error. With none of the three set each call is as it was. */
#define _GNU_SOURCE
#include <fcntl.h>
#include <stdio.h>
#include <stdlib.h>
#include <sys/stat.h>
#include <sys/syscall.h>
#include <unistd.h>

enum { MOST = 1 << 16 };
static struct { int file; off_t at; unsigned char old; } unsynced[MOST];
static size_t waiting;
static long taken;

static long number(const char *name, long otherwise) {
    const char *word = getenv(name);
    return word != NULL ? strtol(word, NULL, 0) : otherwise;
}

/* The cut: the disk has some of the unsynced bytes and not the others. */
static void cut(void) {
    while (waiting > 0) {
        waiting--;
        if (number("LOSE", 0) >> unsynced[waiting].at % 8 & 1)
            syscall(SYS_pwrite64, unsynced[waiting].file, &unsynced[waiting].old, 1, unsynced[waiting].at);
    }
    _exit(9);
}

/* How many of so many steps there are yet before the cut. */
static size_t steps(size_t wanted) {
    long left = number("CUT", -1) - taken;
    if (getenv("CUT") == NULL) return wanted;
    if (left < (long)wanted) wanted = (size_t)left;
    taken += (long)wanted;
    return wanted;
}

static void call(const char *name) {
    if (getenv("TELL") != NULL) dprintf(2, "%s\n", name);
    if (steps(1) == 0) cut();
}

/* What stood where a byte is written; a program may open its file for writing only, so it is read by its name. */
static void keep(int file, size_t count, off_t at) {
    char name[32];
    int other;
    size_t i;
    snprintf(name, sizeof name, "/proc/self/fd/%d", file);
    other = open(name, O_RDONLY);
    for (i = 0; other >= 0 && i < count && waiting < MOST; i++, waiting++) {
        unsynced[waiting].file = file;
        unsynced[waiting].at = at + (off_t)i;
        unsynced[waiting].old = 0;
        if (pread(other, &unsynced[waiting].old, 1, at + (off_t)i) < 0) _exit(8);
    }
    close(other);
}

static int counted(int file) {
    struct stat found;
    return file > 2 && fstat(file, &found) == 0 && S_ISREG(found.st_mode);
}

ssize_t pwrite64(int file, const void *bytes, size_t count, off64_t at) {
    size_t now = count;
    ssize_t done;
    if (counted(file)) {
        if (getenv("TELL") != NULL) dprintf(2, "write %zu at %ld\n", count, (long)at);
        now = steps(count);
        if (getenv("CUT") != NULL) keep(file, now, at);
    }
    done = now > 0 || count == 0 ? syscall(SYS_pwrite64, file, bytes, now, at) : 0;
    if (now < count) cut();
    return done;
}

ssize_t pwrite(int file, const void *bytes, size_t count, off_t at) {
    return pwrite64(file, bytes, count, at);
}

ssize_t write(int file, const void *bytes, size_t count) {
    off_t at = counted(file) ? lseek(file, 0, SEEK_CUR) : -1;
    ssize_t done = at < 0 ? syscall(SYS_write, file, bytes, count) : pwrite64(file, bytes, count, at);
    if (at >= 0 && done > 0) lseek(file, done, SEEK_CUR);
    return done;
}

int fsync(int file) {
    call("sync");
    waiting = 0;
    return (int)syscall(SYS_fsync, file);
}

int fdatasync(int file) {
    return fsync(file);
}

int linkat(int from_folder, const char *from, int to_folder, const char *to, int flags) {
    call("link");
    return (int)syscall(SYS_linkat, from_folder, from, to_folder, to, flags);
}

int link(const char *from, const char *to) {
    return linkat(AT_FDCWD, from, AT_FDCWD, to, 0);
}

int unlink(const char *name) {
    call("unlink");
    return (int)syscall(SYS_unlinkat, AT_FDCWD, name, 0);
}
