"""A library that stands before the C library, and has some of a program's calls fail: allocations, or calls of the disk and of the
line. It wants a C compiler ('cc'), and a system that loads a library first by LD_PRELOAD.

What is to fail is told in the environment:

- FAILS: 'memory' for malloc and realloc; 'devices' for openings, reads, writes, cuts and syncs, of files and of the line; 'writes' for writes
  and cuts of files alone; 'syncs' for syncs alone.
- AT: the number of the call that fails, counted from 1 among those; with 0 none does.
- ON: 1 where each later one fails too.
- WITH: the error's number, where it is no allocation.
- TOLD_IN: a file in which is kept how many calls there were, and of what the last one was that failed: 'd' of a file, 'l' of the
  line, 'm' of memory, '-' where none failed."""

import os
import shutil
import struct
import subprocess
import tempfile

SOURCE = r"""
#define _GNU_SOURCE
#include <dlfcn.h>
#include <errno.h>
#include <fcntl.h>
#include <stdarg.h>
#include <stdint.h>
#include <stdlib.h>
#include <string.h>
#include <sys/socket.h>
#include <sys/stat.h>
#include <sys/syscall.h>
#include <sys/types.h>
#include <unistd.h>

enum { MEMORY, DEVICES, WRITES, SYNCS, NOTHING };
static struct { int64_t calls; char what[8]; } told = { 0, "-" };
static int kind = -1, on, with, told_in = -1;
static int64_t at;

static int64_t number(const char *name) {
    const char *text = getenv(name);
    return text ? atoll(text) : 0;
}
static void begin(void) {
    const char *fails = getenv("FAILS"), *path = getenv("TOLD_IN");
    kind = NOTHING;
    at = number("AT"), on = number("ON"), with = number("WITH");
    if (path) told_in = syscall(SYS_openat, AT_FDCWD, path, O_CREAT | O_WRONLY | O_CLOEXEC, 0600);
    if (!fails || !path) return;
    kind = !strcmp(fails, "memory") ? MEMORY : !strcmp(fails, "devices") ? DEVICES : !strcmp(fails, "writes") ? WRITES : SYNCS;
}
static int fails(char what) {
    told.calls++;
    int failed = at && (told.calls == at || (on && told.calls > at));
    if (failed) told.what[0] = what;
    syscall(SYS_pwrite64, told_in, &told, sizeof told, 0);
    if (failed) errno = with;
    return failed;
}
static int no_memory(void) {
    if (kind < 0) begin();
    return kind == MEMORY && fails('m');
}
static int is_line(int file) {
    struct stat found;
    return file <= 2 || (!fstat(file, &found) && S_ISSOCK(found.st_mode));
}
/* whether a call of this kind on this file fails */
static int device(int file, int which) {
    if (kind < 0) begin();
    if (kind == DEVICES) return fails(is_line(file) ? 'l' : 'd');
    return kind == which && !is_line(file) && fails('d');
}
#define REAL(type, name, ...) static type (*real)(__VA_ARGS__); if (!real) real = (type (*)(__VA_ARGS__))dlsym(RTLD_NEXT, #name)

void *malloc(size_t size) {
    REAL(void *, malloc, size_t);
    return no_memory() ? 0 : real(size);
}
void *realloc(void *old, size_t size) {
    REAL(void *, realloc, void *, size_t);
    return no_memory() ? 0 : real(old, size);
}
ssize_t read(int file, void *to, size_t size) {
    REAL(ssize_t, read, int, void *, size_t);
    return device(file, NOTHING) ? -1 : real(file, to, size);
}
ssize_t write(int file, const void *from, size_t size) {
    REAL(ssize_t, write, int, const void *, size_t);
    return device(file, WRITES) ? -1 : real(file, from, size);
}
ssize_t pread(int file, void *to, size_t size, off_t place) {
    REAL(ssize_t, pread, int, void *, size_t, off_t);
    return device(file, NOTHING) ? -1 : real(file, to, size, place);
}
ssize_t pwrite(int file, const void *from, size_t size, off_t place) {
    REAL(ssize_t, pwrite, int, const void *, size_t, off_t);
    return device(file, WRITES) ? -1 : real(file, from, size, place);
}
ssize_t pread64(int file, void *to, size_t size, off64_t place) {
    REAL(ssize_t, pread64, int, void *, size_t, off64_t);
    return device(file, NOTHING) ? -1 : real(file, to, size, place);
}
ssize_t pwrite64(int file, const void *from, size_t size, off64_t place) {
    REAL(ssize_t, pwrite64, int, const void *, size_t, off64_t);
    return device(file, WRITES) ? -1 : real(file, from, size, place);
}
int ftruncate(int file, off_t size) {
    REAL(int, ftruncate, int, off_t);
    return device(file, WRITES) ? -1 : real(file, size);
}
int fsync(int file) {
    REAL(int, fsync, int);
    return device(file, SYNCS) ? -1 : real(file);
}
int fdatasync(int file) {
    REAL(int, fdatasync, int);
    return device(file, SYNCS) ? -1 : real(file);
}
off_t lseek(int file, off_t by, int from) {
    REAL(off_t, lseek, int, off_t, int);
    /* of the line it only asks whether there is a place */
    return !is_line(file) && device(file, NOTHING) ? -1 : real(file, by, from);
}
int statx(int file, const char *path, int how, unsigned what, struct statx *found) {
    REAL(int, statx, int, const char *, int, unsigned, struct statx *);
    return !is_line(file) && device(file, NOTHING) ? -1 : real(file, path, how, what, found);
}
int open(const char *path, int how, ...) {
    REAL(int, open, const char *, int, ...);
    va_list more;
    va_start(more, how);
    int mode = how & O_CREAT ? va_arg(more, int) : 0;
    va_end(more);
    if (kind < 0) begin();
    if (kind == DEVICES && path[0] != '/' && fails('d')) return -1;
    return real(path, how, mode);
}
ssize_t recv(int file, void *to, size_t size, int how) {
    REAL(ssize_t, recv, int, void *, size_t, int);
    return device(file, NOTHING) ? -1 : real(file, to, size, how);
}
ssize_t send(int file, const void *from, size_t size, int how) {
    REAL(ssize_t, send, int, const void *, size_t, int);
    return device(file, NOTHING) ? -1 : real(file, from, size, how);
}
"""
TOLD = struct.Struct("<q8s")


def is_there():
    """Whether there is a compiler."""
    return shutil.which("cc") is not None


class Failing:
    """The library, in a folder of its own until it is closed."""

    def __init__(self):
        self.folder = tempfile.TemporaryDirectory()
        source, self.path = os.path.join(self.folder.name, "failing.c"), os.path.join(self.folder.name, "failing.so")
        self.told = os.path.join(self.folder.name, "told")
        with open(source, "w", encoding="utf-8") as file:
            file.write(SOURCE)
        subprocess.run(["cc", "-shared", "-fPIC", "-O1", "-o", self.path, source, "-ldl"], check=True)
        os.chmod(self.folder.name, 0o755)

    def __enter__(self):
        return self

    def __exit__(self, kind, fault, trace):
        self.folder.cleanup()

    def settings(self, fails, at, is_on=False, error=5):
        """The environment of a program of which the call of this number fails, and where that is told each later one."""
        if os.path.exists(self.told):
            os.remove(self.told)
        return {"LD_PRELOAD": self.path, "FAILS": fails, "AT": str(at), "ON": str(int(is_on)), "WITH": str(error),
                "TOLD_IN": self.told}

    def found(self):
        """How many such calls the last run made, and of what the last one was that failed."""
        if not os.path.exists(self.told) or os.path.getsize(self.told) == 0:
            return 0, "-"
        with open(self.told, "rb") as file:
            calls, what = TOLD.unpack(file.read())
        return calls, what[:1].decode()
