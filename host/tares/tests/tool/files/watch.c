/*
 * Loaded before the C library: notes the calls by which a program writes a file
 * in the file that WATCH_NOTES names, one on a line. At each call that WATCH_CALL
 * names, but for the first WATCH_PASSED of them, the signal WATCH_SIGNAL comes, or
 * the call fails with the error WATCH_ERROR.
 */
#define _GNU_SOURCE
#include <dlfcn.h>
#include <errno.h>
#include <fcntl.h>
#include <signal.h>
#include <stdarg.h>
#include <stdio.h>
#include <stdlib.h>
#include <string.h>
#include <sys/stat.h>
#include <unistd.h>

static void note(const char *format, ...) {
    FILE *notes = fopen(getenv("WATCH_NOTES"), "a");
    va_list values;
    va_start(values, format);
    vfprintf(notes, format, values);
    va_end(values);
    fclose(notes);
}

static int number(const char *name) {
    const char *text = getenv(name);
    return text ? atoi(text) : 0;
}

/* Lets the signal come; whether the call is to fail. */
static int strikes(const char *call) {
    static int passed;
    const char *named = getenv("WATCH_CALL");
    if (!named || strcmp(named, call) || passed++ < number("WATCH_PASSED"))
        return 0;
    if (number("WATCH_SIGNAL"))
        raise(number("WATCH_SIGNAL"));
    errno = number("WATCH_ERROR");
    return errno != 0;
}

static struct stat status(int file) {
    struct stat status;
    fstat(file, &status);
    return status;
}

static int permissions(int file) { return status(file).st_mode & 07777; }

/* Only a file that must not exist yet is noted. */
int open64(const char *name, int flags, ...) {
    int (*next)(const char *, int, ...) = dlsym(RTLD_NEXT, "open64");
    mode_t mode = 0;
    int file;
    va_list values;
    va_start(values, flags);
    if (flags & O_CREAT)
        mode = va_arg(values, mode_t);
    va_end(values);
    file = next(name, flags, mode);
    if (flags & O_EXCL && file >= 0)
        note("create %s %o\n", name, permissions(file));
    return file;
}

/* Standard output and error are not noted. */
ssize_t write(int file, const void *bytes, size_t length) {
    ssize_t (*next)(int, const void *, size_t) = dlsym(RTLD_NEXT, "write");
    if (file > 2) {
        note("write %o\n", permissions(file));
        if (strikes("write"))
            return -1;
    }
    return next(file, bytes, length);
}

int fsync(int file) {
    int (*next)(int) = dlsym(RTLD_NEXT, "fsync");
    const char *kind = S_ISDIR(status(file).st_mode) ? "folder" : "file";
    note("flush %s\n", kind);
    return strikes(kind) ? -1 : next(file);
}

int rename(const char *from, const char *to) {
    int (*next)(const char *, const char *) = dlsym(RTLD_NEXT, "rename");
    note("rename %s %s\n", from, to);
    return strikes("rename") ? -1 : next(from, to);
}
