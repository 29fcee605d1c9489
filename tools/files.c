/*
 * Whole files in and out, by POSIX calls: reading with a limit, and writing beside a file's place and then
 * renaming. A signal that ends the program while it writes takes the unfinished file with it.
 */
#define _XOPEN_SOURCE 700
#include "files.h"

#include <errno.h>
#include <fcntl.h>
#include <signal.h>
#include <stdarg.h>
#include <stdbool.h>
#include <stdio.h>
#include <stdlib.h>
#include <string.h>
#include <sys/stat.h>
#include <unistd.h>

void give_up(const char *format, ...)
{
    va_list list;
    va_start(list, format);
    fflush(stdout);
    fprintf(stderr, "varnwalnut: ");
    vfprintf(stderr, format, list);
    fprintf(stderr, "\n");
    va_end(list);
    exit(2);
}

void hold_standard_files(void)
{
    for (int file = STDIN_FILENO; file <= STDERR_FILENO; file++) {
        if (fcntl(file, F_GETFD) < 0 && errno == EBADF) {
            /* The lowest free number is the one that is missing. */
            (void)open("/dev/null", file == STDIN_FILENO ? O_WRONLY : O_RDONLY);
        }
    }
}

/* --- memory */

void *take_memory(size_t count, size_t size)
{
    void *start = calloc(count == 0 ? 1 : count, size);
    if (start == NULL) {
        give_up("there is too little memory");
    }
    return start;
}

void *more_memory(void *old, size_t count, size_t size)
{
    void *start = count > SIZE_MAX / size ? NULL : realloc(old, count * size);
    if (start == NULL) {
        give_up("there is too little memory");
    }
    return start;
}

/* --- reading */

/* Standard input can be read to its end once. */
static int open_input(const char *path)
{
    static bool taken = false;
    if (strcmp(path, "-") != 0) {
        return open(path, O_RDONLY | O_CLOEXEC);
    }
    if (taken) {
        give_up("standard input (-) stands for two files");
    }
    taken = true;
    return STDIN_FILENO;
}

static const char *input_name(const char *path)
{
    return strcmp(path, "-") == 0 ? "standard input" : path;
}

/* How much more to read, after `length` bytes in `room`: the room is doubled when it is full. */
static size_t room_left(struct bytes *bytes, size_t *room, size_t limit)
{
    if (bytes->length == *room) {
        if (*room > SIZE_MAX / 2) {
            give_up("there is too little memory");
        }
        *room *= 2;
        bytes->start = more_memory(bytes->start, *room, 1);
    }
    size_t left = *room - bytes->length;
    return limit - bytes->length < left ? limit - bytes->length : left;
}

struct bytes read_file(const char *path, size_t most)
{
    size_t limit = most == WHOLE_FILE ? WHOLE_FILE : most + 1;
    size_t room = 65536;
    struct bytes bytes = {take_memory(room, 1), 0};
    int file = open_input(path);
    if (file < 0) {
        give_up("%s: %s", path, strerror(errno));
    }
    while (bytes.length < limit) {
        size_t asked = room_left(&bytes, &room, limit);
        ssize_t count = read(file, bytes.start + bytes.length, asked);
        if (count < 0 && errno != EINTR) {
            give_up("%s: %s", input_name(path), strerror(errno));
        }
        if (count == 0) {
            break;
        }
        if (count > 0) {
            bytes.length += (size_t)count;
        }
    }
    if (file != STDIN_FILENO) {
        close(file);
    }
    /* No room behind the last byte: what would read on there is found by the tools that watch memory. */
    bytes.start = more_memory(bytes.start, bytes.length == 0 ? 1 : bytes.length, 1);
    return bytes;
}

/* --- writing */

/* The file that is being written beside its place; a handler reads it. */
static char *volatile unfinished = NULL;

static void forget_unfinished(int signal_number)
{
    if (unfinished != NULL) {
        unlink(unfinished);
    }
    signal(signal_number, SIG_DFL);
    raise(signal_number);
}

static const int STOPS[] = {SIGINT, SIGTERM, SIGHUP, SIGQUIT};
enum { STOP_COUNT = sizeof STOPS / sizeof *STOPS };

/* Makes a new file by a pattern, and has signals that stop the program take it away. They wait until its name
 * is noted. */
static int make_unfinished(char *pattern)
{
    sigset_t stops, before;
    sigemptyset(&stops);
    for (size_t i = 0; i < STOP_COUNT; i++) {
        if (signal(STOPS[i], forget_unfinished) == SIG_IGN) {
            signal(STOPS[i], SIG_IGN);
        }
        sigaddset(&stops, STOPS[i]);
    }
    sigprocmask(SIG_BLOCK, &stops, &before);
    int file = mkstemp(pattern);
    int reason = errno;
    unfinished = file < 0 ? NULL : pattern;
    sigprocmask(SIG_SETMASK, &before, NULL);
    errno = reason;
    return file;
}

/* Writes all of it, and tells whether that went well; errno says why not. */
static bool write_all(int file, const uint8_t *start, size_t length)
{
    size_t written = 0;
    while (written < length) {
        ssize_t count = write(file, start + written, length - written);
        if (count < 0 && errno != EINTR) {
            return false;
        }
        if (count > 0) {
            written += (size_t)count;
        }
    }
    return true;
}

/* A device, a pipe or the like keeps its place: its bytes are written straight into it. */
static void write_straight(const char *path, const uint8_t *start, size_t length)
{
    int file = open(path, O_WRONLY | O_CLOEXEC);
    if (file < 0 || !write_all(file, start, length) || close(file) != 0) {
        give_up("%s: %s", path, strerror(errno));
    }
}

/* The folder of a path, with its slash, or nothing for the folder in which the program runs. */
static size_t folder_length(const char *path)
{
    const char *slash = strrchr(path, '/');
    return slash == NULL ? 0 : (size_t)(slash - path) + 1;
}

/* A new file's rights are those that the user's mask leaves; a file that is there keeps its own. */
static mode_t rights(const struct stat *old)
{
    if (old != NULL) {
        return old->st_mode & 0777;
    }
    mode_t mask = umask(0);
    umask(mask);
    return 0666 & ~mask;
}

/* The name has come to stay only when its folder is on the disk too. Not every file system can be asked. */
static void keep_name(const char *path)
{
    size_t length = folder_length(path);
    char *folder = take_memory(length + 2, 1);
    memcpy(folder, path, length);
    if (length == 0) {
        folder[0] = '.';
    }
    int file = open(folder, O_RDONLY | O_CLOEXEC);
    if (file >= 0) {
        (void)fsync(file);
        close(file);
    }
    free(folder);
}

/* `path` is where the file stands, and `name` what the call calls it. */
static void write_beside(const char *name, const char *path, const struct stat *old, const uint8_t *start,
                         size_t length)
{
    static const char pattern[] = ".varnwalnut-XXXXXX";
    size_t folder = folder_length(path);
    char *beside = take_memory(folder + sizeof pattern, 1);
    memcpy(beside, path, folder);
    memcpy(beside + folder, pattern, sizeof pattern);
    int file = make_unfinished(beside);
    if (file < 0) {
        give_up("%s: no new file can be made beside it: %s", name, strerror(errno));
    }
    bool good = fchmod(file, rights(old)) == 0 && write_all(file, start, length) && fsync(file) == 0;
    int reason = errno;
    if (close(file) != 0 && good) {
        good = false;
        reason = errno;
    }
    if (good && rename(beside, path) != 0) {
        good = false;
        reason = errno;
    }
    if (!good) {
        unlink(beside);
        unfinished = NULL;
        give_up("%s: %s; it is as it was before", name, strerror(reason));
    }
    unfinished = NULL;
    keep_name(path);
    free(beside);
}

void write_file(const char *path, const void *start, size_t length)
{
    struct stat old;
    if (strcmp(path, "-") == 0) {
        finish_output();
        if (!write_all(STDOUT_FILENO, start, length)) {
            give_up("standard output: %s", strerror(errno));
        }
    } else if (stat(path, &old) != 0) {
        write_beside(path, path, NULL, start, length);
    } else if (!S_ISREG(old.st_mode)) {
        write_straight(path, start, length);
    } else {
        /* What a link leads to is replaced, not the link. */
        char *real = realpath(path, NULL);
        write_beside(path, real == NULL ? path : real, &old, start, length);
        free(real);
    }
}

void keep_apart(const char *input, const char *output)
{
    struct stat in, out;
    if (strcmp(input, "-") == 0 || strcmp(output, "-") == 0 || stat(input, &in) != 0 ||
        stat(output, &out) != 0 || !S_ISREG(in.st_mode)) {
        return;
    }
    if (in.st_dev == out.st_dev && in.st_ino == out.st_ino) {
        give_up("%s is read, and would be lost if the answer took its place", output);
    }
}

void finish_output(void)
{
    errno = 0;
    if (fflush(stdout) != 0 || ferror(stdout)) {
        const char *reason = errno == 0 ? "not all of it is written" : strerror(errno);
        fprintf(stderr, "varnwalnut: standard output: %s\n", reason);
        _exit(2); /* without the flush at the end, which would fail once more */
    }
}
