/*
 * Whole files in and out. Every function here ends the program with status 2 and a sentence on standard error
 * where the system refuses: a command goes on only with what it asked for.
 */
#ifndef DESK_FILES_H
#define DESK_FILES_H

#include <stddef.h>
#include <stdint.h>

struct bytes {
    uint8_t *start; /* never NULL */
    size_t length;
};

/* No limit for read_file. */
#define WHOLE_FILE SIZE_MAX

/* Says a sentence on standard error, after the program's name, and ends with status 2. */
void give_up(const char *format, ...)
#if defined(__GNUC__)
    __attribute__((format(printf, 1, 2), noreturn))
#endif
    ;

/* Takes the places of standard files that the caller has closed, so that no file of ours gets them. Reading
 * or writing such a standard file fails. */
void hold_standard_files(void);

/* Memory of so many bytes, at least one, all zero. */
void *take_memory(size_t count, size_t size);

/* More memory in place of `old`. */
void *more_memory(void *old, size_t count, size_t size);

/* A file's bytes, or those of standard input for "-". No more than `most` and one byte are read: the library
 * sees by the length alone that such a file is too long, whatever follows. */
struct bytes read_file(const char *path, size_t most);

/* Writes a file as a whole: beside its place first, then by a change of names, so that a failure leaves what
 * was there. What is no regular file, such as a device or a pipe, is written straight; "-" is standard
 * output. */
void write_file(const char *path, const void *start, size_t length);

/* Ends the program where a call would put its answer in the place of what it reads. */
void keep_apart(const char *input, const char *output);

/* Ends what was printed on standard output. */
void finish_output(void);

#endif
