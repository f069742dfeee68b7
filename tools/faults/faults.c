/* Faults for a program that is linked with the GNU C library: as a shared library that LD_PRELOAD names, this stands before
   malloc, realloc, read and write. The variable FAULT has a word and a number N:

     memory N          the allocation that has N before it is refused
     memory-from N     so are all behind it
     read N            the read of standard input that has N before it fails, and the next one goes on
     read-none N       it gives no byte
     config N          the same as `read`, of other files
     write N           the write to standard output that has N before it fails, and the next one goes on
     write-none N      it takes no byte

   With a word for reads these give one byte at a time, and with one for writes these take one. At its first fault it
   writes the line `fault` to standard error. */
#define _GNU_SOURCE
#include <errno.h>
#include <stdio.h>
#include <stdlib.h>
#include <string.h>
#include <sys/syscall.h>
#include <unistd.h>

extern void *__libc_malloc(size_t size);
extern void *__libc_realloc(void *block, size_t size);

static char word[16];
static long number, count;

__attribute__((constructor)) static void begin(void) {
    const char *fault = getenv("FAULT");
    if (!fault || sscanf(fault, "%15s %ld", word, &number) != 2) abort();
}

static int is(const char *other) { return !strcmp(word, other); }

/* Whether this one is the fault's, or one behind it that is refused too. */
static int is_met(int lasts) {
    long before = count++;
    if (before == number) syscall(SYS_write, 2, "fault\n", 6);
    return before == number || (lasts && before > number);
}

static int is_refused(void) { return (is("memory") || is("memory-from")) && is_met(is("memory-from")); }

void *malloc(size_t size) { return is_refused() ? NULL : __libc_malloc(size); }

void *realloc(void *block, size_t size) { return is_refused() ? NULL : __libc_realloc(block, size); }

static ssize_t failed(void) {
    errno = EIO;
    return -1;
}

ssize_t read(int file, void *block, size_t size) {
    int is_input = file == 0 && (is("read") || is("read-none"));
    if (!is_input && !(file > 2 && is("config"))) return syscall(SYS_read, file, block, size);
    if (is_met(0)) return is("read-none") ? 0 : failed();
    return syscall(SYS_read, file, block, size < 1 ? size : 1);
}

ssize_t write(int file, const void *block, size_t size) {
    if (file != 1 || !(is("write") || is("write-none"))) return syscall(SYS_write, file, block, size);
    if (is_met(0)) return is("write-none") ? 0 : failed();
    return syscall(SYS_write, file, block, size < 1 ? size : 1);
}
