/* Stands before the C library in a program that is begun with LD_PRELOAD: its allocations are refused, its reads and
   writes fail or are short, and it waits before a read, as the environment says. Calls are counted from 1.

     OUTSIDE_REFUSE_FROM, OUTSIDE_REFUSE_AT   the first allocation that is refused, or the only one
     OUTSIDE_FAIL_OPEN, _READ, _WRITE         the one that fails, with the number OUTSIDE_ERROR
     OUTSIDE_MOST                             the most bytes of a read or a write
     OUTSIDE_STOP                             the read before which a byte is put to OUTSIDE_TELL, and one awaited from
                                              OUTSIDE_WAIT; both are open files
     OUTSIDE_LOG                              an open file that gets a line for each open, read and write: which it is,
                                              how many allocations there were, and the name or the number of the file */
#define _GNU_SOURCE
#include <errno.h>
#include <fcntl.h>
#include <stdarg.h>
#include <stdio.h>
#include <stdlib.h>
#include <string.h>
#include <sys/syscall.h>
#include <unistd.h>

void *__libc_malloc(size_t size);
void *__libc_calloc(size_t count, size_t size);
void *__libc_realloc(void *old, size_t size);

static long begun, allocations, opens, reads, writes;
static long refuse_from, refuse_at, fail_open, fail_read, fail_write, error, most, stop, tell, awaited, logged;

static long asked(const char *name) {
  const char *value = getenv(name);
  return value ? atol(value) : 0;
}

__attribute__((constructor)) static void begin(void) {
  refuse_from = asked("OUTSIDE_REFUSE_FROM");
  refuse_at = asked("OUTSIDE_REFUSE_AT");
  fail_open = asked("OUTSIDE_FAIL_OPEN");
  fail_read = asked("OUTSIDE_FAIL_READ");
  fail_write = asked("OUTSIDE_FAIL_WRITE");
  error = asked("OUTSIDE_ERROR");
  most = asked("OUTSIDE_MOST");
  stop = asked("OUTSIDE_STOP");
  tell = asked("OUTSIDE_TELL");
  awaited = asked("OUTSIDE_WAIT");
  logged = asked("OUTSIDE_LOG");
  begun = 1;
}

/* What the system did before the program began is not counted. */
static int refused(void) {
  if (!begun) return 0;
  allocations++;
  return allocations == refuse_at || (refuse_from && allocations >= refuse_from);
}

static void *no_memory(void) {
  errno = ENOMEM;
  return NULL;
}

void *malloc(size_t size) { return refused() ? no_memory() : __libc_malloc(size); }

void *calloc(size_t count, size_t size) { return refused() ? no_memory() : __libc_calloc(count, size); }

void *realloc(void *old, size_t size) { return refused() ? no_memory() : __libc_realloc(old, size); }

static void log_call(const char *call, const char *of) {
  char line[256];
  int length;
  if (!logged) return;
  length = snprintf(line, sizeof line, "%s %ld %.200s\n", call, allocations, of);
  syscall(SYS_write, (int)logged, line, (size_t)length);
}

static void log_file(const char *call, int file) {
  char number[16];
  snprintf(number, sizeof number, "%d", file);
  log_call(call, number);
}

static long failed(void) {
  errno = (int)error;
  return -1;
}

static size_t shortened(size_t size) { return most && size > (size_t)most ? (size_t)most : size; }

static int open_at(int folder, const char *path, int flags, mode_t mode) {
  log_call("open", path);
  if (++opens == fail_open) return (int)failed();
  return (int)syscall(SYS_openat, folder, path, flags, mode);
}

static mode_t mode_of(int flags, va_list rest) { return flags & (O_CREAT | O_TMPFILE) ? va_arg(rest, mode_t) : 0; }

int open(const char *path, int flags, ...) {
  va_list rest;
  mode_t mode;
  va_start(rest, flags);
  mode = mode_of(flags, rest);
  va_end(rest);
  return open_at(AT_FDCWD, path, flags, mode);
}

int open64(const char *path, int flags, ...) {
  va_list rest;
  mode_t mode;
  va_start(rest, flags);
  mode = mode_of(flags, rest);
  va_end(rest);
  return open_at(AT_FDCWD, path, flags, mode);
}

ssize_t read(int file, void *into, size_t size) {
  char byte = 0;
  log_file("read", file);
  if (++reads == stop) {
    syscall(SYS_write, (int)tell, &byte, (size_t)1);
    syscall(SYS_read, (int)awaited, &byte, (size_t)1);
  }
  if (reads == fail_read) return failed();
  return syscall(SYS_read, file, into, shortened(size));
}

ssize_t write(int file, const void *from, size_t size) {
  log_file("write", file);
  if (++writes == fail_write) return failed();
  return syscall(SYS_write, file, from, shortened(size));
}
