/* A library that is loaded before a program and has calls of it fail, by variables of its environment:

     FAILING_WHAT    which calls are counted: growth, open, look, list, file, source, sink, accept,
                     receive, send, random
     FAILING_AT      the call that fails, counted from 1; 0 or nothing: none
     FAILING_ON      where it is set, all calls behind that one fail too
     FAILING_MOST    how many bytes a read of standard input or a write to standard output moves at most
     FAILING_SECONDS how much processor time the program may use; with more it is ended by a signal
     FAILING_COUNT   a file into which the number of counted calls is written as the program ends

   A growth is a call that asks for memory, and fails as where there is none. The others fail as a broken device does. */
#define _GNU_SOURCE
#include <dlfcn.h>
#include <errno.h>
#include <fcntl.h>
#include <stdarg.h>
#include <stdatomic.h>
#include <stdio.h>
#include <stdlib.h>
#include <string.h>
#include <sys/resource.h>
#include <sys/socket.h>
#include <sys/stat.h>
#include <sys/syscall.h>
#include <unistd.h>

enum what { NOTHING, GROWTH, OPEN, LOOK, LIST, FILES, SOURCE, SINK, ACCEPT, RECEIVE, SEND, RANDOM };

static const char *const names[] = {"",     "growth", "open",    "look", "list",  "file", "source",
                                    "sink", "accept", "receive", "send", "random"};

static enum what counted = NOTHING;
static atomic_ulong calls;
static unsigned long fails_at;
static int fails_on;
static size_t most;

extern void *__libc_malloc(size_t size);
extern void *__libc_calloc(size_t count, size_t size);
extern void *__libc_realloc(void *old, size_t size);
extern void *__libc_memalign(size_t alignment, size_t size);

static unsigned long number_in(const char *name) {
  const char *text = getenv(name);
  return text ? strtoul(text, NULL, 10) : 0;
}

__attribute__((constructor)) static void begin(void) {
  const char *text = getenv("FAILING_WHAT");
  fails_at = number_in("FAILING_AT");
  fails_on = getenv("FAILING_ON") != NULL;
  most = number_in("FAILING_MOST");
  rlim_t seconds = number_in("FAILING_SECONDS");
  if (seconds) setrlimit(RLIMIT_CPU, &(struct rlimit){seconds, seconds});
  for (int at = GROWTH; text && at <= RANDOM; at++)
    if (!strcmp(text, names[at])) counted = at;
}

static void tell_count(void) {
  const char *path = getenv("FAILING_COUNT");
  unsigned long count = atomic_load(&calls);
  counted = NOTHING;
  FILE *file = path ? fopen(path, "w") : NULL;
  if (!file) return;
  fprintf(file, "%lu\n", count);
  fclose(file);
}

/* Counts a call, and tells whether it is to fail. */
static int fails(enum what what, int error) {
  if (counted != what) return 0;
  unsigned long number = atomic_fetch_add(&calls, 1) + 1;
  if (!fails_at || (fails_on ? number < fails_at : number != fails_at)) return 0;
  errno = error;
  return 1;
}

void *malloc(size_t size) { return fails(GROWTH, ENOMEM) ? NULL : __libc_malloc(size); }

void *calloc(size_t count, size_t size) { return fails(GROWTH, ENOMEM) ? NULL : __libc_calloc(count, size); }

void *realloc(void *old, size_t size) { return fails(GROWTH, ENOMEM) ? NULL : __libc_realloc(old, size); }

void *memalign(size_t alignment, size_t size) {
  return fails(GROWTH, ENOMEM) ? NULL : __libc_memalign(alignment, size);
}

void *aligned_alloc(size_t alignment, size_t size) { return memalign(alignment, size); }

int posix_memalign(void **made, size_t alignment, size_t size) {
  void *memory = memalign(alignment, size);
  if (!memory) return ENOMEM;
  *made = memory;
  return 0;
}

/* The call of that name of the libraries behind this one. */
static void *behind(const char *name) { return dlsym(RTLD_NEXT, name); }

int openat(int folder, const char *path, int flags, ...) {
  va_list rest;
  va_start(rest, flags);
  int mode = (flags & O_CREAT) ? va_arg(rest, int) : 0;
  va_end(rest);
  int (*call)(int, const char *, int, ...) = behind("openat");
  return fails(OPEN, EIO) ? -1 : call(folder, path, flags, mode);
}

int open(const char *path, int flags, ...) {
  va_list rest;
  va_start(rest, flags);
  int mode = (flags & O_CREAT) ? va_arg(rest, int) : 0;
  va_end(rest);
  int (*call)(const char *, int, ...) = behind("open");
  return fails(OPEN, EIO) ? -1 : call(path, flags, mode);
}

int statx(int folder, const char *restrict path, int flags, unsigned mask, struct statx *restrict found) {
  int (*call)(int, const char *, int, unsigned, struct statx *) = behind("statx");
  return fails(LOOK, EIO) ? -1 : call(folder, path, flags, mask, found);
}

ssize_t getdents64(int folder, void *buffer, size_t size) {
  ssize_t (*call)(int, void *, size_t) = behind("getdents64");
  return fails(LIST, EIO) ? -1 : call(folder, buffer, size);
}

ssize_t read(int from, void *buffer, size_t size) {
  ssize_t (*call)(int, void *, size_t) = behind("read");
  if (fails(from == STDIN_FILENO ? SOURCE : FILES, EIO)) return -1;
  return call(from, buffer, from == STDIN_FILENO && most && size > most ? most : size);
}

ssize_t write(int to, const void *buffer, size_t size) {
  ssize_t (*call)(int, const void *, size_t) = behind("write");
  if (to == STDOUT_FILENO && fails(SINK, EIO)) return -1;
  return call(to, buffer, to == STDOUT_FILENO && most && size > most ? most : size);
}

/* One that fails does so once a connection has come, which is lost. */
int accept4(int listener, struct sockaddr *address, socklen_t *length, int flags) {
  int (*call)(int, struct sockaddr *, socklen_t *, int) = behind("accept4");
  int link = call(listener, address, length, flags);
  if (link < 0 || !fails(ACCEPT, EINVAL)) return link;
  close(link);
  errno = EINVAL;
  return -1;
}

int getentropy(void *buffer, size_t size) {
  int (*call)(void *, size_t) = behind("getentropy");
  return fails(RANDOM, EIO) ? -1 : call(buffer, size);
}

ssize_t recv(int from, void *buffer, size_t size, int flags) {
  ssize_t (*call)(int, void *, size_t, int) = behind("recv");
  return fails(RECEIVE, ECONNRESET) ? -1 : call(from, buffer, size, flags);
}

ssize_t send(int to, const void *buffer, size_t size, int flags) {
  ssize_t (*call)(int, const void *, size_t, int) = behind("send");
  return fails(SEND, ECONNRESET) ? -1 : call(to, buffer, size, flags);
}

/* By this the program ends. */
void _exit(int status) {
  tell_count();
  for (;;) syscall(SYS_exit_group, status);
}
