// A library that is loaded before a program (LD_PRELOAD) and makes one of its calls of the host fail.
//
// SHIM_REFUSE=K    the K-th allocation is refused; with SHIM_REST=1 all after it too
// SHIM_FAIL=K      the K-th call on a file fails with the number SHIM_ERROR; where that is `short`, this read or write
//                  moves half of its bytes, at least one
// SHIM_LOG=FILE    what was called is written to FILE: a line for each call on a file, with the call and its file,
//                  and at the end the number of allocations
//
// Calls are counted from 1, from the beginning of the program's own code on. It is for glibc on Linux.
#define _GNU_SOURCE
#include <errno.h>
#include <fcntl.h>
#include <stdarg.h>
#include <stdio.h>
#include <stdlib.h>
#include <string.h>
#include <sys/file.h>
#include <sys/stat.h>
#include <sys/syscall.h>
#include <sys/uio.h>
#include <unistd.h>

extern void *__libc_malloc(size_t);
extern void *__libc_calloc(size_t, size_t);
extern void *__libc_realloc(void *, size_t);
extern void *__libc_memalign(size_t, size_t);

static int begun, is_short, is_rest, error_number, log_file = -1;
static long allocations, calls, refused, failing;
// What each number of a file stands for: the last part of the name with which it was opened.
static char names[64][32] = {"stdin", "stdout", "stderr"};

static long number_in(const char *name) {
  const char *value = getenv(name);
  return value ? atol(value) : 0;
}

static void put_log(const char *text) {
  if (log_file >= 0) syscall(SYS_write, log_file, text, strlen(text));
}

__attribute__((constructor)) static void begin(void) {
  const char *error = getenv("SHIM_ERROR"), *log = getenv("SHIM_LOG");
  refused = number_in("SHIM_REFUSE");
  is_rest = number_in("SHIM_REST") == 1;
  failing = number_in("SHIM_FAIL");
  is_short = error && strcmp(error, "short") == 0;
  error_number = error && !is_short ? atoi(error) : EIO;
  if (log) log_file = (int)syscall(SYS_openat, AT_FDCWD, log, O_WRONLY | O_CREAT | O_TRUNC | O_CLOEXEC, 0666);
  // A high number, so that the program's own files have those that they have without a log.
  if (log_file >= 0) {
    int high = (int)syscall(SYS_fcntl, log_file, F_DUPFD, 200);
    syscall(SYS_close, log_file);
    log_file = high;
  }
  begun = 1;
}

__attribute__((destructor)) static void end(void) {
  char line[64];
  snprintf(line, sizeof line, "allocations %ld\n", allocations);
  put_log(line);
}

// ---- allocations

static int is_refused(void) {
  if (!begun || ++allocations < refused || refused == 0 || (allocations > refused && !is_rest)) return 0;
  errno = ENOMEM;
  return 1;
}

void *malloc(size_t size) { return is_refused() ? NULL : __libc_malloc(size); }
void *calloc(size_t count, size_t size) { return is_refused() ? NULL : __libc_calloc(count, size); }
void *realloc(void *old, size_t size) { return is_refused() ? NULL : __libc_realloc(old, size); }
void *aligned_alloc(size_t align, size_t size) { return is_refused() ? NULL : __libc_memalign(align, size); }
void *memalign(size_t align, size_t size) { return is_refused() ? NULL : __libc_memalign(align, size); }

int posix_memalign(void **to, size_t align, size_t size) {
  void *made = is_refused() ? NULL : __libc_memalign(align, size);
  if (!made) return ENOMEM;
  *to = made;
  return 0;
}

// ---- calls on files

static const char *name_of(int file) { return file >= 0 && file < 64 && names[file][0] ? names[file] : "other"; }

// Counts a call; true where it is to fail, and then errno is set.
static int fails(const char *call, const char *on) {
  char line[96];
  if (!begun) return 0;
  calls++;
  snprintf(line, sizeof line, "%s %s\n", call, on);
  put_log(line);
  if (calls != failing || is_short) return 0;
  errno = error_number;
  return 1;
}

static size_t bytes_of(size_t count) { return begun && is_short && calls == failing && count > 1 ? count / 2 : count; }

static int opened(int file, const char *path) {
  const char *slash = strrchr(path, '/');
  if (file >= 0 && file < 64) snprintf(names[file], sizeof names[file], "%s", slash ? slash + 1 : path);
  return file;
}

static const char *last_of(const char *path) {
  const char *slash = strrchr(path, '/');
  return slash ? slash + 1 : path;
}

static int open_at(int folder, const char *path, int flags, mode_t mode) {
  if (fails("open", last_of(path))) return -1;
  return opened((int)syscall(SYS_openat, folder, path, flags, mode), path);
}

#define MODE(flags) \
  mode_t mode = 0; \
  if (flags & (O_CREAT | __O_TMPFILE)) { \
    va_list more; \
    va_start(more, flags); \
    mode = va_arg(more, mode_t); \
    va_end(more); \
  }

int open(const char *path, int flags, ...) { MODE(flags) return open_at(AT_FDCWD, path, flags, mode); }
int open64(const char *path, int flags, ...) { MODE(flags) return open_at(AT_FDCWD, path, flags, mode); }
int openat(int folder, const char *path, int flags, ...) { MODE(flags) return open_at(folder, path, flags, mode); }
int openat64(int folder, const char *path, int flags, ...) { MODE(flags) return open_at(folder, path, flags, mode); }

ssize_t read(int file, void *into, size_t count) {
  if (fails("read", name_of(file))) return -1;
  return syscall(SYS_read, file, into, bytes_of(count));
}

ssize_t write(int file, const void *from, size_t count) {
  if (fails("write", name_of(file))) return -1;
  return syscall(SYS_write, file, from, bytes_of(count));
}

ssize_t pread(int file, void *into, size_t count, off_t at) {
  if (fails("read", name_of(file))) return -1;
  return syscall(SYS_pread64, file, into, bytes_of(count), at);
}

ssize_t pwrite(int file, const void *from, size_t count, off_t at) {
  if (fails("write", name_of(file))) return -1;
  return syscall(SYS_pwrite64, file, from, bytes_of(count), at);
}

ssize_t pread64(int file, void *into, size_t count, off_t at) { return pread(file, into, count, at); }
ssize_t pwrite64(int file, const void *from, size_t count, off_t at) { return pwrite(file, from, count, at); }

ssize_t writev(int file, const struct iovec *parts, int count) {
  if (fails("write", name_of(file))) return -1;
  return syscall(SYS_writev, file, parts, count);
}

ssize_t readv(int file, const struct iovec *parts, int count) {
  if (fails("read", name_of(file))) return -1;
  return syscall(SYS_readv, file, parts, count);
}

int flock(int file, int how) { return fails("lock", name_of(file)) ? -1 : (int)syscall(SYS_flock, file, how); }
int fsync(int file) { return fails("sync", name_of(file)) ? -1 : (int)syscall(SYS_fsync, file); }
int fdatasync(int file) { return fails("sync", name_of(file)) ? -1 : (int)syscall(SYS_fdatasync, file); }
int ftruncate(int file, off_t size) {
  return fails("truncate", name_of(file)) ? -1 : (int)syscall(SYS_ftruncate, file, size);
}
int ftruncate64(int file, off_t size) { return ftruncate(file, size); }

int statx(int folder, const char *restrict path, int flags, unsigned mask, struct statx *restrict about) {
  if (fails("stat", *path ? last_of(path) : name_of(folder))) return -1;
  return (int)syscall(SYS_statx, folder, path, flags, mask, about);
}

int rename(const char *from, const char *to) {
  return fails("rename", last_of(to)) ? -1 : (int)syscall(SYS_rename, from, to);
}

int close(int file) {
  if (file >= 3 && file < 64) names[file][0] = 0;
  return (int)syscall(SYS_close, file);
}
