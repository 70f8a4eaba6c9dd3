/* A library that a driver loads first: a path with `dead` in it lies on a mount that doesn't
   answer, so that no call on it returns, whatever signal comes. */
#define _GNU_SOURCE
#include <dlfcn.h>
#include <fcntl.h>
#include <stdarg.h>
#include <string.h>
#include <sys/stat.h>
#include <unistd.h>

static void wait_if_dead(const char *path) {
  while (path && strstr(path, "dead")) sleep(1000);
}

#define OPEN(name)                                                   \
  int name(const char *path, int flags, ...) {                       \
    static int (*real)(const char *, int, ...);                      \
    if (!real) real = dlsym(RTLD_NEXT, #name);                       \
    va_list more;                                                    \
    va_start(more, flags);                                           \
    int mode = va_arg(more, int);                                    \
    va_end(more);                                                    \
    wait_if_dead(path);                                              \
    return real(path, flags, mode);                                  \
  }
OPEN(open)
OPEN(open64)

#define STAT(name, kind)                                             \
  int name(const char *path, struct kind *found) {                   \
    static int (*real)(const char *, struct kind *);                 \
    if (!real) real = dlsym(RTLD_NEXT, #name);                       \
    wait_if_dead(path);                                              \
    return real(path, found);                                        \
  }
STAT(stat, stat)
STAT(stat64, stat64)
