/* The calls that open a file. A library that stands between a program and the system includes this
 * after its `opened`, which each of these calls with its folder, its flags and its mode. */
#include <fcntl.h>
#include <stdarg.h>
#include <sys/types.h>

#define MODE(flags, mode)                          \
    mode_t mode = 0;                               \
    if ((flags) & (O_CREAT | __O_TMPFILE)) {       \
        va_list words;                             \
        va_start(words, flags);                    \
        mode = va_arg(words, mode_t);              \
        va_end(words);                             \
    }

int open(const char *name, int flags, ...)
{
    MODE(flags, mode)
    return opened(AT_FDCWD, name, flags, mode);
}

int open64(const char *name, int flags, ...)
{
    MODE(flags, mode)
    return opened(AT_FDCWD, name, flags, mode);
}

int openat(int folder, const char *name, int flags, ...)
{
    MODE(flags, mode)
    return opened(folder, name, flags, mode);
}

int openat64(int folder, const char *name, int flags, ...)
{
    MODE(flags, mode)
    return opened(folder, name, flags, mode);
}
