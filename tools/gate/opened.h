/* The two calls that open a file, for libraries that are loaded before a program: each says in `opened` what becomes of
   a path. */
#include <fcntl.h>
#include <stdarg.h>

static int opened(int at, const char *path, int flags, int mode);

int openat(int at, const char *path, int flags, ...) {
    va_list more;
    va_start(more, flags);
    int mode = va_arg(more, int);
    va_end(more);
    return opened(at, path, flags, mode);
}

int open(const char *path, int flags, ...) {
    va_list more;
    va_start(more, flags);
    int mode = va_arg(more, int);
    va_end(more);
    return opened(AT_FDCWD, path, flags, mode);
}
