/* A library that is loaded before a program, and changes the file CHANGING when the program reads of it a second time:
   the text GROWN is put at its end, or the file is cut to CUT bytes, or, where neither is there, it is taken away.

   tools/gate/hostile.py compiles and loads it. */
#define _GNU_SOURCE
#include <stdlib.h>
#include <string.h>
#include <sys/syscall.h>
#include <unistd.h>

#include "opened.h"

static const char *changing, *grown, *cut;
static int file = -1, times;

__attribute__((constructor)) static void begin(void) {
    changing = getenv("CHANGING");
    grown = getenv("GROWN");
    cut = getenv("CUT");
}

static void grow(void) {
    int number = syscall(SYS_openat, AT_FDCWD, changing, O_WRONLY | O_APPEND, 0);
    if (number >= 0) {
        ssize_t put = write(number, grown, strlen(grown));
        (void)put;
        syscall(SYS_close, number);
    }
}

static void change(void) {
    if (grown) {
        grow();
    } else if (cut) {
        int failed = truncate(changing, atol(cut));
        (void)failed;
    } else {
        unlink(changing);
    }
}

static int opened(int at, const char *path, int flags, int mode) {
    int number = syscall(SYS_openat, at, path, flags, mode);
    if (changing && !strcmp(path, changing)) {
        file = number;
    }
    return number;
}

ssize_t pread(int number, void *room, size_t size, off_t offset) {
    if (number >= 0 && number == file && ++times == 2) {
        change();
    }
    return syscall(SYS_pread64, number, room, size, offset);
}
