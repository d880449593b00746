/* A library that is loaded before a program, and shows it a folder with as many files as CROWD says, each of which holds
   a line. The folder is the path CROWDED; nothing stands there on the disk.

   tools/measure/crowd.py compiles and loads it. */
#define _GNU_SOURCE
#include <errno.h>
#include <stdint.h>
#include <stdio.h>
#include <stdlib.h>
#include <string.h>
#include <sys/stat.h>
#include <sys/syscall.h>
#include <unistd.h>

#include "opened.h"

enum { FILE_NUMBER = 1 << 20 }; /* stands for each open file of the folder */

static const char LINE[] = "nothing to run here\n";

static const char *folder;
static unsigned long count, given;
static int folder_number = -1;

__attribute__((constructor)) static void begin(void) {
    const char *text = getenv("CROWD");
    folder = getenv("CROWDED");
    count = text ? strtoul(text, NULL, 10) : 0;
}

/* Whether a path is the folder, or a file of it. */
static int is_folder(const char *path) {
    size_t size = folder ? strlen(folder) : 0;
    return size && !strncmp(path, folder, size) && (!path[size] || !strcmp(path + size, "/"));
}

static int is_file(const char *path) {
    size_t size = folder ? strlen(folder) : 0;
    return size && !strncmp(path, folder, size) && path[size] == '/' && path[size + 1];
}

static int opened(int at, const char *path, int flags, int mode) {
    if (is_file(path)) {
        return FILE_NUMBER;
    }
    if (is_folder(path)) {
        given = 0;
        return folder_number = syscall(SYS_openat, AT_FDCWD, "/", O_RDONLY | O_DIRECTORY | O_CLOEXEC);
    }
    return syscall(SYS_openat, at, path, flags, mode);
}

int close(int number) {
    if (number == FILE_NUMBER) {
        return 0;
    }
    if (number == folder_number) {
        folder_number = -1;
    }
    return syscall(SYS_close, number);
}

ssize_t pread(int number, void *room, size_t size, off_t offset) {
    if (number != FILE_NUMBER) {
        return syscall(SYS_pread64, number, room, size, offset);
    }
    size_t all = sizeof LINE - 1, left = (size_t)offset < all ? all - offset : 0;
    size_t some = size < left ? size : left;
    memcpy(room, LINE + (all - left), some);
    return some;
}

ssize_t getdents64(int number, void *room, size_t size) {
    if (number != folder_number) {
        return syscall(SYS_getdents64, number, room, size);
    }
    enum { ENTRY = 32 }; /* bytes of an entry: two numbers of 64 bits, its size, its kind, and a name of 8 digits */
    size_t place = 0;
    for (; given < count && place + ENTRY <= size; given++, place += ENTRY) {
        char *entry = (char *)room + place;
        uint64_t numbers[2] = {given + 1, given + 1};
        uint16_t length = ENTRY;
        memset(entry, 0, ENTRY);
        memcpy(entry, numbers, 16);
        memcpy(entry + 16, &length, 2);
        entry[18] = 8;
        snprintf(entry + 19, ENTRY - 19, "%08x", (unsigned)given);
    }
    return place;
}

int statx(int at, const char *path, int flags, unsigned mask, struct statx *found) {
    if (!is_file(path)) {
        return syscall(SYS_statx, at, path, flags, mask, found);
    }
    memset(found, 0, sizeof *found);
    found->stx_mask = STATX_BASIC_STATS;
    found->stx_mode = S_IFREG | 0644;
    found->stx_nlink = 1;
    found->stx_size = sizeof LINE - 1;
    return 0;
}
