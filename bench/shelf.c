// Two writes and two syncs an append: 42 bytes after the end, then one byte before them.
#define _GNU_SOURCE
#include <fcntl.h>
#include <stdio.h>
#include <stdlib.h>
#include <string.h>
#include <unistd.h>

int main(int argc, char **argv) {
    long appends = argc > 1 ? atol(argv[1]) : 0;
    int file = open("plain.bench", O_RDWR | O_CREAT | O_TRUNC, 0666);
    char record[42], gate = 1;
    off_t end = 20;
    memset(record, 0xA5, sizeof record);
    if (file < 0 || pwrite(file, record, 20, 0) != 20 || fsync(file)) return 1;
    for (long i = 0; i < appends; i++) {
        if (pwrite(file, record, sizeof record, end) != sizeof record || fsync(file)) return 1;
        if (pwrite(file, &gate, 1, end - 1) != 1 || fsync(file)) return 1;
        end += sizeof record;
    }
    printf("files %ld end %ld\n", appends, (long)end);
    return 0;
}
