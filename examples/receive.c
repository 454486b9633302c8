/*
 * Receives symbols from a TCP server, such as SatDump's, onto a shelf: receive SHELF HOST PORT [OPTIONS]. The shelf
 * was made by `lritstation SHELF init CAPACITY`. It ends with the status of `receive`, or 1 where the shelf can't be
 * opened, another process writes it, or the server can't be reached.
 *
 *   cc receive.c $(pkg-config --cflags --libs lritstation) -o receive
 */
#define _GNU_SOURCE
#include <errno.h>
#include <fcntl.h>
#include <lritstation.h>
#include <netdb.h>
#include <signal.h>
#include <stdio.h>
#include <sys/file.h>
#include <sys/stat.h>
#include <unistd.h>

struct station {
    int input, shelf;
};

static int64_t take(void *context, uint8_t *into, size_t most) {
    struct station *station = context;
    return TEMP_FAILURE_RETRY(read(station->input, into, most));
}

static int64_t put(void *context, uint32_t output, const uint8_t *bytes, size_t count) {
    (void)context;
    return TEMP_FAILURE_RETRY(write(output == 1 ? STDOUT_FILENO : STDERR_FILENO, bytes, count));
}

static int64_t length(void *context) {
    struct station *station = context;
    struct stat about;
    return fstat(station->shelf, &about) ? -1 : about.st_size;
}

/* A short count would say that the shelf ends, so it reads on. */
static int64_t read_shelf(void *context, uint64_t at, uint8_t *into, size_t most) {
    struct station *station = context;
    size_t count = 0;
    while (count < most) {
        ssize_t part = TEMP_FAILURE_RETRY(pread(station->shelf, into + count, most - count, (off_t)(at + count)));
        if (part < 0) return -1;
        if (part == 0) break;
        count += (size_t)part;
    }
    return (int64_t)count;
}

static int64_t write_shelf(void *context, uint64_t at, const uint8_t *bytes, size_t count) {
    struct station *station = context;
    for (size_t done = 0; done < count;) {
        ssize_t part = TEMP_FAILURE_RETRY(pwrite(station->shelf, bytes + done, count - done, (off_t)(at + done)));
        if (part <= 0) return -1;
        done += (size_t)part;
    }
    return 0;
}

static int64_t cut(void *context, uint64_t size) {
    struct station *station = context;
    int64_t now = length(context);
    if (now < 0) return -1;
    return (uint64_t)now <= size ? 0 : ftruncate(station->shelf, (off_t)size);
}

static int64_t sync_shelf(void *context) {
    struct station *station = context;
    return fdatasync(station->shelf);
}

static int connected(const char *host, const char *port) {
    struct addrinfo wanted = {.ai_socktype = SOCK_STREAM}, *found = NULL;
    int input = -1;
    if (getaddrinfo(host, port, &wanted, &found)) return -1;
    for (struct addrinfo *it = found; it && input < 0; it = it->ai_next) {
        input = socket(it->ai_family, it->ai_socktype | SOCK_CLOEXEC, it->ai_protocol);
        if (input >= 0 && connect(input, it->ai_addr, it->ai_addrlen)) {
            close(input);
            input = -1;
        }
    }
    freeaddrinfo(found);
    return input;
}

int main(int argc, char **argv) {
    uint8_t text[4096];
    if (argc < 4) return fprintf(stderr, "usage: receive SHELF HOST PORT [OPTIONS]\n"), LR_BAD_WORDS;
    signal(SIGPIPE, SIG_IGN); /* (an output whose reader is gone is a status) */
    struct station station = {.shelf = open(argv[1], O_RDWR | O_CLOEXEC)};
    if (station.shelf < 0) return perror(argv[1]), 1;
    if (flock(station.shelf, LOCK_EX | LOCK_NB)) return fprintf(stderr, "%s: another process writes it\n", argv[1]), 1;
    station.input = connected(argv[2], argv[3]);
    if (station.input < 0) return fprintf(stderr, "%s: can't be reached\n", argv[2]), 1;
    argv[3] = "receive";
    struct lr_devices devices = {&station, take, put, length, read_shelf, write_shelf, cut, sync_shelf};
    return (int)lr_run_over(&devices, text, lr_words(argc - 3, argv + 3, text, sizeof text));
}
