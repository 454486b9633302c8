/*
 * Runs one command of the station by the library, for trials: library WAY SHELF INPUT WORD.. A `-` for INPUT is no
 * input. With the WAY `bytes` the command runs over the shelf's bytes in memory, again where a room fills up, and bytes
 * that changed become a new file with the shelf's name. With `devices` both are files that the library reads and
 * writes. It ends with the command's status, or 90 where there was none. (The program to begin with is
 * examples/receive.c.)
 */
#define _POSIX_C_SOURCE 200809L
#include <lritstation.h>
#include <stdio.h>
#include <stdlib.h>
#include <string.h>
#include <unistd.h>

struct bytes {
    uint8_t *at;
    size_t length;
};

/* The words as the library takes them. */
struct words {
    uint8_t text[4096];
    size_t length;
};

static void fail(const char *what) {
    perror(what);
    exit(90);
}

/* All bytes of a file; none where there is no such file. */
static struct bytes file_bytes(const char *path) {
    struct bytes all = {malloc(1), 0};
    FILE *file = strcmp(path, "-") == 0 ? NULL : fopen(path, "rb");
    size_t count = 1;
    while (file && count > 0) {
        all.at = realloc(all.at, all.length + 65536);
        count = fread(all.at + all.length, 1, 65536, file);
        all.length += count;
    }
    if (file && (ferror(file) || fclose(file))) fail(path);
    return all;
}

/* A new file with these bytes takes the place of the old one once the disk has it. */
static void replace_file(const char *path, const uint8_t *bytes, size_t count) {
    char name[4096];
    snprintf(name, sizeof name, "%s.new", path);
    FILE *file = fopen(name, "wb");
    if (!file || fwrite(bytes, 1, count, file) != count || fflush(file) || fsync(fileno(file)) || fclose(file) ||
        rename(name, path))
        fail(name);
}

/* ---- devices: files */

struct files {
    FILE *input, *shelf;
};

static int64_t take(void *context, uint8_t *into, size_t most) {
    struct files *files = context;
    if (!files->input) return 0;
    size_t count = fread(into, 1, most < 5000 ? most : 5000, files->input);
    return ferror(files->input) ? -1 : (int64_t)count;
}

static int64_t put(void *context, uint32_t output, const uint8_t *bytes, size_t count) {
    (void)context;
    return (int64_t)fwrite(bytes, 1, count, output == 1 ? stdout : stderr);
}

static int64_t length(void *context) {
    struct files *files = context;
    return fseek(files->shelf, 0, SEEK_END) ? -1 : ftell(files->shelf);
}

static int64_t read_shelf(void *context, uint64_t at, uint8_t *into, size_t most) {
    struct files *files = context;
    if (fseek(files->shelf, (long)at, SEEK_SET)) return -1;
    size_t count = fread(into, 1, most, files->shelf);
    return ferror(files->shelf) ? -1 : (int64_t)count;
}

static int64_t write_shelf(void *context, uint64_t at, const uint8_t *bytes, size_t count) {
    struct files *files = context;
    return fseek(files->shelf, (long)at, SEEK_SET) || fwrite(bytes, 1, count, files->shelf) != count ? -1 : 0;
}

static int64_t cut(void *context, uint64_t size) {
    struct files *files = context;
    if ((uint64_t)length(context) <= size) return 0;
    return fflush(files->shelf) || ftruncate(fileno(files->shelf), (off_t)size) ? -1 : 0;
}

static int64_t sync_shelf(void *context) {
    struct files *files = context;
    return fflush(files->shelf) || fsync(fileno(files->shelf)) ? -1 : 0;
}

static uint32_t over_devices(const char *shelf, const char *input, const struct words *words) {
    struct files files = {fopen(input, "rb"), fopen(shelf, "r+b")};
    struct lr_devices devices = {&files, take, put, length, read_shelf, write_shelf, cut, sync_shelf};
    uint32_t answer = files.shelf ? lr_run_over(&devices, words->text, words->length) : 90;
    if (files.input) fclose(files.input);
    return files.shelf && fclose(files.shelf) == 0 ? answer : 90;
}

/* ---- bytes */

static uint32_t over_bytes(const char *path, const char *given, const struct words *words) {
    struct bytes shelf = file_bytes(path), input = file_bytes(given);
    struct lr_counts counts = {0, 0, 0};
    uint8_t *out = NULL, *err = malloc(4096), *kept = NULL;
    uint32_t answer = LR_NO_ROOM;
    for (size_t room = 65536; room <= (size_t)1 << 30; room *= 2) {
        out = realloc(out, room);
        kept = realloc(kept, room);
        answer = lr_run(words->text, words->length, input.at, input.length, shelf.at, shelf.length, room / 16,
                        out, room, err, 4096, kept, room, &counts);
        if (answer != LR_SHELF_FAILED && answer != LR_OUTPUT_FAILED && answer != LR_NO_ROOM) break;
    }
    if (answer >= LR_NO_MEMORY) return answer;
    fwrite(out, 1, counts.out, stdout);
    fwrite(err, 1, counts.err, stderr);
    if (counts.shelf != shelf.length || memcmp(kept, shelf.at, shelf.length)) replace_file(path, kept, counts.shelf);
    return answer;
}

int main(int argc, char **argv) {
    struct words words;
    if (argc < 5) return 90;
    words.length = lr_words(argc - 4, argv + 4, words.text, sizeof words.text);
    uint32_t answer = strcmp(argv[1], "devices") == 0 ? over_devices(argv[2], argv[3], &words)
                                                     : over_bytes(argv[2], argv[3], &words);
    return answer < LR_NO_MEMORY ? (int)answer : 90;
}
