/*
 * The station in a program that isn't Rattle: one command over bytes that the caller lends, or over devices of the
 * caller.
 */
#ifndef LRITSTATION_H
#define LRITSTATION_H

#include <stddef.h>
#include <stdint.h>

#ifdef __cplusplus
extern "C" {
#endif

/* How many bytes a call put into each of the three rooms. */
struct lr_counts {
    uint64_t out, err, shelf;
};

/*
 * What a call answers: the status of a command, and from 256 on that no command ran. A command of the station ends with
 * one of these statuses alone, and LR_BAD_WORDS comes exactly where the words give no command.
 */
enum lr_status {
    LR_DONE = 0,
    LR_BAD_WORDS = 2,        /* no command, or a number out of its range */
    LR_INPUT_FAILED = 3,     /* all that was read before is worked through */
    LR_SHELF_FAILED = 4,     /* a device of the shelf failed, or its room or its calls are used up */
    LR_OUTPUT_FAILED = 5,    /* `put` failed, or the room for the output is used up */
    LR_NOT_A_SHELF = 6,      /* there is no shelf, or it breaks off */
    LR_NO_SUCH_FILE = 7,
    LR_CANNOT_EXPORT = 8,    /* the file has no image, or its segments don't fit together */
    LR_OUT_OF_MEMORY = 9,    /* while the command ran */
    LR_SHELF_FULL = 10,      /* the next file would end past the capacity */
    LR_NOT_EMPTY = 11,       /* a shelf was to be made where bytes are */
    LR_BAD_CHECKSUM = 12,
    LR_DISCARDED = 13,       /* the file of this number is discarded */
    LR_CANNOT_SEND = 15,     /* the file is of channel 63, the channel of fill */
    LR_CANNOT_REPACK = 16,   /* the image of the file isn't coded again */
    LR_NO_MEMORY = 256,      /* no command ran: out of memory */
    LR_NO_TEXT = 257,        /* no command ran: the words are no UTF-8 */
    LR_NO_ROOM = 258         /* no command ran: the shelf is longer than its room */
};

/* The version of the library, such as "0.4" or "0.4+20261201.1200". */
const char *lr_version(void);

/*
 * Writes words, as `main` has them, to `text` as both calls take them, with a line feed between two. It returns how
 * many bytes they have, or 0 where a word has a line feed or `room` is too short; no command has such words. Both calls
 * answer LR_BAD_WORDS for 0 bytes.
 */
size_t lr_words(int count, char *const *words, uint8_t *text, size_t room);

/*
 * Runs one command of the station. Its words are lines of UTF-8 with a line feed between two of them, such as
 * "init\n100000"; there is no line feed after the last word. `input` is what the command reads, and `shelf` the bytes
 * of the shelf. What it prints, the line that says why it ended, and the bytes of the shelf afterwards go to the
 * fronts of `out`, `err` and `kept`, and `counts` says how many. `calls` is how many calls of the shelf there may be,
 * and `kept_room` also how many bytes may be written to it in all; memory for both is taken at once. A call starts no
 * thread.
 *
 * It returns the command's status, 0 to 16, as in `enum lr_status`. Where the room for the output fills up, that is
 * LR_OUTPUT_FAILED: run it again over the same bytes, with twice that room. Where the shelf's room or its calls are
 * used up, that is LR_SHELF_FAILED: run it again with twice `kept_room` and twice `calls`. A line that is longer than
 * the room `err` is cut, and no status says so: 128 bytes hold each line.
 *
 * Three answers are no status, and leave the rooms as they were. LR_NO_TEXT is returned exactly where the words are no
 * UTF-8. Else LR_NO_ROOM is returned exactly where `shelf` is longer than `kept_room`; `counts->shelf` is then how many
 * bytes the room needs at least. Else LR_NO_MEMORY may be returned, where memory was refused.
 *
 * What the caller owes:
 * Each pointer points to that number of bytes, or to more; it is not null, even where the number is 0.
 * The bytes that are given may be read, and the rooms and `counts` written, until the call returns.
 * The rooms and `counts` lie apart from each other and from the bytes that are given.
 * `counts` is aligned as a `uint64_t` is.
 * No other thread writes what is given, or touches the rooms or `counts`, until the call returns.
 * Several calls may run at once, on several threads, each with rooms of its own.
 */
uint32_t lr_run(const uint8_t *words, size_t words_length, const uint8_t *input, size_t input_length,
                const uint8_t *shelf, size_t shelf_length, uint64_t calls, uint8_t *out, size_t out_room,
                uint8_t *err, size_t err_room, uint8_t *kept, size_t kept_room, struct lr_counts *counts);

/*
 * Devices of the caller. `context` goes to each function as its first argument.
 * take: puts the next bytes of the input, at most that many, to the front of `into`; how many, and 0 at the end.
 * put: takes the first bytes for the output 1 (what is put) or 2 (why it ended); how many, at least one.
 * length: how many bytes the shelf has.
 * read: fills the front of `into` with the shelf's bytes from a place on, as many as there are; how many. A short
 * count says that the shelf ends there (so a read that was interrupted goes on within the function).
 * write: writes all bytes at a place of the shelf. cut: takes away its bytes from a place on. sync: makes it durable.
 * The latter three answer 0. Each of the seven answers less than 0 where it fails.
 */
struct lr_devices {
    void *context;
    int64_t (*take)(void *context, uint8_t *into, size_t most);
    int64_t (*put)(void *context, uint32_t output, const uint8_t *bytes, size_t count);
    int64_t (*length)(void *context);
    int64_t (*read)(void *context, uint64_t at, uint8_t *into, size_t most);
    int64_t (*write)(void *context, uint64_t at, const uint8_t *bytes, size_t count);
    int64_t (*cut)(void *context, uint64_t length);
    int64_t (*sync)(void *context);
};

/*
 * Runs one command over devices: for symbols that still come, and for recordings and shelves that are longer than
 * memory. The words are those of lr_run. It answers the command's status, LR_NO_TEXT exactly where the words are no
 * UTF-8, or LR_NO_MEMORY where memory was refused before. Whatever the functions answer, nothing undefined comes of it:
 * a count that can't be is a failure of the device, statuses 3 to 5. It returns once the functions have.
 *
 * What the caller owes:
 * The words are as those of lr_run are. Each function is there, and returns: it is left by no exception and no jump.
 * A function writes only within the range that it is given, and keeps no pointer to it.
 * No function calls lr_run_over for the same shelf. Several calls may run at once, on several threads, each with a
 * shelf of its own.
 * Where the command may write the shelf (init, receive, discard, repack, trial), no other thread or process writes it
 * until the call returns. The program holds the advisory lock of the shelf's file for that, as flock(LOCK_EX) takes it:
 * take the same one before the call, as examples/receive.c does.
 * A buffer in which the caller holds bytes of the shelf is flushed before the call.
 */
uint32_t lr_run_over(const struct lr_devices *devices, const uint8_t *words, size_t words_length);

#ifdef __cplusplus
}
#endif

#endif
