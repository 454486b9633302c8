/*
 * The functions of its host that lr_live calls: those of the caller of lr_run_over, on its own thread. A call starts no
 * thread, so the caller's devices are known there, and calls on other threads have others.
 */
#include "lritstation.h"

const char *lr_version(void) { return LR_VERSION; }

size_t lr_words(int count, char *const *words, uint8_t *text, size_t room) {
    size_t length = 0;
    for (int place = 0; place < count; place++) {
        if (place > 0) {
            if (length == room) return 0;
            text[length++] = '\n';
        }
        for (const char *at = words[place]; *at; at++) {
            if (*at == '\n' || length == room) return 0;
            text[length++] = (uint8_t)*at;
        }
    }
    return length;
}

uint32_t lr_live(const uint8_t *words, size_t words_length);

static _Thread_local const struct lr_devices *here = NULL;

int64_t lr_host_take(uint8_t *into, size_t most) { return here->take(here->context, into, most); }

int64_t lr_host_put(uint32_t output, const uint8_t *bytes, size_t count) {
    return here->put(here->context, output, bytes, count);
}

int64_t lr_host_length(void) { return here->length(here->context); }

int64_t lr_host_read(uint64_t at, uint8_t *into, size_t most) { return here->read(here->context, at, into, most); }

int64_t lr_host_write(uint64_t at, const uint8_t *bytes, size_t count) {
    return here->write(here->context, at, bytes, count);
}

int64_t lr_host_cut(uint64_t length) { return here->cut(here->context, length); }

int64_t lr_host_sync(void) { return here->sync(here->context); }

uint32_t lr_run_over(const struct lr_devices *devices, const uint8_t *words, size_t words_length) {
    /* (a device may run a command over other devices) */
    const struct lr_devices *before = here;
    here = devices;
    uint32_t status = lr_live(words, words_length);
    here = before;
    return status;
}
