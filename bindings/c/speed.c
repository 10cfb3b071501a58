/* Times searches of the standard input, as crates/bench_find does by the calls of Rattle, for scripts/bindings-speed.
 *
 * usage: speed PATTERN CHUNK ROUNDS matches|texts|calls|windows
 *
 * CHUNK is the length of a chunk in bytes. `matches`: the text stands in such chunks, and all its matches are found in batches of 256.
 * `texts`: each chunk is a text of its own, in which one match is sought. `calls`: all matches, each by a call that is handed all chunks. `windows`:
 * the same, but a call is handed a window of 16 chunks, and of twice as many where it doesn't tell. Each round writes its count and its time, and a last line the
 * least time. */
#define _POSIX_C_SOURCE 200809L
#include "../../include/zorfelith.h"
#include <stdio.h>
#include <stdlib.h>
#include <string.h>
#include <time.h>

enum { BATCH = 256 };

/* The whole of the standard input. */
static struct zf_bytes read_all(void) {
    size_t room = 1 << 20, len = 0;
    uint8_t *bytes = malloc(room);
    while (bytes != NULL) {
        len += fread(bytes + len, 1, room - len, stdin);
        if (len < room)
            break;
        room *= 2;
        bytes = realloc(bytes, room);
    }
    if (bytes == NULL)
        abort();
    return (struct zf_bytes){bytes, len};
}

/* The text in chunks of that length, and how many they are. */
static struct zf_bytes *cut_up(struct zf_bytes text, size_t chunk, size_t *count) {
    *count = (text.len + chunk - 1) / chunk;
    struct zf_bytes *chunks = malloc((*count + 1) * sizeof *chunks);
    if (chunks == NULL)
        abort();
    for (size_t i = 0; i < *count; i++) {
        size_t at = i * chunk;
        chunks[i] = (struct zf_bytes){text.bytes + at, text.len - at < chunk ? text.len - at : chunk};
    }
    return chunks;
}

/* How many matches the text in these chunks has. */
static size_t count_matches(struct zf_handle *handle, const struct zf_bytes *chunks, size_t count) {
    static struct zf_match batch[BATCH];
    struct zf_progress progress = {0, 0};
    size_t matches = 0;
    zf_restart(handle, 0, 0);
    do {
        if (zf_next(handle, chunks, count, ZF_NONE, batch, BATCH, &progress) != ZF_DONE)
            abort();
        matches += progress.count;
    } while (progress.count == BATCH);
    return matches;
}

/* How many of the chunks have a match as texts of their own. */
static size_t count_texts(struct zf_handle *handle, const struct zf_bytes *chunks, size_t count) {
    size_t matches = 0;
    for (size_t i = 0; i < count; i++) {
        struct zf_match found;
        matches += zf_find(handle, &chunks[i], 1, 0, ZF_NONE, &found) == ZF_FOUND;
    }
    return matches;
}

/* The next match of the text from `*from` on, which is raised, by a call that is handed all chunks or a window of some. */
static uint32_t find_on(struct zf_handle *handle, const struct zf_bytes *chunks, size_t count, size_t chunk, int by_windows, size_t *from,
                        struct zf_match *found) {
    uint32_t status = ZF_MORE_AFTER;
    if (!by_windows)
        return zf_find(handle, chunks, count, *from, ZF_NONE, found);
    for (size_t some = 16; status == ZF_MORE_AFTER;) {
        const size_t before = *from, first = (before < 4 ? 0 : before - 4) / chunk;
        const struct zf_window window = {first * chunk, count - first <= some};
        status = zf_window_find(handle, chunks + first, window.is_last ? count - first : some, &window, from, ZF_NONE, found);
        some = *from == before ? 2 * some : 16;
    }
    return status;
}

/* How many matches the text has, by a call for each. */
static size_t count_calls(struct zf_handle *handle, const struct zf_bytes *chunks, size_t count, size_t chunk, int by_windows) {
    struct zf_match found;
    size_t matches = 0, from = 0, last = ZF_NONE;
    while (find_on(handle, chunks, count, chunk, by_windows, &from, &found) == ZF_FOUND) {
        if (found.start == found.end && found.end == last) {
            from = last + 1;
            last = ZF_NONE;
            continue;
        }
        matches++;
        from = last = found.end;
    }
    return matches;
}

static unsigned long micros(void) {
    struct timespec now;
    clock_gettime(CLOCK_MONOTONIC, &now);
    return (unsigned long)now.tv_sec * 1000000 + (unsigned long)now.tv_nsec / 1000;
}

int main(int argc, char **argv) {
    if (argc != 5)
        return 2;
    const struct zf_bytes pattern = {(const uint8_t *)argv[1], strlen(argv[1])};
    const struct zf_settings settings = {0};
    size_t chunk = strtoul(argv[2], NULL, 10), rounds = strtoul(argv[3], NULL, 10), count = 0;
    unsigned long least = (unsigned long)-1;
    struct zf_handle handle = {0};
    struct zf_refused refused;
    if (chunk == 0 || zf_compile(&handle, &pattern, 1, &settings, sizeof settings, &refused) != ZF_DONE)
        return 2;
    struct zf_bytes text = read_all();
    struct zf_bytes *chunks = cut_up(text, chunk, &count);
    for (size_t i = 0; i < rounds; i++) {
        unsigned long start = micros();
        size_t matches;
        if (strcmp(argv[4], "texts") == 0)
            matches = count_texts(&handle, chunks, count);
        else if (strcmp(argv[4], "matches") == 0)
            matches = count_matches(&handle, chunks, count);
        else
            matches = count_calls(&handle, chunks, count, chunk, strcmp(argv[4], "windows") == 0);
        unsigned long time = micros() - start;
        printf("%zu matches, %lu us\n", matches, time);
        least = time < least ? time : least;
    }
    printf("least: %lu us\n", least);
    zf_free(&handle);
    free(chunks);
    free((void *)text.bytes);
    return 0;
}
