/* Times searches of a text of many lines, each a chunk, by zf_find and as a prepared text, and edits of a line in place.
 *
 * usage: prepared_speed LINES [TURNS]
 *
 * 1,000 lines, spread over the text, have a match. A search begins where one of these does. Each figure is the least of some turns (20): the
 * nanoseconds of the processor that one of 1,000 calls takes on average. */
#define _POSIX_C_SOURCE 200809L
#include "../../include/zorfelith.h"
#include <stdio.h>
#include <stdlib.h>
#include <string.h>
#include <time.h>

enum { WIDTH = 40, PLACES = 1000 };

static uint64_t nanos(void) {
    struct timespec now;
    clock_gettime(CLOCK_PROCESS_CPUTIME_ID, &now);
    return (uint64_t)now.tv_sec * 1000000000 + (uint64_t)now.tv_nsec;
}

static void must(int holds) {
    if (!holds)
        abort();
}

/* What is measured. */
struct asked {
    struct zf_handle handle;
    struct zf_text text;
    struct zf_bytes *lines;
    size_t count;
};

/* A search in the array of all lines. */
static void by_array(struct asked *it, size_t line) {
    struct zf_match found;
    must(zf_find(&it->handle, it->lines, it->count, line * WIDTH, ZF_NONE, &found) == ZF_FOUND && found.start / WIDTH == line);
}

/* The same in the prepared text. */
static void by_text(struct asked *it, size_t line) {
    const struct zf_bounds bounds = {line * WIDTH, ZF_NONE, 0};
    struct zf_match found;
    must(zf_text_find(&it->handle, &it->text, &bounds, &found) == ZF_FOUND && found.start / WIDTH == line);
}

/* An edit of a line beside the one before: it is taken out and put in again. */
static void edit_near(struct asked *it, size_t line) {
    static size_t at = 0;
    at = (at + 1) % it->count;
    must(zf_text_edit(&it->text, at, at + 1, it->lines + line, 1) == ZF_DONE);
}

/* An edit of a line that may be far from the one before. */
static void edit_anywhere(struct asked *it, size_t line) {
    must(zf_text_edit(&it->text, line, line + 1, it->lines + line, 1) == ZF_DONE);
}

/* The least time of a call, in nanoseconds. */
static uint64_t least(struct asked *it, unsigned long turns, void call(struct asked *, size_t)) {
    uint64_t taken = UINT64_MAX;
    for (unsigned long turn = 0; turn < turns; turn++) {
        const uint64_t before = nanos();
        for (size_t i = 0; i < PLACES; i++)
            call(it, i * 7919 % PLACES * (it->count / PLACES));
        const uint64_t now = (nanos() - before) / PLACES;
        taken = now < taken ? now : taken;
    }
    return taken;
}

int main(int argc, char **argv) {
    const struct zf_bytes pattern = zf_bytes_of("value_[0-9]+", 12);
    const struct zf_settings settings = {0};
    const unsigned long turns = argc > 2 ? strtoul(argv[2], NULL, 10) : 20;
    struct asked it = {{0, NULL}, {0, NULL}, NULL, 0};
    struct zf_refused refused;
    it.count = argc > 1 ? strtoul(argv[1], NULL, 10) / PLACES * PLACES : 0;
    if (it.count == 0)
        return 2;
    char *bytes = malloc(it.count * WIDTH + 1);
    it.lines = malloc(it.count * sizeof *it.lines);
    must(bytes != NULL && it.lines != NULL);
    for (size_t i = 0; i < it.count; i++) {
        sprintf(bytes + i * WIDTH, i % (it.count / PLACES) == 0 ? "    let value_%08zu = 0; /* here. */\n" : "    let other %08zu = 0; /* none. */\n", i);
        must(strlen(bytes + i * WIDTH) == WIDTH);
        it.lines[i] = zf_bytes_of(bytes + i * WIDTH, WIDTH);
    }
    must(zf_compile(&it.handle, &pattern, 1, &settings, sizeof settings, &refused) == ZF_DONE);
    const uint64_t before = nanos();
    must(zf_text_new(&it.text, it.lines, it.count) == ZF_DONE);
    printf("prepare: %llu us\n", (unsigned long long)((nanos() - before) / 1000));
    printf("zf_find: %llu ns\n", (unsigned long long)least(&it, turns, by_array));
    printf("zf_text_find: %llu ns\n", (unsigned long long)least(&it, turns, by_text));
    printf("edit near: %llu ns\n", (unsigned long long)least(&it, turns, edit_near));
    zf_text_free(&it.text);
    must(zf_text_new(&it.text, it.lines, it.count) == ZF_DONE);
    printf("edit anywhere: %llu ns\n", (unsigned long long)least(&it, turns < 3 ? turns : 3, edit_anywhere));
    zf_text_free(&it.text);
    zf_free(&it.handle);
    free(it.lines);
    free(bytes);
    return 0;
}
