/* Answers requests from the standard input, one a line, for scripts/bindings. Fields stand between blanks, bytes in hexadecimal (`-`: none):
 *
 *     KIND FLAGS CUT BATCH START END PATTERNS pattern .. text
 *
 * KIND is f (the first match), a (all matches), g (the first match with its groups), m (whether there is one), w (which patterns
 * have one) or r (only compile). FLAGS are ten settings, a digit each: the flags as 0 or 1, the kind of match as its number, and full as 0 or 1.
 * CUT is the length of the chunks, 0 for one chunk. END is a number or `end`. The answer is a line. */
#include "../../include/zorfelith.h"
#include <stdio.h>
#include <stdlib.h>
#include <string.h>

enum { LINE = 1 << 20, MOST = 1 << 12, GROUPS = 128 };

static uint8_t nibble(char c) { return (uint8_t)(c <= '9' ? c - '0' : c - 'a' + 10); }

/* The bytes that the word writes, in place. */
static struct zf_bytes bytes_of(char *word) {
    struct zf_bytes all = zf_bytes_of(NULL, 0);
    if (strcmp(word, "-") == 0)
        return all;
    uint8_t *out = (uint8_t *)word;
    size_t len = strlen(word) / 2;
    for (size_t i = 0; i < len; i++)
        out[i] = (uint8_t)(nibble(word[2 * i]) * 16 + nibble(word[2 * i + 1]));
    all.bytes = out;
    all.len = len;
    return all;
}

/* The text in chunks of that length. */
static size_t cut_up(struct zf_bytes text, size_t cut, struct zf_bytes *chunks) {
    if (cut == 0) {
        chunks[0] = text;
        return 1;
    }
    size_t count = 0;
    for (size_t at = 0; at < text.len; at += cut) {
        chunks[count].bytes = text.bytes + at;
        chunks[count++].len = text.len - at < cut ? text.len - at : cut;
    }
    return count;
}

static void put_group(const char *before, struct zf_group group) {
    if (group.start == ZF_NONE)
        printf("%s.", before);
    else
        printf("%s%zu-%zu", before, group.start, group.end);
}

static void all_matches(struct zf_handle *handle, const struct zf_bytes *chunks, size_t count, size_t start, size_t end, size_t capacity) {
    struct zf_match *batch = malloc(capacity * sizeof *batch);
    struct zf_progress progress = {0, 0};
    uint32_t status = zf_restart(handle, start, 0);
    if (batch == NULL)
        abort();
    do {
        status = zf_next(handle, chunks, count, end, batch, capacity, &progress);
        if (status != ZF_DONE) {
            printf(" status %u", status);
            break;
        }
        for (size_t i = 0; i < progress.count; i++)
            printf(" %zu:%zu-%zu", batch[i].pattern, batch[i].start, batch[i].end);
    } while (progress.count == capacity);
    free(batch);
}

static void which_patterns(struct zf_handle *handle, const struct zf_bytes *chunks, size_t count, size_t start, size_t end) {
    uint8_t marks[MOST];
    size_t patterns = 0;
    zf_pattern_count(handle, &patterns);
    uint32_t status = zf_which_patterns(handle, chunks, count, start, end, marks, patterns < MOST ? patterns : MOST);
    if (status != ZF_DONE) {
        printf("status %u", status);
        return;
    }
    printf("which");
    for (size_t i = 0; i < patterns && i < MOST; i++)
        if (marks[i])
            printf(" %zu", i);
}

/* What windows of the text tell of the search, which has to be what the whole text tells. The first window has eight bytes, and each that
 * doesn't tell more is followed by one that is twice as long. */
static uint32_t by_windows(struct zf_handle *handle, struct zf_bytes text, size_t cut, size_t from, size_t end, struct zf_match *found) {
    struct zf_bytes *chunks = malloc((text.len + 1) * sizeof *chunks);
    uint32_t status = ZF_MORE_AFTER;
    if (chunks == NULL)
        abort();
    for (size_t room = 8; status == ZF_MORE_AFTER;) {
        const size_t before = from;
        struct zf_window window = {from < 4 ? 0 : from - 4, 0};
        if (window.start > text.len)
            window.start = text.len < 4 ? 0 : text.len - 4;
        const size_t left = text.len - window.start;
        window.is_last = left <= room;
        const struct zf_bytes part = {text.bytes + window.start, left < room ? left : room};
        status = zf_window_find(handle, chunks, cut_up(part, cut, chunks), &window, &from, end, found);
        room = from == before ? 2 * room : 8;
    }
    free(chunks);
    return status;
}

/* Whether the next match of the iteration over the text isn't this one; none of it has a start of ZF_NONE. */
static int is_other(struct zf_handle *handle, const struct zf_bytes *chunks, size_t count, struct zf_match found) {
    struct zf_match next = {0, ZF_NONE, 0};
    struct zf_progress progress;
    if (zf_next(handle, chunks, count, ZF_NONE, &next, 1, &progress) != ZF_DONE)
        return 1;
    return next.start != found.start || (found.start != ZF_NONE && (next.end != found.end || next.pattern != found.pattern));
}

/* Whether a stream that is fed the chunks tells other matches than the iteration over the text does. */
static int by_stream(struct zf_handle *handle, const struct zf_bytes *chunks, size_t count) {
    struct zf_match found = {0, ZF_NONE, 0};
    int differs = zf_restart(handle, 0, 0) != ZF_DONE || zf_stream_new(handle) != ZF_DONE;
    for (size_t i = 0; i <= count && !differs; i++) {
        differs |= (i < count ? zf_stream_feed(handle, chunks[i].bytes, chunks[i].len) : zf_stream_finish(handle)) != ZF_DONE;
        while (!differs && zf_stream_next(handle, &found) == ZF_FOUND)
            differs |= is_other(handle, chunks, count, found);
    }
    found.start = ZF_NONE;
    return differs || is_other(handle, chunks, count, found) || zf_stream_free(handle) != ZF_DONE;
}

/* Whether a search in slices finds another match than this one, or ends otherwise. */
static int by_steps(struct zf_handle *handle, const struct zf_bytes *chunks, size_t count, size_t start, uint32_t status, struct zf_match found) {
    struct zf_match other = {7, 7, 7};
    uint32_t stepped = zf_step_new(handle, start) == ZF_DONE ? ZF_MORE_AFTER : ZF_MEMORY;
    for (size_t budget = 1; stepped == ZF_MORE_AFTER; budget = budget % 3 + 1)
        stepped = zf_step_resume(handle, chunks, count, budget, &other);
    return stepped != status || (status == ZF_FOUND && memcmp(&other, &found, sizeof found) != 0) || zf_step_free(handle) != ZF_DONE;
}

static void answer(char kind, struct zf_handle *handle, struct zf_bytes text, size_t cut, const struct zf_bytes *chunks, size_t count, size_t start,
                   size_t end, size_t capacity) {
    struct zf_match found = {7, 7, 7};
    struct zf_group groups[GROUPS];
    size_t group_count = 0;
    uint32_t status;
    if (kind == 'a') {
        printf("all");
        all_matches(handle, chunks, count, start, end, capacity);
        if (start == 0 && end == ZF_NONE && by_stream(handle, chunks, count))
            printf(" by a stream otherwise");
        return;
    }
    if (kind == 'm') {
        printf("status %u", zf_is_match(handle, chunks, count, start, end));
        return;
    }
    if (kind == 'w') {
        which_patterns(handle, chunks, count, start, end);
        return;
    }
    if (kind == 'f')
        status = zf_find(handle, chunks, count, start, end, &found);
    else
        status = zf_find_groups(handle, chunks, count, start, end, &found, groups, GROUPS);
    printf("status %u", status);
    struct zf_match other = {7, 7, 7};
    if (by_windows(handle, text, cut, start, end, &other) != status || (status == ZF_FOUND && memcmp(&other, &found, sizeof found) != 0))
        printf(" by windows otherwise");
    if (end == ZF_NONE && status != ZF_OUTSIDE && by_steps(handle, chunks, count, start, status, found))
        printf(" by steps otherwise");
    if (status != ZF_FOUND)
        return;
    printf(" %zu:%zu-%zu", found.pattern, found.start, found.end);
    if (kind == 'g') {
        zf_group_count(handle, found.pattern, &group_count);
        printf(" of %zu", group_count);
        for (size_t i = 0; i < group_count && i < GROUPS; i++)
            put_group(" ", groups[i]);
    }
}

int main(void) {
    char *line = malloc(LINE);
    struct zf_bytes *chunks = malloc(LINE / 2 * sizeof *chunks);
    struct zf_bytes patterns[MOST];
    if (line == NULL || chunks == NULL)
        return 1;
    while (fgets(line, LINE, stdin) != NULL) {
        char kind = strtok(line, " \n")[0];
        struct zf_settings settings = {0};
        const size_t flags = offsetof(struct zf_settings, kind) + 1;
        const char *digits = strtok(NULL, " \n");
        for (size_t i = 0; i < flags; i++)
            ((uint8_t *)&settings)[i] = (uint8_t)(digits[i] - '0');
        settings.full = (size_t)(digits[flags] - '0');
        size_t cut = strtoul(strtok(NULL, " \n"), NULL, 10);
        size_t capacity = strtoul(strtok(NULL, " \n"), NULL, 10);
        size_t start = strtoul(strtok(NULL, " \n"), NULL, 10);
        char *word = strtok(NULL, " \n");
        size_t end = strcmp(word, "end") == 0 ? ZF_NONE : strtoul(word, NULL, 10);
        size_t count = strtoul(strtok(NULL, " \n"), NULL, 10);
        for (size_t i = 0; i < count && i < MOST; i++)
            patterns[i] = bytes_of(strtok(NULL, " \n"));
        struct zf_bytes text = bytes_of(strtok(NULL, " \n"));
        struct zf_handle handle = {0, NULL};
        struct zf_refused refused = {0, 0, 0};
        uint32_t status = zf_compile(&handle, patterns, count, &settings, sizeof settings, &refused);
        if (status != ZF_DONE)
            printf("refused %u %zu %zu", refused.status, refused.pattern, refused.at);
        else if (kind == 'r')
            printf("compiled");
        else
            answer(kind, &handle, text, cut, chunks, cut_up(text, cut, chunks), start, end, capacity);
        printf("\n");
        zf_free(&handle);
        if (handle.full || zf_is_match(&handle, chunks, 0, 0, 0) != ZF_EMPTY)
            return 1;
    }
    free(chunks);
    free(line);
    return 0;
}
