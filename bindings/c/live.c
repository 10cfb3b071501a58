/* Edits a text at random, keeps the list of its matches under the edits, and compares it each time with the matches of an iteration over the
 * whole text. The text is cut anew for each call. It prints how many edits agreed, and each status of the calls on lists. */
#include "../../include/zorfelith.h"
#include <stdio.h>
#include <string.h>

enum { MOST = 400, CHUNKS = 16, EDITS = 2000 };

static uint64_t state = 88172645463325252;

/* A number below another one, which isn't 0. */
static size_t below(size_t most) {
    state ^= state << 13;
    state ^= state >> 7;
    state ^= state << 17;
    return (size_t)(state % most);
}

struct text {
    uint8_t bytes[MOST];
    size_t len;
    struct zf_bytes chunks[CHUNKS];
};

/* Cuts the text at random places; some chunks are empty. */
static void cut(struct text *text) {
    size_t at = 0;
    for (size_t i = 0; i < CHUNKS; i++) {
        size_t len = i + 1 < CHUNKS ? below(text->len - at + 1) / 2 : text->len - at;
        text->chunks[i] = zf_bytes_of(text->bytes + at, len);
        at += len;
    }
}

/* Replaces some bytes by others, and says which and by how many. */
static void edit(struct text *text, size_t *start, size_t *end, size_t *inserted) {
    static const char letters[] = "aab b\n";
    *start = below(text->len + 1);
    *end = *start + below(text->len - *start < 6 ? text->len - *start + 1 : 6);
    *inserted = below(6);
    if (text->len - (*end - *start) + *inserted > MOST)
        *inserted = 0;
    memmove(text->bytes + *start + *inserted, text->bytes + *end, text->len - *end);
    for (size_t i = 0; i < *inserted; i++)
        text->bytes[*start + i] = (uint8_t)letters[below(sizeof letters - 1)];
    text->len = text->len - (*end - *start) + *inserted;
    cut(text);
}

/* Whether the list has the matches of the whole text, by its index and by their places. */
static int agrees(struct zf_handle *handle, const struct text *text, struct zf_match *all, size_t *count) {
    struct zf_progress progress = {0, 0};
    struct zf_match found;
    size_t len = 0;
    zf_restart(handle, 0, 0);
    if (zf_next(handle, text->chunks, CHUNKS, ZF_NONE, all, MOST + 1, &progress) != ZF_DONE)
        return 0;
    *count = progress.count;
    if (zf_live_len(handle, &len) != ZF_DONE || len != *count || zf_live_get(handle, len, &found) != ZF_DONE)
        return 0;
    for (size_t i = 0; i < len; i++) {
        if (zf_live_get(handle, i, &found) != ZF_FOUND || memcmp(&found, &all[i], sizeof found) != 0)
            return 0;
        if (zf_live_next(handle, all[i].start, &found) != ZF_FOUND || found.start != all[i].start)
            return 0;
        if (zf_live_previous(handle, all[i].start + 1, &found) != ZF_FOUND || found.start != all[i].start)
            return 0;
    }
    return zf_live_next(handle, text->len + 1, &found) == ZF_DONE && zf_live_previous(handle, 0, &found) == ZF_DONE;
}

/* Whether a window has those of the matches that touch it. */
static int is_window(struct zf_handle *handle, const struct text *text, const struct zf_match *all, size_t count) {
    struct zf_match batch[8];
    size_t start = below(text->len + 1), end = start + below(text->len - start + 1), seen = 0, expected = 0;
    if (zf_live_window(handle, start, end, batch, 8, &seen) != ZF_DONE)
        return 0;
    for (size_t i = 0; i < count && expected < 8; i++) {
        int lies = start <= all[i].start && all[i].end <= end, crosses = start < all[i].end && all[i].start < end;
        if ((lies || crosses) && (expected >= seen || memcmp(&batch[expected++], &all[i], sizeof all[i]) != 0))
            return 0;
    }
    return seen == expected;
}

/* Whether the change tells which matches went and came: the others are those of before, moved. */
static int is_told(const struct zf_change *c, const struct zf_match *old, size_t before, const struct zf_match *now, size_t after, size_t removed,
                   size_t inserted) {
    if (c->first + c->dropped > before || c->first + c->added > after || before - c->dropped != after - c->added)
        return 0;
    for (size_t i = 0; i < c->first; i++)
        if (memcmp(&old[i], &now[i], sizeof old[i]) != 0)
            return 0;
    for (size_t i = c->first + c->dropped, k = c->first + c->added; i < before; i++, k++)
        if (old[i].start - removed + inserted != now[k].start || old[i].end - removed + inserted != now[k].end)
            return 0;
    return 1;
}

static size_t edits(const char *pattern, uint8_t kind) {
    const struct zf_bytes bytes = zf_bytes_of(pattern, strlen(pattern));
    const struct zf_settings settings = {.kind = kind, .multi_line = 1};
    struct zf_handle handle = {0};
    struct zf_refused refused;
    static struct zf_match old[MOST + 1], now[MOST + 1];
    struct text text = {.len = 0};
    size_t count = 0, agreed = 0;
    cut(&text);
    if (zf_compile(&handle, &bytes, 1, &settings, sizeof settings, &refused) != ZF_DONE)
        return 0;
    if (zf_live_new(&handle, text.chunks, CHUNKS) != ZF_DONE || !agrees(&handle, &text, now, &count))
        return 0;
    for (size_t i = 0; i < EDITS; i++) {
        size_t start, end, inserted, before = count;
        struct zf_change change = {0, 0, 0, 0, 0};
        memcpy(old, now, sizeof old);
        edit(&text, &start, &end, &inserted);
        if (zf_live_edit(&handle, start, end, inserted, text.chunks, CHUNKS, &change) != ZF_DONE)
            break;
        agreed += agrees(&handle, &text, now, &count) && is_window(&handle, &text, now, count)
            && is_told(&change, old, before, now, count, end - start, inserted) && change.start <= start && start + inserted <= change.end;
    }
    zf_free(&handle);
    return agreed;
}

static void told(const char *what, uint32_t status) { printf("%s: %u\n", what, status); }

/* Each status of the calls on lists. */
static void statuses(void) {
    const struct zf_bytes pattern = zf_bytes_of("a", 1), text = zf_bytes_of("banana", 6), now = zf_bytes_of("bandana", 7);
    const struct zf_settings settings = {0};
    struct zf_handle handle = {0};
    struct zf_refused refused;
    struct zf_change change = {7, 7, 7, 7, 7};
    struct zf_match found = {7, 7, 7}, batch[2];
    size_t len = 7;
    told("an empty handle", zf_live_new(&handle, &text, 1));
    told("compiled", zf_compile(&handle, &pattern, 1, &settings, sizeof settings, &refused));
    told("no list", zf_live_len(&handle, &len));
    told("an edit of no list", zf_live_edit(&handle, 0, 0, 6, &text, 1, &change));
    told("a list", zf_live_new(&handle, &text, 1));
    told("an edit that ends behind the text", zf_live_edit(&handle, 6, 7, 2, &now, 1, &change));
    told("an edit that ends before it begins", zf_live_edit(&handle, 3, 2, 1, &now, 1, &change));
    told("an edit of another length", zf_live_edit(&handle, 3, 3, 2, &now, 1, &change));
    printf("  %zu %zu\n", change.first, len);
    told("an edit", zf_live_edit(&handle, 3, 3, 1, &now, 1, &change));
    printf("  %zu stay, %zu went, %zu came, %zu..%zu\n", change.first, change.dropped, change.added, change.start, change.end);
    told("how many", zf_live_len(&handle, &len));
    printf("  %zu\n", len);
    told("the last", zf_live_get(&handle, len - 1, &found));
    printf("  %zu..%zu\n", found.start, found.end);
    told("behind it", zf_live_get(&handle, len, &found));
    told("from 2 on", zf_live_next(&handle, 2, &found));
    printf("  %zu..%zu\n", found.start, found.end);
    told("before 1", zf_live_previous(&handle, 1, &found));
    told("in a window", zf_live_window(&handle, 1, 5, batch, 2, &len));
    printf("  %zu, %zu..%zu, %zu..%zu\n", len, batch[0].start, batch[0].end, batch[1].start, batch[1].end);
    told("freed", zf_live_free(&handle));
    told("no list any more", zf_live_get(&handle, 0, &found));
    zf_free(&handle);
    told("an empty handle", zf_live_free(&handle));
}

int main(void) {
    static const char *const patterns[] = {"a", "a+b?", "a*", "^a|b$", "b\\b", "a[^b]*b", "(?-m:^b)"};
    for (size_t i = 0; i < sizeof patterns / sizeof *patterns; i++)
        for (uint8_t kind = ZF_LEFTMOST_FIRST; kind <= ZF_LEFTMOST_LONGEST; kind++)
            printf("%s, kind %u: %zu of %d\n", patterns[i], kind, edits(patterns[i], kind), EDITS);
    statuses();
    return 0;
}
