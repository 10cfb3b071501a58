/* An editor keeps each line as a chunk, and a prepared text of them: an edit of some lines is told by their indices, and a search counts no
 * lines. After each of many random edits the prepared text is searched and compared with the array of all lines: a match from a random place
 * on, one that is anchored, groups, the matches of a page, and the live list. */
#include "../../include/zorfelith.h"
#include <stdio.h>
#include <stdlib.h>
#include <string.h>

enum { LINES = 2000, ROOM = 4000, EDITS = 400, MOST = 8, PAGE = 40 };

static struct zf_bytes lines[ROOM];
static size_t count;

static size_t below(size_t limit) {
    static uint32_t state = 1;
    state = state * 1664525u + 1013904223u;
    return (state >> 8) % limit;
}

static void must(int holds, const char *what) {
    if (!holds) {
        fprintf(stderr, "%s\n", what);
        exit(1);
    }
}

/* A line, on the heap; some are empty, as a gap's other side may be. */
static struct zf_bytes line(void) {
    static const char *const words[] = {"let value_", "fn search_", "cut in two \xc3", "\xa9 here ", "", "\n"};
    char bytes[96] = "";
    size_t len;
    for (size_t n = below(5); n > 0; n--) {
        strcat(bytes, words[below(6)]);
        sprintf(bytes + strlen(bytes), "%zu", below(100));
    }
    len = strlen(bytes);
    uint8_t *kept = malloc(len + 1);
    must(kept != NULL, "out of memory");
    memcpy(kept, bytes, len + 1);
    return (struct zf_bytes){kept, len};
}

static size_t length(size_t first, size_t last) {
    size_t len = 0;
    for (size_t i = first; i < last; i++)
        len += lines[i].len;
    return len;
}

/* Replaces lines in the array, in the prepared text and in the live list of it, and frees those that are gone only then. */
static void edit(struct zf_handle *handle, struct zf_text *text) {
    struct zf_bytes others[MOST], gone[MOST];
    struct zf_change change;
    size_t start = below(count), removed = below(MOST), added = below(MOST);
    if (removed > count - start)
        removed = count - start;
    if (count - removed + added > ROOM)
        added = 0;
    for (size_t i = 0; i < added; i++)
        others[i] = line();
    const size_t at = length(0, start), end = at + length(start, start + removed);
    memcpy(gone, lines + start, removed * sizeof gone[0]);
    memmove(lines + start + added, lines + start + removed, (count - start - removed) * sizeof lines[0]);
    memcpy(lines + start, others, added * sizeof lines[0]);
    count = count - removed + added;
    must(zf_text_edit(text, start, start + removed, others, added) == ZF_DONE, "an edit");
    for (size_t i = 0; i < removed; i++)
        free((void *)gone[i].bytes);
    must(zf_text_live_edit(handle, at, end, length(start, start + added), text, &change) == ZF_DONE, "an edit of the list");
}

static int same(const struct zf_match *a, const struct zf_match *b) {
    return a->pattern == b->pattern && a->start == b->start && a->end == b->end;
}

/* Asks both, and answers how many matches the page had. */
static size_t compared(struct zf_handle *handle, struct zf_text *text) {
    struct zf_match one = {0, 0, 0}, other = {0, 0, 0}, page[PAGE], all[PAGE];
    struct zf_group groups[3], others[3];
    struct zf_progress progress, whole;
    size_t from = below(length(0, count) + 2);
    struct zf_bounds bounds = {from, ZF_NONE, 0};
    uint32_t status = zf_find(handle, lines, count, from, ZF_NONE, &other);
    must(zf_text_find(handle, text, &bounds, &one) == status && same(&one, &other), "a match");
    if (status == ZF_FOUND) {
        bounds.start = other.start;
        bounds.anchored = 1;
        must(zf_text_find(handle, text, &bounds, &one) == ZF_FOUND && same(&one, &other), "a match at its start");
        bounds.start++;
        status = zf_match_at(handle, lines, count, bounds.start, ZF_NONE, &other);
        must(zf_text_find(handle, text, &bounds, &one) == status && same(&one, &other), "a match a byte later");
    }
    status = zf_find_groups(handle, lines, count, from, ZF_NONE, &other, others, 3);
    must(zf_text_find_groups(handle, text, from, ZF_NONE, &one, groups, 3) == status && same(&one, &other), "a match with groups");
    for (size_t i = 0; status <= ZF_FOUND && i < 3; i++)
        must(groups[i].start == others[i].start && groups[i].end == others[i].end, "groups");
    if (status > ZF_FOUND)
        return 0;
    must(zf_restart(handle, from, 0) == ZF_DONE && zf_next(handle, lines, count, ZF_NONE, all, PAGE, &whole) == ZF_DONE, "a page");
    must(zf_restart(handle, from, 0) == ZF_DONE, "a restart");
    for (size_t i = 0; i < whole.count; i++)
        must(zf_text_next(handle, text, ZF_NONE, page + i, 1, &progress) == ZF_DONE && same(page + i, all + i), "a next match");
    must(progress.next == whole.next || whole.count == 0, "where the next search begins");
    return whole.count;
}

/* Compares the live list with all matches. */
static void compare_list(struct zf_handle *handle) {
    struct zf_match listed, batch[PAGE];
    struct zf_progress progress = {0, 0};
    size_t index = 0;
    must(zf_restart(handle, 0, 0) == ZF_DONE, "a restart");
    do {
        must(zf_next(handle, lines, count, ZF_NONE, batch, PAGE, &progress) == ZF_DONE, "a batch");
        for (size_t i = 0; i < progress.count; i++)
            must(zf_live_get(handle, index++, &listed) == ZF_FOUND && same(&listed, batch + i), "a listed match");
    } while (progress.count == PAGE);
    must(zf_live_get(handle, index, &listed) == ZF_DONE, "the list's end");
}

int main(void) {
    static const char written[] = "(?P<kind>let|fn) (\\w+)|\xc3\xa9|^\\d*$";
    const struct zf_bytes pattern = zf_bytes_of(written, sizeof written - 1);
    const struct zf_settings settings = {.multi_line = 1};
    const struct zf_bounds bounds = {0, ZF_NONE, 0};
    struct zf_handle handle = {0};
    struct zf_text text = {0};
    struct zf_refused refused;
    struct zf_match found;
    size_t matches = 0;
    must(zf_compile(&handle, &pattern, 1, &settings, sizeof settings, &refused) == ZF_DONE, "the pattern");
    must(zf_text_find(&handle, &text, &bounds, &found) == ZF_EMPTY, "an empty text");
    for (count = 0; count < LINES; count++)
        lines[count] = line();
    must(zf_text_new(&text, lines, count) == ZF_DONE, "a text");
    must(zf_text_edit(&text, 2, 1, lines, 0) == ZF_OUTSIDE && zf_text_edit(&text, 0, count + 1, lines, 0) == ZF_OUTSIDE, "edits outside");
    must(zf_text_live_new(&handle, &text) == ZF_DONE, "a list");
    for (int i = 0; i < EDITS; i++) {
        edit(&handle, &text);
        matches += compared(&handle, &text);
        if (i % 20 == 0)
            compare_list(&handle);
    }
    printf("%d edits, %s\n", EDITS, matches > EDITS ? "all agree" : "too few matches");
    zf_text_free(&text);
    zf_text_free(&text);
    zf_free(&handle);
    while (count > 0)
        free((void *)lines[--count].bytes);
    return 0;
}
