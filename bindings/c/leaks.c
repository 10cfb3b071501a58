/* Calls an export of the library at its statuses, and frees what was compiled. Each export is a run of its own, so that valgrind tells by
 * name which one leaks. No contract says that memory is given back.
 *
 * usage: leaks              prints the names of the exports
 *        leaks NAME         calls that one
 *        leaks forgotten    frees nothing: valgrind has to see it */
#include "../../include/zorfelith.h"
#include <stdio.h>
#include <stdlib.h>
#include <string.h>

static const struct zf_bytes text[2] = {{(const uint8_t *)"xxa", 3}, {(const uint8_t *)"bc abc", 6}};
static const struct zf_bytes short_text[1] = {{(const uint8_t *)"x", 1}};

static void wanted(const char *what, uint32_t status, uint32_t wants) {
    if (status != wants) {
        fprintf(stderr, "%s: status %u, not %u\n", what, status, wants);
        exit(1);
    }
}

static uint32_t compile(struct zf_handle *handle, const char *pattern, uint8_t kind) {
    const struct zf_bytes patterns[1] = {{(const uint8_t *)pattern, strlen(pattern)}};
    const struct zf_settings settings = {.kind = kind};
    struct zf_refused refused;
    return zf_compile(handle, patterns, 1, &settings, sizeof settings, &refused);
}

static const char compiled[] = "a(?P<abc>b)c";

static void call_compile(struct zf_handle *handle) {
    wanted("again", compile(handle, compiled, ZF_ALL), ZF_DONE);
    wanted("no kind", compile(handle, compiled, 9), ZF_NO_KIND);
    wanted("from empty", compile(handle, compiled, ZF_LEFTMOST_FIRST), ZF_DONE);
    wanted("not UTF-8", compile(handle, "a\xff", ZF_LEFTMOST_FIRST), ZF_NOT_UTF8);
    wanted("from empty", compile(handle, compiled, ZF_LEFTMOST_FIRST), ZF_DONE);
    wanted("not in the grammar", compile(handle, "ab(c", ZF_LEFTMOST_FIRST), ZF_SYNTAX);
    wanted("from empty", compile(handle, compiled, ZF_LEFTMOST_FIRST), ZF_DONE);
    wanted("too large", compile(handle, "(a{1000}){1000}", ZF_LEFTMOST_FIRST), ZF_TOO_LARGE);
    wanted("from empty", compile(handle, compiled, ZF_LEFTMOST_FIRST), ZF_DONE);
}

static void call_free(struct zf_handle *handle) {
    zf_free(handle);
    zf_free(handle);
    wanted("from empty", compile(handle, compiled, ZF_LEFTMOST_FIRST), ZF_DONE);
}

static void call_is_match(struct zf_handle *handle) {
    wanted("a match", zf_is_match(handle, text, 2, 0, ZF_NONE), ZF_FOUND);
    wanted("no match", zf_is_match(handle, text, 2, 0, 4), ZF_DONE);
    wanted("behind the end", zf_is_match(handle, text, 2, 3, 2), ZF_OUTSIDE);
    wanted("behind the text", zf_is_match(handle, text, 2, 10, ZF_NONE), ZF_OUTSIDE);
}

static void call_find(struct zf_handle *handle) {
    struct zf_match found;
    wanted("a match", zf_find(handle, text, 2, 0, ZF_NONE, &found), ZF_FOUND);
    wanted("no match", zf_find(handle, text, 2, 0, 4, &found), ZF_DONE);
    wanted("behind the end", zf_find(handle, text, 2, 3, 2, &found), ZF_OUTSIDE);
    wanted("behind the text", zf_find(handle, text, 2, 10, ZF_NONE, &found), ZF_OUTSIDE);
}

static void call_find_groups(struct zf_handle *handle) {
    struct zf_match found;
    struct zf_group groups[3];
    wanted("a match", zf_find_groups(handle, text, 2, 0, ZF_NONE, &found, groups, 3), ZF_FOUND);
    wanted("no match", zf_find_groups(handle, text, 2, 0, 4, &found, groups, 3), ZF_DONE);
    wanted("behind the end", zf_find_groups(handle, text, 2, 3, 2, &found, groups, 3), ZF_OUTSIDE);
    wanted("behind the text", zf_find_groups(handle, text, 2, 10, ZF_NONE, &found, groups, 3), ZF_OUTSIDE);
}

static void call_which_patterns(struct zf_handle *handle) {
    uint8_t marks[3];
    wanted("marks", zf_which_patterns(handle, text, 2, 0, ZF_NONE, marks, 3), ZF_DONE);
    wanted("behind the end", zf_which_patterns(handle, text, 2, 3, 2, marks, 3), ZF_OUTSIDE);
    wanted("behind the text", zf_which_patterns(handle, text, 2, 10, ZF_NONE, marks, 3), ZF_OUTSIDE);
}

static void call_restart(struct zf_handle *handle) {
    wanted("begun", zf_restart(handle, 3, 0), ZF_DONE);
    wanted("begun behind a match", zf_restart(handle, 3, 1), ZF_DONE);
}

static void call_next(struct zf_handle *handle) {
    struct zf_match batch[1];
    struct zf_progress progress;
    wanted("a batch", zf_next(handle, text, 2, ZF_NONE, batch, 1, &progress), ZF_DONE);
    wanted("a text too short", zf_next(handle, short_text, 1, ZF_NONE, batch, 1, &progress), ZF_OUTSIDE);
    wanted("a batch", zf_next(handle, text, 2, ZF_NONE, batch, 1, &progress), ZF_DONE);
    wanted("the last batch", zf_next(handle, text, 2, ZF_NONE, batch, 1, &progress), ZF_DONE);
}

static void call_pattern_count(struct zf_handle *handle) {
    size_t count;
    wanted("a count", zf_pattern_count(handle, &count), ZF_DONE);
}

static void call_group_count(struct zf_handle *handle) {
    size_t count;
    wanted("a count", zf_group_count(handle, 0, &count), ZF_DONE);
    wanted("no such number", zf_group_count(handle, SIZE_MAX, &count), ZF_ABSENT);
}

static void call_group_name(struct zf_handle *handle) {
    uint8_t name[4];
    size_t len;
    wanted("a name", zf_group_name(handle, 0, 1, name, 4, &len), ZF_DONE);
    wanted("too short a place", zf_group_name(handle, 0, 1, name, 2, &len), ZF_SHORT);
    wanted("no name", zf_group_name(handle, 0, 0, name, 4, &len), ZF_ABSENT);
}

static void call_group_number(struct zf_handle *handle) {
    size_t number;
    wanted("a number", zf_group_number(handle, 0, (const uint8_t *)"abc", 3, &number), ZF_DONE);
    wanted("no such name", zf_group_number(handle, 0, (const uint8_t *)"x", 1, &number), ZF_ABSENT);
    wanted("no such pattern", zf_group_number(handle, SIZE_MAX, (const uint8_t *)"x", 1, &number), ZF_ABSENT);
    wanted("not UTF-8", zf_group_number(handle, 0, (const uint8_t *)"\xff", 1, &number), ZF_NOT_UTF8);
}

static void call_memory(struct zf_handle *handle) {
    size_t bytes;
    wanted("bytes", zf_memory(handle, &bytes), ZF_DONE);
}

static void call_version(struct zf_handle *handle) {
    wanted("a version", zf_version(), ZF_VERSION);
    wanted("the handle stays", handle->full, 1);
}

static void call_explain(struct zf_handle *handle) {
    const struct zf_settings settings = {0};
    struct zf_fault fault;
    uint8_t words[64];
    wanted("no fault", zf_explain((const uint8_t *)"a", 1, &settings, sizeof settings, &fault, words, 64), ZF_DONE);
    wanted("a fault", zf_explain((const uint8_t *)"(a", 2, &settings, sizeof settings, &fault, words, 64), ZF_FOUND);
    wanted("too short a place", zf_explain((const uint8_t *)"(a", 2, &settings, sizeof settings, &fault, words, 3), ZF_SHORT);
    wanted("not UTF-8", zf_explain((const uint8_t *)"\xff", 1, &settings, sizeof settings, &fault, words, 64), ZF_NOT_UTF8);
    wanted("the handle stays", handle->full, 1);
}

static void call_escape(struct zf_handle *handle) {
    uint8_t place[4];
    size_t len;
    wanted("a pattern", zf_escape((const uint8_t *)"a.", 2, place, 4, &len), ZF_DONE);
    wanted("too short a place", zf_escape((const uint8_t *)"...", 3, place, 4, &len), ZF_SHORT);
    wanted("not UTF-8", zf_escape((const uint8_t *)"\xff", 1, place, 4, &len), ZF_NOT_UTF8);
    wanted("the handle stays", handle->full, 1);
}

static void call_match_at(struct zf_handle *handle) {
    struct zf_match found;
    wanted("a match", zf_match_at(handle, text, 2, 2, ZF_NONE, &found), ZF_FOUND);
    wanted("no match", zf_match_at(handle, text, 2, 0, ZF_NONE, &found), ZF_DONE);
    wanted("behind the end", zf_match_at(handle, text, 2, 3, 2, &found), ZF_OUTSIDE);
}

static void call_find_last(struct zf_handle *handle) {
    struct zf_match found;
    wanted("a match", zf_find_last(handle, text, 2, 0, ZF_NONE, 5, &found), ZF_FOUND);
    wanted("no match", zf_find_last(handle, text, 2, 0, ZF_NONE, 2, &found), ZF_DONE);
    wanted("behind the end", zf_find_last(handle, text, 2, 3, 2, 9, &found), ZF_OUTSIDE);
}

static void call_find_partial(struct zf_handle *handle) {
    struct zf_match found;
    size_t from;
    wanted("a final match", zf_find_partial(handle, text, 2, 0, &found, &from), ZF_FOUND);
    wanted("no final match", zf_find_partial(handle, text, 1, 0, &found, &from), ZF_DONE);
    wanted("behind the text", zf_find_partial(handle, text, 2, 99, &found, &from), ZF_OUTSIDE);
}

static void call_window_find(struct zf_handle *handle) {
    const struct zf_window first = {0, 0}, later = {5, 0}, last = {0, 1};
    struct zf_match found;
    size_t from = 0;
    wanted("a match", zf_window_find(handle, text, 2, &first, &from, ZF_NONE, &found), ZF_FOUND);
    wanted("no match", zf_window_find(handle, text, 2, &last, &from, 3, &found), ZF_DONE);
    wanted("a window that ends too early", zf_window_find(handle, text, 1, &first, &from, ZF_NONE, &found), ZF_MORE_AFTER);
    wanted("one that begins too late", zf_window_find(handle, text, 2, &later, &from, ZF_NONE, &found), ZF_MORE_BEFORE);
    wanted("behind the end", zf_window_find(handle, text, 2, &first, &from, 0, &found), ZF_OUTSIDE);
}

static void call_replace_one(struct zf_handle *handle) {
    struct zf_replacement one;
    uint8_t place[8];
    wanted("a text", zf_replace_one(handle, text, 2, 0, (const uint8_t *)"${1}x", 5, place, 8, &one), ZF_FOUND);
    wanted("too short a place", zf_replace_one(handle, text, 2, 0, (const uint8_t *)"${1}x", 5, place, 1, &one), ZF_SHORT);
    wanted("no match", zf_replace_one(handle, text, 2, 9, (const uint8_t *)"${1}x", 5, place, 8, &one), ZF_DONE);
    wanted("no template", zf_replace_one(handle, text, 2, 0, (const uint8_t *)"$", 1, place, 8, &one), ZF_SYNTAX);
    wanted("not UTF-8", zf_replace_one(handle, text, 2, 0, (const uint8_t *)"\xff", 1, place, 8, &one), ZF_NOT_UTF8);
    wanted("behind the text", zf_replace_one(handle, text, 2, 99, (const uint8_t *)"x", 1, place, 8, &one), ZF_OUTSIDE);
}

static void call_text_new(struct zf_handle *handle) {
    const struct zf_bounds all = {0, ZF_NONE, 0};
    struct zf_text kept = {0};
    struct zf_match found;
    wanted("a text", zf_text_new(&kept, text, 2), ZF_DONE);
    wanted("in place of it", zf_text_new(&kept, short_text, 1), ZF_DONE);
    wanted("no match", zf_text_find(handle, &kept, &all, &found), ZF_DONE);
    zf_text_free(&kept);
    wanted("an empty text", zf_text_find(handle, &kept, &all, &found), ZF_EMPTY);
}

static void call_text_edit(struct zf_handle *handle) {
    const struct zf_bounds all = {0, ZF_NONE, 0};
    struct zf_text kept = {0};
    struct zf_match found;
    wanted("an empty text", zf_text_edit(&kept, 0, 0, text, 2), ZF_EMPTY);
    wanted("a text", zf_text_new(&kept, short_text, 1), ZF_DONE);
    wanted("behind the end", zf_text_edit(&kept, 1, 0, text, 2), ZF_OUTSIDE);
    wanted("behind the chunks", zf_text_edit(&kept, 0, 2, text, 2), ZF_OUTSIDE);
    for (size_t i = 0; i < 9; i++)
        wanted("chunks before the last", zf_text_edit(&kept, 2 * i, 2 * i, text, 2), ZF_DONE);
    wanted("fewer chunks", zf_text_edit(&kept, 1, 16, text, 1), ZF_DONE);
    wanted("a match", zf_text_find(handle, &kept, &all, &found), ZF_FOUND);
    zf_text_free(&kept);
}

static void call_text_free(struct zf_handle *handle) {
    struct zf_text kept = {0};
    (void)handle;
    zf_text_free(&kept);
    wanted("a text", zf_text_new(&kept, text, 2), ZF_DONE);
    zf_text_free(&kept);
    zf_text_free(&kept);
}

static void call_text_find(struct zf_handle *handle) {
    const struct zf_bounds all = {0, ZF_NONE, 0}, there = {2, ZF_NONE, 1}, later = {3, ZF_NONE, 1}, behind = {3, 2, 0}, outside = {10, ZF_NONE, 0};
    struct zf_handle none = {0};
    struct zf_text kept = {0};
    struct zf_match found;
    wanted("a text", zf_text_new(&kept, text, 2), ZF_DONE);
    wanted("an empty handle", zf_text_find(&none, &kept, &all, &found), ZF_EMPTY);
    wanted("a match", zf_text_find(handle, &kept, &all, &found), ZF_FOUND);
    wanted("a match there", zf_text_find(handle, &kept, &there, &found), ZF_FOUND);
    wanted("none there", zf_text_find(handle, &kept, &later, &found), ZF_DONE);
    wanted("behind the end", zf_text_find(handle, &kept, &behind, &found), ZF_OUTSIDE);
    wanted("behind the text", zf_text_find(handle, &kept, &outside, &found), ZF_OUTSIDE);
    zf_text_free(&kept);
}

static void call_text_find_groups(struct zf_handle *handle) {
    struct zf_text kept = {0};
    struct zf_match found;
    struct zf_group groups[2];
    wanted("a text", zf_text_new(&kept, text, 2), ZF_DONE);
    wanted("groups", zf_text_find_groups(handle, &kept, 0, ZF_NONE, &found, groups, 2), ZF_FOUND);
    wanted("no match", zf_text_find_groups(handle, &kept, 0, 4, &found, groups, 2), ZF_DONE);
    wanted("behind the end", zf_text_find_groups(handle, &kept, 3, 2, &found, groups, 2), ZF_OUTSIDE);
    zf_text_free(&kept);
}

static void call_text_find_partial(struct zf_handle *handle) {
    struct zf_text kept = {0};
    struct zf_match found;
    size_t from = 0;
    wanted("a text", zf_text_new(&kept, text, 2), ZF_DONE);
    wanted("a final match", zf_text_find_partial(handle, &kept, 0, &found, &from), ZF_FOUND);
    wanted("none yet", zf_text_find_partial(handle, &kept, 9, &found, &from), ZF_DONE);
    wanted("behind the text", zf_text_find_partial(handle, &kept, 10, &found, &from), ZF_OUTSIDE);
    zf_text_free(&kept);
}

static void call_text_live_new(struct zf_handle *handle) {
    struct zf_text kept = {0};
    size_t len = 0;
    wanted("an empty text", zf_text_live_new(handle, &kept), ZF_EMPTY);
    wanted("a text", zf_text_new(&kept, text, 2), ZF_DONE);
    wanted("a list", zf_text_live_new(handle, &kept), ZF_DONE);
    wanted("another one", zf_text_live_new(handle, &kept), ZF_DONE);
    wanted("its length", zf_live_len(handle, &len), ZF_DONE);
    wanted("two matches", (uint32_t)len, 2);
    zf_text_free(&kept);
}

static void call_text_live_edit(struct zf_handle *handle) {
    struct zf_text kept = {0};
    struct zf_change change;
    wanted("a text", zf_text_new(&kept, text, 2), ZF_DONE);
    wanted("no list", zf_text_live_edit(handle, 0, 0, 1, &kept, &change), ZF_NO_LIST);
    wanted("a list", zf_text_live_new(handle, &kept), ZF_DONE);
    wanted("a byte before the text", zf_text_edit(&kept, 0, 0, short_text, 1), ZF_DONE);
    wanted("outside of the text", zf_text_live_edit(handle, 2, 1, 1, &kept, &change), ZF_OUTSIDE);
    wanted("another length", zf_text_live_edit(handle, 0, 0, 2, &kept, &change), ZF_MISFIT);
    wanted("the list under it", zf_text_live_edit(handle, 0, 0, 1, &kept, &change), ZF_DONE);
    zf_text_free(&kept);
}

static void call_text_next(struct zf_handle *handle) {
    struct zf_text kept = {0};
    struct zf_match batch[1];
    struct zf_progress progress;
    wanted("a text", zf_text_new(&kept, text, 2), ZF_DONE);
    for (size_t i = 0; i < 3; i++)
        wanted("a batch", zf_text_next(handle, &kept, ZF_NONE, batch, 1, &progress), ZF_DONE);
    wanted("behind the end", zf_text_next(handle, &kept, 1, batch, 1, &progress), ZF_OUTSIDE);
    zf_text_free(&kept);
}

static void call_replace(struct zf_handle *handle) {
    struct zf_replaced replaced;
    uint8_t place[8];
    wanted("a text", zf_replace(handle, text, 2, (const uint8_t *)"${1}", 4, place, 8, &replaced), ZF_DONE);
    wanted("too short a place", zf_replace(handle, text, 2, (const uint8_t *)"${1}", 4, place, 2, &replaced), ZF_SHORT);
    wanted("no template", zf_replace(handle, text, 2, (const uint8_t *)"$", 1, place, 8, &replaced), ZF_SYNTAX);
    wanted("not UTF-8", zf_replace(handle, text, 2, (const uint8_t *)"\xff", 1, place, 8, &replaced), ZF_NOT_UTF8);
}

static void call_memory_parts(struct zf_handle *handle) {
    struct zf_parts parts;
    wanted("bytes", zf_memory_parts(handle, &parts), ZF_DONE);
}

static void call_share(struct zf_handle *handle) {
    struct zf_handle other = {0}, third = {0};
    struct zf_match found;
    wanted("of an empty handle", zf_share(&other, &third), ZF_EMPTY);
    wanted("shared", zf_share(handle, &other), ZF_DONE);
    wanted("shared again, in place of another", zf_share(handle, &other), ZF_DONE);
    wanted("a second", zf_share(&other, &third), ZF_DONE);
    zf_free(handle);
    wanted("a match by the second", zf_find(&other, text, 2, 0, ZF_NONE, &found), ZF_FOUND);
    zf_free(&other);
    wanted("a match by the third", zf_find(&third, text, 2, 0, ZF_NONE, &found), ZF_FOUND);
    wanted("back", zf_share(&third, handle), ZF_DONE);
    zf_free(&third);
}

/* Makes a list of the text. */
static void with_list(struct zf_handle *handle) { wanted("a list", zf_live_new(handle, text, 2), ZF_DONE); }

static void call_live_new(struct zf_handle *handle) {
    with_list(handle);
    with_list(handle);
    wanted("compiled with a list", compile(handle, compiled, ZF_LEFTMOST_FIRST), ZF_DONE);
    wanted("a list of a short text", zf_live_new(handle, short_text, 1), ZF_DONE);
}

static void call_live_edit(struct zf_handle *handle) {
    struct zf_change change;
    wanted("no list", zf_live_edit(handle, 0, 0, 0, text, 2, &change), ZF_NO_LIST);
    with_list(handle);
    wanted("behind the text", zf_live_edit(handle, 9, 10, 1, text, 2, &change), ZF_OUTSIDE);
    wanted("another length", zf_live_edit(handle, 0, 1, 2, text, 2, &change), ZF_MISFIT);
    wanted("an edit", zf_live_edit(handle, 1, 9, 0, short_text, 1, &change), ZF_DONE);
    wanted("an edit", zf_live_edit(handle, 1, 1, 8, text, 2, &change), ZF_DONE);
}

static void call_live_free(struct zf_handle *handle) {
    with_list(handle);
    wanted("freed", zf_live_free(handle), ZF_DONE);
    wanted("freed again", zf_live_free(handle), ZF_DONE);
}

static void call_live_len(struct zf_handle *handle) {
    size_t len;
    wanted("no list", zf_live_len(handle, &len), ZF_NO_LIST);
    with_list(handle);
    wanted("a count", zf_live_len(handle, &len), ZF_DONE);
}

static void call_live_get(struct zf_handle *handle) {
    struct zf_match found;
    wanted("no list", zf_live_get(handle, 0, &found), ZF_NO_LIST);
    with_list(handle);
    wanted("a match", zf_live_get(handle, 1, &found), ZF_FOUND);
    wanted("no more", zf_live_get(handle, 2, &found), ZF_DONE);
}

static void call_live_next(struct zf_handle *handle) {
    struct zf_match found;
    wanted("no list", zf_live_next(handle, 0, &found), ZF_NO_LIST);
    with_list(handle);
    wanted("a match", zf_live_next(handle, 3, &found), ZF_FOUND);
    wanted("no more", zf_live_next(handle, 7, &found), ZF_DONE);
}

static void call_live_previous(struct zf_handle *handle) {
    struct zf_match found;
    wanted("no list", zf_live_previous(handle, 0, &found), ZF_NO_LIST);
    with_list(handle);
    wanted("a match", zf_live_previous(handle, 3, &found), ZF_FOUND);
    wanted("none before", zf_live_previous(handle, 2, &found), ZF_DONE);
}

static void call_live_window(struct zf_handle *handle) {
    struct zf_match batch[1];
    size_t count;
    wanted("no list", zf_live_window(handle, 0, 9, batch, 1, &count), ZF_NO_LIST);
    with_list(handle);
    wanted("a window", zf_live_window(handle, 0, 9, batch, 1, &count), ZF_DONE);
    wanted("no places", zf_live_window(handle, 0, 9, batch, 0, &count), ZF_DONE);
}

/* Begins a stream. */
static void with_stream(struct zf_handle *handle) { wanted("a stream", zf_stream_new(handle), ZF_DONE); }

static uint32_t feed(struct zf_handle *handle, const char *bytes) { return zf_stream_feed(handle, (const uint8_t *)bytes, strlen(bytes)); }

static void call_stream_new(struct zf_handle *handle) {
    with_stream(handle);
    wanted("fed", feed(handle, "xxab"), ZF_DONE);
    with_stream(handle);
    wanted("compiled with a stream", compile(handle, compiled, ZF_LEFTMOST_FIRST), ZF_DONE);
    with_stream(handle);
    wanted("fed", feed(handle, "xxab"), ZF_DONE);
}

static void call_stream_limit(struct zf_handle *handle) {
    wanted("no stream", zf_stream_limit(handle, 3), ZF_NO_STREAM);
    with_stream(handle);
    wanted("a limit", zf_stream_limit(handle, 3), ZF_DONE);
    wanted("beyond the limit", feed(handle, "xxab"), ZF_LIMIT);
}

static void call_stream_feed(struct zf_handle *handle) {
    wanted("no stream", feed(handle, "xxab"), ZF_NO_STREAM);
    with_stream(handle);
    wanted("fed", feed(handle, "xxab"), ZF_DONE);
    wanted("fed nothing", zf_stream_feed(handle, zf_none, 0), ZF_DONE);
    wanted("finished", zf_stream_finish(handle), ZF_DONE);
    wanted("fed once more", feed(handle, "c"), ZF_FINISHED);
}

static void call_stream_next(struct zf_handle *handle) {
    struct zf_match found;
    wanted("no stream", zf_stream_next(handle, &found), ZF_NO_STREAM);
    with_stream(handle);
    wanted("fed", feed(handle, "xxab"), ZF_DONE);
    wanted("none yet", zf_stream_next(handle, &found), ZF_DONE);
    wanted("fed", feed(handle, "c"), ZF_DONE);
    wanted("finished", zf_stream_finish(handle), ZF_DONE);
    wanted("a match", zf_stream_next(handle, &found), ZF_FOUND);
    wanted("no more", zf_stream_next(handle, &found), ZF_DONE);
}

static void call_stream_finish(struct zf_handle *handle) {
    wanted("no stream", zf_stream_finish(handle), ZF_NO_STREAM);
    with_stream(handle);
    wanted("fed", feed(handle, "xxabc"), ZF_DONE);
    wanted("finished", zf_stream_finish(handle), ZF_DONE);
    wanted("finished again", zf_stream_finish(handle), ZF_DONE);
}

static void call_stream_kept(struct zf_handle *handle) {
    uint8_t place[4];
    struct zf_kept kept;
    wanted("no stream", zf_stream_kept(handle, place, 4, &kept), ZF_NO_STREAM);
    with_stream(handle);
    wanted("fed", feed(handle, "xxab"), ZF_DONE);
    wanted("the kept bytes", zf_stream_kept(handle, place, 4, &kept), ZF_DONE);
    wanted("too short a place", zf_stream_kept(handle, place, 3, &kept), ZF_SHORT);
}

static void call_stream_free(struct zf_handle *handle) {
    with_stream(handle);
    wanted("fed", feed(handle, "xxab"), ZF_DONE);
    wanted("freed", zf_stream_free(handle), ZF_DONE);
    wanted("freed again", zf_stream_free(handle), ZF_DONE);
}

/* Makes a search in slices. */
static void with_stepper(struct zf_handle *handle) { wanted("a search in slices", zf_step_new(handle, 0), ZF_DONE); }

static void call_step_new(struct zf_handle *handle) {
    with_stepper(handle);
    with_stepper(handle);
    wanted("compiled with a search in slices", compile(handle, compiled, ZF_LEFTMOST_FIRST), ZF_DONE);
    with_stepper(handle);
}

static void call_step_start(struct zf_handle *handle) {
    wanted("no search", zf_step_start(handle, 1), ZF_NO_STEPPER);
    with_stepper(handle);
    wanted("begun anew", zf_step_start(handle, 1), ZF_DONE);
}

static void call_step_resume(struct zf_handle *handle) {
    struct zf_match found;
    wanted("no search", zf_step_resume(handle, text, 2, 1, &found), ZF_NO_STEPPER);
    with_stepper(handle);
    wanted("a slice", zf_step_resume(handle, text, 2, 1, &found), ZF_MORE_AFTER);
    wanted("a match", zf_step_resume(handle, text, 2, 8, &found), ZF_FOUND);
    wanted("no match", zf_step_resume(handle, short_text, 1, 8, &found), ZF_DONE);
}

static void call_step_position(struct zf_handle *handle) {
    size_t position;
    wanted("no search", zf_step_position(handle, &position), ZF_NO_STEPPER);
    with_stepper(handle);
    wanted("a position", zf_step_position(handle, &position), ZF_DONE);
}

static void call_step_free(struct zf_handle *handle) {
    with_stepper(handle);
    wanted("freed", zf_step_free(handle), ZF_DONE);
    wanted("freed again", zf_step_free(handle), ZF_DONE);
}

static const struct {
    const char *name;
    void (*call)(struct zf_handle *);
} calls[] = {
    {"zf_compile", call_compile},
    {"zf_free", call_free},
    {"zf_is_match", call_is_match},
    {"zf_find", call_find},
    {"zf_find_groups", call_find_groups},
    {"zf_which_patterns", call_which_patterns},
    {"zf_restart", call_restart},
    {"zf_next", call_next},
    {"zf_pattern_count", call_pattern_count},
    {"zf_group_count", call_group_count},
    {"zf_group_name", call_group_name},
    {"zf_group_number", call_group_number},
    {"zf_memory", call_memory},
    {"zf_version", call_version},
    {"zf_explain", call_explain},
    {"zf_escape", call_escape},
    {"zf_match_at", call_match_at},
    {"zf_find_last", call_find_last},
    {"zf_find_partial", call_find_partial},
    {"zf_window_find", call_window_find},
    {"zf_replace", call_replace},
    {"zf_replace_one", call_replace_one},
    {"zf_memory_parts", call_memory_parts},
    {"zf_share", call_share},
    {"zf_live_new", call_live_new},
    {"zf_live_edit", call_live_edit},
    {"zf_live_free", call_live_free},
    {"zf_live_len", call_live_len},
    {"zf_live_get", call_live_get},
    {"zf_live_next", call_live_next},
    {"zf_live_previous", call_live_previous},
    {"zf_live_window", call_live_window},
    {"zf_stream_new", call_stream_new},
    {"zf_stream_limit", call_stream_limit},
    {"zf_stream_feed", call_stream_feed},
    {"zf_stream_next", call_stream_next},
    {"zf_stream_finish", call_stream_finish},
    {"zf_stream_kept", call_stream_kept},
    {"zf_stream_free", call_stream_free},
    {"zf_step_new", call_step_new},
    {"zf_step_start", call_step_start},
    {"zf_step_resume", call_step_resume},
    {"zf_step_position", call_step_position},
    {"zf_step_free", call_step_free},
    {"zf_text_new", call_text_new},
    {"zf_text_edit", call_text_edit},
    {"zf_text_free", call_text_free},
    {"zf_text_find", call_text_find},
    {"zf_text_find_groups", call_text_find_groups},
    {"zf_text_next", call_text_next},
    {"zf_text_find_partial", call_text_find_partial},
    {"zf_text_live_new", call_text_live_new},
    {"zf_text_live_edit", call_text_live_edit},
};

int main(int argc, char **argv) {
    const char *name = argc > 1 ? argv[1] : NULL;
    for (size_t i = 0; i < sizeof calls / sizeof *calls; i++) {
        if (name == NULL) {
            puts(calls[i].name);
        } else if (strcmp(name, calls[i].name) == 0) {
            struct zf_handle handle = {0};
            wanted("compiled", compile(&handle, compiled, ZF_LEFTMOST_FIRST), ZF_DONE);
            calls[i].call(&handle);
            wanted("the handle is full", handle.full, 1);
            zf_free(&handle);
            wanted("the handle is empty", handle.full, 0);
            return 0;
        }
    }
    if (name != NULL && strcmp(name, "forgotten") == 0) {
        struct zf_handle handle = {0};
        return compile(&handle, compiled, ZF_LEFTMOST_FIRST) != ZF_DONE;
    }
    return name != NULL;
}
