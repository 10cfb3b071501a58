/* Meets each status of the library, and prints it: what a caller may hand in is tested by the call. */
#include "../../include/zorfelith.h"
#include <stdio.h>
#include <string.h>

static struct zf_bytes bytes_of(const char *text) { return (struct zf_bytes){(const uint8_t *)text, strlen(text)}; }

static void told(const char *what, uint32_t status) { printf("%s: %u\n", what, status); }

/* Compiles one pattern, and prints why it is refused. */
static void refused(const char *what, struct zf_handle *handle, struct zf_bytes pattern, uint8_t kind) {
    struct zf_settings settings = {.kind = kind};
    struct zf_refused refused = {7, 7, 7};
    uint32_t status = zf_compile(handle, &pattern, 1, &settings, sizeof settings, &refused);
    printf("%s: %u, pattern %zu, byte %zu, full %u\n", what, status, refused.pattern, refused.at, handle->full);
}

/* What is wrong with a pattern, in words and as a span. */
static void explained(const char *what, struct zf_bytes pattern, size_t room) {
    const struct zf_settings settings = {0};
    struct zf_fault fault = {7, 7, 7};
    uint8_t words[64];
    told(what, zf_explain(pattern.bytes, pattern.len, &settings, sizeof settings, &fault, words, room));
    if (fault.len <= room && fault.len != 7)
        printf("  %zu..%zu, %.*s\n", fault.start, fault.end, (int)fault.len, (const char *)words);
    else
        printf("  %zu..%zu, %zu\n", fault.start, fault.end, fault.len);
}

/* Settings of an older and of a newer header: shorter ones, and longer ones whose last byte is off or on. */
static void sizes(struct zf_handle *handle) {
    const struct zf_bytes pattern = bytes_of("a");
    struct {
        struct zf_settings known;
        uint8_t newer;
    } settings = {.known = {.kind = 9, .size_limit = 1}};
    struct zf_refused refused;
    told("without the kind and the limits", zf_compile(handle, &pattern, 1, &settings.known, offsetof(struct zf_settings, kind), &refused));
    settings.known.kind = ZF_LEFTMOST_FIRST;
    told("without the limits", zf_compile(handle, &pattern, 1, &settings.known, offsetof(struct zf_settings, size_limit), &refused));
    told("with a limit", zf_compile(handle, &pattern, 1, &settings.known, sizeof settings.known, &refused));
    settings.known.size_limit = 0;
    told("of a newer header", zf_compile(handle, &pattern, 1, &settings.known, sizeof settings.known + 1, &refused));
    settings.newer = 1;
    told("with what isn't known", zf_compile(handle, &pattern, 1, &settings.known, sizeof settings.known + 1, &refused));
    printf("  %u, full %u\n", refused.status, handle->full);
}

/* A text as a pattern. */
static void escaped(void) {
    uint8_t place[8];
    size_t len = 7;
    told("escaped", zf_escape((const uint8_t *)"1+1?", 4, place, sizeof place, &len));
    printf("  %.*s\n", (int)len, (const char *)place);
    told("escaped in too short a place", zf_escape((const uint8_t *)"1+1?", 4, place, 5, &len));
    printf("  %zu\n", len);
    told("no text", zf_escape((const uint8_t *)"\xff", 1, place, sizeof place, &len));
}

/* What is asked of patterns and their groups. */
static void names(struct zf_handle *handle) {
    uint8_t name[4] = "....";
    size_t count = 0, len = 0;
    told("patterns", zf_pattern_count(handle, &count));
    printf("  %zu\n", count);
    told("groups", zf_group_count(handle, 0, &count));
    printf("  %zu\n", count);
    told("groups of no pattern", zf_group_count(handle, 9, &count));
    printf("  %zu\n", count);
    told("groups of a number that none can have", zf_group_count(handle, SIZE_MAX, &count));
    told("a name", zf_group_name(handle, 0, 1, name, sizeof name, &len));
    printf("  %.*s\n", (int)len, (const char *)name);
    told("a name in too short a place", zf_group_name(handle, 0, 1, name, 2, &len));
    printf("  %zu\n", len);
    told("no name", zf_group_name(handle, 0, 0, name, sizeof name, &len));
    told("a group's number", zf_group_number(handle, 0, (const uint8_t *)"abc", 3, &count));
    printf("  %zu\n", count);
    told("a name that none has", zf_group_number(handle, 0, (const uint8_t *)"x", 1, &count));
    told("a name that isn't UTF-8", zf_group_number(handle, 0, (const uint8_t *)"\xff", 1, &count));
}

/* What is asked of a text in two chunks. */
static void searches(struct zf_handle *handle) {
    const struct zf_bytes text[2] = {{(const uint8_t *)"xxa", 3}, {(const uint8_t *)"bc", 2}};
    const struct zf_bytes long_text[2] = {{(const uint8_t *)"xxa", 3}, {(const uint8_t *)"bc", 2}};
    struct zf_match found = {7, 7, 7};
    struct zf_group groups[3];
    uint8_t marks[3] = {7, 7, 7};
    told("a match", zf_find(handle, text, 2, 0, ZF_NONE, &found));
    printf("  %zu..%zu\n", found.start, found.end);
    told("no match", zf_find(handle, text, 2, 3, 5, &found));
    told("whether there is one", zf_is_match(handle, text, 2, 0, 5));
    told("its groups", zf_find_groups(handle, text, 2, 0, ZF_NONE, &found, groups, 3));
    printf("  %zu..%zu, %zu..%zu, %d\n", groups[0].start, groups[0].end, groups[1].start, groups[1].end, groups[2].start == ZF_NONE);
    told("no groups", zf_find_groups(handle, text, 2, 3, ZF_NONE, &found, groups, 3));
    printf("  %d %d\n", groups[0].start == ZF_NONE, groups[1].end == ZF_NONE);
    told("which patterns", zf_which_patterns(handle, text, 2, 0, ZF_NONE, marks, 3));
    printf("  %u %u %u\n", marks[0], marks[1], marks[2]);
    told("a start behind the end", zf_is_match(handle, text, 2, 3, 2));
    told("a start behind the text", zf_is_match(handle, long_text, 2, 6, 9));
}

/* One match at a place, the last before one, and all replaced. */
static void places(struct zf_handle *handle) {
    const struct zf_bytes text[2] = {{(const uint8_t *)"abc abc", 7}, {(const uint8_t *)" abc", 4}};
    struct zf_match found = {7, 7, 7};
    struct zf_replaced replaced = {7, 7, 7};
    uint8_t place[32];
    told("a match at 4", zf_match_at(handle, text, 2, 4, ZF_NONE, &found));
    printf("  %zu..%zu\n", found.start, found.end);
    told("none at 3", zf_match_at(handle, text, 2, 3, ZF_NONE, &found));
    told("at a place behind the text", zf_match_at(handle, text, 2, 12, ZF_NONE, &found));
    told("the last before 8", zf_find_last(handle, text, 2, 0, ZF_NONE, 8, &found));
    printf("  %zu..%zu\n", found.start, found.end);
    told("none before 0", zf_find_last(handle, text, 2, 0, ZF_NONE, 0, &found));
    told("replaced", zf_replace(handle, text, 2, (const uint8_t *)"<${abc}$$>", 10, place, sizeof place, &replaced));
    printf("  %zu, %.*s\n", replaced.count, (int)replaced.len, (const char *)place);
    told("replaced in too short a place", zf_replace(handle, text, 2, (const uint8_t *)"<${abc}$$>", 10, place, 13, &replaced));
    printf("  %zu, %zu\n", replaced.count, replaced.len);
    told("no template", zf_replace(handle, text, 2, (const uint8_t *)"a${", 3, place, sizeof place, &replaced));
    printf("  %zu\n", replaced.at);
    told("a template that isn't UTF-8", zf_replace(handle, text, 2, (const uint8_t *)"\xff", 1, place, sizeof place, &replaced));
}

/* What the beginning of a text tells. */
static void partials(struct zf_handle *handle) {
    const struct zf_bytes text[2] = {{(const uint8_t *)"xa", 2}, {(const uint8_t *)"a", 1}};
    const struct zf_bytes other[2] = {{(const uint8_t *)"xa", 2}, {(const uint8_t *)"b, then", 7}};
    struct zf_match found = {7, 7, 7};
    size_t from = 7;
    told("partial of an empty handle", zf_find_partial(handle, text, 2, 0, &found, &from));
    refused("of what may go on", handle, bytes_of("a+"), ZF_LEFTMOST_FIRST);
    told("no final match", zf_find_partial(handle, text, 2, 0, &found, &from));
    printf("  %zu..%zu, from %zu\n", found.start, found.end, from);
    told("a start behind the chunks", zf_find_partial(handle, text, 2, 4, &found, &from));
    from = 7;
    refused("of what may not", handle, bytes_of("ab"), ZF_LEFTMOST_FIRST);
    told("a final match", zf_find_partial(handle, other, 2, 0, &found, &from));
    printf("  %zu..%zu, from %zu\n", found.start, found.end, from);
}

/* What windows of the text "xab, ab, aab" tell. */
static void windows(struct zf_handle *handle) {
    const struct zf_bytes head[2] = {{(const uint8_t *)"xa", 2}, {(const uint8_t *)"b, ab", 5}};
    const struct zf_bytes inner[2] = {{(const uint8_t *)"b, a", 4}, {(const uint8_t *)"b, aa", 5}};
    const struct zf_bytes tail[2] = {{(const uint8_t *)"ab, a", 5}, {(const uint8_t *)"ab", 2}};
    const struct zf_window first = {0, 0}, second = {2, 0}, last = {5, 1}, far = {SIZE_MAX - 9, 0};
    struct zf_match found = {7, 7, 7};
    size_t from = 0;
    told("a window of an empty handle", zf_window_find(handle, head, 2, &first, &from, ZF_NONE, &found));
    refused("of words by windows", handle, bytes_of("a+b"), ZF_LEFTMOST_FIRST);
    told("a match in a window", zf_window_find(handle, head, 2, &first, &from, ZF_NONE, &found));
    printf("  %zu..%zu, from %zu\n", found.start, found.end, from);
    from = 5;
    told("a window that lacks a byte before", zf_window_find(handle, inner, 2, &second, &from, ZF_NONE, &found));
    from = 6;
    told("no match in a range", zf_window_find(handle, inner, 2, &second, &from, 6, &found));
    told("a range with four bytes behind it", zf_window_find(handle, inner, 2, &second, &from, 7, &found));
    from = 6;
    told("a window that ends too early", zf_window_find(handle, inner, 2, &second, &from, ZF_NONE, &found));
    printf("  from %zu\n", from);
    told("the last window", zf_window_find(handle, tail, 2, &last, &from, ZF_NONE, &found));
    printf("  %zu..%zu, from %zu\n", found.start, found.end, from);
    from = 13;
    told("behind the last window", zf_window_find(handle, tail, 2, &last, &from, ZF_NONE, &found));
    told("behind a window", zf_window_find(handle, inner, 2, &second, &from, ZF_NONE, &found));
    told("behind the range", zf_window_find(handle, inner, 2, &second, &from, 12, &found));
    from = SIZE_MAX - 4;
    told("a window that ends too far on", zf_window_find(handle, inner, 2, &far, &from, ZF_NONE, &found));
}

/* What a stream tells that comes in by chunks, and what it keeps. */
static void streams(struct zf_handle *handle) {
    uint8_t place[8];
    struct zf_match found = {7, 7, 7};
    struct zf_kept kept = {7, 7};
    told("a stream of an empty handle", zf_stream_new(handle));
    refused("of words by streams", handle, bytes_of("a+b"), ZF_LEFTMOST_FIRST);
    told("fed to no stream", zf_stream_feed(handle, (const uint8_t *)"xaa", 3));
    told("a stream", zf_stream_new(handle));
    told("fed", zf_stream_feed(handle, (const uint8_t *)"xaa", 3));
    told("no match yet", zf_stream_next(handle, &found));
    printf("  %zu..%zu\n", found.start, found.end);
    told("the bytes that are kept", zf_stream_kept(handle, place, sizeof place, &kept));
    printf("  %zu, %.*s\n", kept.start, (int)kept.len, (const char *)place);
    told("kept bytes in too short a place", zf_stream_kept(handle, place, 2, &kept));
    printf("  %zu, %zu\n", kept.start, kept.len);
    told("a limit", zf_stream_limit(handle, 4));
    told("fed beyond the limit", zf_stream_feed(handle, (const uint8_t *)"aab", 3));
    told("fed up to the limit", zf_stream_feed(handle, (const uint8_t *)"b", 1));
    told("finished", zf_stream_finish(handle));
    told("fed once more", zf_stream_feed(handle, (const uint8_t *)"b", 1));
    told("a match of a stream", zf_stream_next(handle, &found));
    printf("  %zu..%zu\n", found.start, found.end);
    told("no more", zf_stream_next(handle, &found));
    told("freed", zf_stream_free(handle));
    told("no stream to finish", zf_stream_finish(handle));
}

/* What a search in slices tells. */
static void steps(struct zf_handle *handle) {
    const struct zf_bytes text[2] = {{(const uint8_t *)"xxa", 3}, {(const uint8_t *)"ab", 2}};
    struct zf_match found = {7, 7, 7};
    size_t position = 7;
    told("slices of an empty handle", zf_step_new(handle, 0));
    refused("of words by slices", handle, bytes_of("a+b"), ZF_LEFTMOST_FIRST);
    told("the position of no search", zf_step_position(handle, &position));
    told("a search in slices", zf_step_new(handle, 0));
    told("a slice", zf_step_resume(handle, text, 2, 1, &found));
    told("its position", zf_step_position(handle, &position));
    printf("  %zu..%zu, position %zu\n", found.start, found.end, position);
    told("a match of a slice", zf_step_resume(handle, text, 2, 9, &found));
    printf("  %zu..%zu\n", found.start, found.end);
    told("begun anew", zf_step_start(handle, 5));
    told("no match of a slice", zf_step_resume(handle, text, 2, 9, &found));
    told("freed", zf_step_free(handle));
    told("no search to begin anew", zf_step_start(handle, 0));
}

/* What replaces one match. */
static void one(struct zf_handle *handle) {
    const struct zf_bytes text[2] = {{(const uint8_t *)"abc abc", 7}, {(const uint8_t *)" abc", 4}};
    struct zf_replacement one = {{7, 7, 7}, 7, 7};
    uint8_t place[8];
    told("one replaced in an empty handle", zf_replace_one(handle, text, 2, 0, (const uint8_t *)"", 0, place, sizeof place, &one));
    refused("of one to replace", handle, bytes_of("a(?P<abc>b)c"), ZF_LEFTMOST_FIRST);
    told("one replaced", zf_replace_one(handle, text, 2, 1, (const uint8_t *)"<${abc}$$>", 10, place, sizeof place, &one));
    printf("  %zu..%zu, %.*s\n", one.found.start, one.found.end, (int)one.len, (const char *)place);
    told("one in too short a place", zf_replace_one(handle, text, 2, 5, (const uint8_t *)"<${abc}$$>", 10, place, 3, &one));
    printf("  %zu..%zu, %zu\n", one.found.start, one.found.end, one.len);
    told("none to replace", zf_replace_one(handle, text, 2, 9, (const uint8_t *)"", 0, place, sizeof place, &one));
    told("by no template", zf_replace_one(handle, text, 2, 0, (const uint8_t *)"a${", 3, place, sizeof place, &one));
    printf("  %zu\n", one.at);
    told("behind the text", zf_replace_one(handle, text, 2, 12, (const uint8_t *)"", 0, place, sizeof place, &one));
    refused("of one without groups", handle, bytes_of("a"), ZF_ALL);
    told("one without groups", zf_replace_one(handle, text, 2, 0, (const uint8_t *)"", 0, place, sizeof place, &one));
}

/* What one pattern finds of each kind. */
static void kinds(struct zf_handle *handle) {
    const struct zf_bytes text[2] = {{(const uint8_t *)"xa", 2}, {(const uint8_t *)"b ab", 4}};
    struct zf_match found = {7, 7, 7};
    for (uint8_t kind = ZF_LEFTMOST_FIRST; kind <= ZF_LEFTMOST_LONGEST; kind++) {
        refused("of a kind", handle, bytes_of("a|ab|b"), kind);
        told("its match", zf_find(handle, text, 2, 0, ZF_NONE, &found));
        printf("  %zu..%zu\n", found.start, found.end);
    }
    refused("the first number without a kind", handle, bytes_of("a|ab|b"), ZF_LEFTMOST_LONGEST + 1);
}

int main(void) {
    struct zf_handle handle = {0};
    struct zf_match batch[1];
    struct zf_progress progress = {7, 7};
    struct zf_parts parts = {0, 0};
    size_t bytes = 0;
    printf("version %d\n", zf_version() == ZF_VERSION);
    explained("a fault", bytes_of("ab(c"), 64);
    explained("a fault in too short a place", bytes_of("ab(c"), 3);
    explained("no fault", bytes_of("abc"), 64);
    explained("no text", bytes_of("a\xff"), 64);
    escaped();
    told("an empty handle", zf_memory(&handle, &bytes));
    told("a batch of an empty handle", zf_next(&handle, (const struct zf_bytes[1]){{zf_none, 0}}, 1, 0, batch, 1, &progress));
    refused("no such kind", &handle, bytes_of("a"), 9);
    refused("not UTF-8", &handle, bytes_of("a\xff"), ZF_LEFTMOST_FIRST);
    refused("not in the grammar", &handle, bytes_of("ab(c"), ZF_LEFTMOST_FIRST);
    refused("too large", &handle, bytes_of("(a{1000}){1000}"), ZF_LEFTMOST_FIRST);
    refused("compiled", &handle, bytes_of("a(?P<abc>b)c"), ZF_LEFTMOST_FIRST);
    names(&handle);
    searches(&handle);
    places(&handle);
    told("memory", zf_memory(&handle, &bytes));
    printf("  %d\n", bytes > 0);
    told("memory by part", zf_memory_parts(&handle, &parts));
    printf("  %d\n", parts.patterns + parts.cache == bytes);
    told("a batch", zf_next(&handle, (const struct zf_bytes[1]){{(const uint8_t *)"abcabc", 6}}, 1, ZF_NONE, batch, 1, &progress));
    printf("  %zu, %zu..%zu, next %zu\n", progress.count, batch[0].start, batch[0].end, progress.next);
    told("a text that became too short", zf_next(&handle, (const struct zf_bytes[1]){{(const uint8_t *)"ab", 2}}, 1, ZF_NONE, batch, 1, &progress));
    told("begun anew", zf_restart(&handle, 0, 0));
    zf_free(&handle);
    zf_free(&handle);
    told("freed", zf_restart(&handle, 0, 0));
    partials(&handle);
    zf_free(&handle);
    windows(&handle);
    zf_free(&handle);
    streams(&handle);
    zf_free(&handle);
    steps(&handle);
    zf_free(&handle);
    one(&handle);
    kinds(&handle);
    refused("of the kind without groups", &handle, bytes_of("a"), ZF_ALL);
    told("replaced", zf_replace(&handle, (const struct zf_bytes[1]){zf_bytes_of(NULL, 0)}, 1, zf_none, 0, (uint8_t[1]){0}, 1, &(struct zf_replaced){0}));
    sizes(&handle);
    return handle.full;
}
