/* Zorfelith for C: regex search over text in chunks.
 *
 * A text is an array of chunks, each a pointer and a length. Nothing of it is copied, and nothing of it is kept between two calls, but where
 * the chunks of a prepared text lie. The answers are those of the whole text, wherever it is cut, also inside a character. All places and
 * lengths are in bytes of the whole text.
 *
 * What a caller owes:
 *   - Each pointer is valid for its length, aligned, and not null, also where the length is 0 (zf_bytes_of sees to that). What a call
 *     writes overlaps nothing else that is passed to it.
 *   - The text stands still while a call runs.
 *   - A handle begins as bytes that are 0 (`struct zf_handle handle = {0};`). It may be moved. It is not copied, and what is in it is
 *     neither read nor written but by the calls.
 *   - A handle is used by one thread at a time. Different handles may be used by different threads at once, also where zf_share made one from
 *     the other. A handle may go to another thread, after what orders the two: a lock, or a thread's start or end.
 *   - The text that zf_live_edit or zf_text_live_edit is given is that of the list, edited as the call says.
 *   - The bytes of the chunks of a prepared text stay where they are and as they are, until an edit takes the chunk out of it, or it is freed.
 *     A struct zf_text is handled as a handle is: it begins as bytes that are 0, isn't copied, and is used by one thread at a time.
 *   - No call is made from a signal handler.
 *   - 256 KiB of stack are left. zf_compile needs most of them if a pattern is nested 250 levels deep; docs/STACK.md has figures.
 * There is nothing else to owe: each call tests its handle, its range, its UTF-8 and its capacities, and answers a status.
 *
 * Who owns what: a full handle owns memory, which malloc gave and zf_free or the next zf_compile gives back. Handles of the same patterns, by
 * zf_share, own what is compiled together, and the last one gives it back. A prepared text owns memory for its list of chunks, which
 * zf_text_free or the next zf_text_new gives back. All else is the caller's.
 * Only zf_compile, zf_share, zf_explain, zf_replace, zf_replace_one, zf_live_new, zf_live_edit, zf_stream_new, zf_stream_feed, zf_step_new,
 * zf_text_new, zf_text_edit, zf_text_live_new and zf_text_live_edit take memory, but for searches of some patterns, whose cache may grow up to
 * a limit, which the settings may set; where that is refused they go on without it, and answer the same.
 */
#ifndef ZORFELITH_H
#define ZORFELITH_H

#include <stddef.h>
#include <stdint.h>

#ifdef __cplusplus
extern "C" {
#endif

/* Statuses. After any but ZF_DONE and ZF_FOUND nothing was written but what the call says: what was lent to it is as it was. ZF_EMPTY is
 * returned exactly if the handle is empty, or the prepared text. A full one stays full, whatever the status is, but for zf_compile, zf_free,
 * the second of zf_share, zf_text_new and zf_text_free. Each other status
 * is returned exactly if it applies; if two do, the call says which, and ZF_OUTSIDE comes before ZF_TOO_LONG. */
enum {
    ZF_DONE = 0,      /* It is done. Of a search: there is no match; of zf_find_partial: none is final. */
    ZF_FOUND = 1,     /* There is a match; of zf_find_partial: a final one. */
    ZF_EMPTY = 2,     /* The handle is empty, or the prepared text. */
    ZF_TOO_LONG = 3,  /* The chunks hold SIZE_MAX bytes, or more. */
    ZF_OUTSIDE = 4,   /* The range begins behind its end, or behind the text's; or an edit lies outside of a list's text or a prepared one. */
    ZF_ABSENT = 5,    /* There is no such pattern or group, or it has no name. */
    ZF_SHORT = 6,     /* The place for a name or another text is too short. */
    ZF_NOT_UTF8 = 7,  /* The bytes of a pattern, a name, a text to escape or a template aren't UTF-8. */
    ZF_SYNTAX = 8,    /* No pattern is read from the text, or no template. */
    ZF_TOO_LARGE = 9, /* The patterns are too large, or more than 2,147,483,647. */
    ZF_MEMORY = 10,   /* Memory was refused. */
    ZF_NO_KIND = 11,  /* No kind of match has the number; or the kind has no groups, to replace by. */
    ZF_UNKNOWN = 12,  /* The settings have a byte that is on behind those that the library knows. */
    ZF_NO_LIST = 13,  /* The handle keeps no live list. */
    ZF_MISFIT = 14,   /* The chunks don't have the length that an edit gives. */
    ZF_MORE_AFTER = 15, /* A window or a slice ends before the answer is known. */
    ZF_MORE_BEFORE = 16, /* A window begins later than four bytes before the place to search from. */
    ZF_NO_STREAM = 17,  /* The handle keeps no stream. */
    ZF_FINISHED = 18,   /* The stream was finished. */
    ZF_LIMIT = 19,      /* The stream would keep more bytes than its limit. */
    ZF_NO_STEPPER = 20  /* The handle keeps no search in slices. */
};

/* The version of this header: 1,000,000 times its first number, 1,000 times its second, and its third. */
#define ZF_VERSION 1000

/* As the end of a range: the text's end. Of a group: it took no part. */
#define ZF_NONE SIZE_MAX

/* A byte to point at where there is none. */
static const uint8_t zf_none[1] = {0};

/* Some bytes: a chunk of a text, or a pattern. */
struct zf_bytes {
    const uint8_t *bytes; /* never null */
    size_t len;
};

/* Some bytes, of which the pointer may be null where there are none. */
static inline struct zf_bytes zf_bytes_of(const void *bytes, size_t len) {
    struct zf_bytes some;
    some.bytes = len == 0 ? zf_none : (const uint8_t *)bytes;
    some.len = len;
    return some;
}

/* A compiled list of patterns, with its cache, the state of an iteration, and the live list of a text, a stream and a search in slices, if it
 * keeps them. All of it is the library's. */
struct zf_handle {
    uint8_t full;
    void *held;
};

/* A prepared text: its chunks, with the places where they begin. All of it is the library's. */
struct zf_text {
    uint8_t full;
    void *held;
};

/* Where a prepared text is searched. */
struct zf_bounds {
    size_t start;
    size_t end;       /* SIZE_MAX, ZF_NONE: to the text's end */
    uint8_t anchored; /* not 0: the match begins at `start` */
};

/* Kinds of match. */
enum {
    ZF_LEFTMOST_FIRST = 0,  /* the preferred match of the least start */
    ZF_ALL = 1,             /* the match with the greatest end, of these the one with the least start, and of these the least pattern */
    ZF_LEFTMOST_LONGEST = 2 /* the longest match of the least start, and of these the preferred one */
};

/* How patterns are read, which match is sought, and limits. Each field before `kind`, and `full`, is off at 0, and on at each other number. All
 * 0: the defaults.
 *
 * A call that takes settings takes their size too, sizeof(struct zf_settings), and reads no byte behind it. So a program that was built with
 * an older header, whose structure is shorter, gets 0 in the fields that it doesn't have. A longer one, of a newer header, is read as far as
 * the library knows it, and is refused with ZF_UNKNOWN if a byte behind that is on. New fields come behind the last.
 *
 * With `split_characters` off, if some pattern may be empty, each match that ends inside a character is passed over, whether it is empty or
 * not: `a*` in "aa" followed by the byte 80 finds 3..3 alone. A place is inside a character if the byte there is from 80 to BF. Under ZF_ALL
 * nothing is passed over. */
struct zf_settings {
    uint8_t case_insensitive;     /* letters match in either case: the flag i */
    uint8_t multi_line;           /* ^ and $ match at each line: the flag m */
    uint8_t dot_matches_new_line; /* a dot matches line ends too: the flag s */
    uint8_t crlf;                 /* lines end with CR, LF or both: the flag R */
    uint8_t swap_greed;           /* repetitions are lazy, and greedy with ?: the flag U */
    uint8_t bytes;                /* classes, dots and words are of bytes, not of characters: without the flag u */
    uint8_t any_bytes;            /* patterns may match what isn't UTF-8 */
    uint8_t split_characters;     /* matches may end inside a character, also if some pattern may be empty */
    uint8_t kind;                 /* ZF_LEFTMOST_FIRST, ZF_ALL or ZF_LEFTMOST_LONGEST; each other number is ZF_NO_KIND */
    size_t size_limit;            /* the limit on the size of the patterns, beyond which they are ZF_TOO_LARGE; 0 for 10,485,760 */
    size_t cache_capacity;        /* how many bytes the cache of a lazy DFA may take; 0 for 2,097,152. No answer depends on it. */
    size_t full;                  /* patterns are read by the full grammar: Unicode's classes and case folding, sets, the flag x */
};

/* Why patterns were refused. */
struct zf_refused {
    uint32_t status;
    size_t pattern; /* with ZF_NOT_UTF8: the first that is not UTF-8; with ZF_SYNTAX: the least that is not read; else 0 */
    size_t at;      /* with ZF_SYNTAX: a byte of that pattern, from 0 to its length, at which the fault was met; else 0 */
};

/* A match. */
struct zf_match {
    size_t pattern; /* its number, from 0 on */
    size_t start;   /* where it begins */
    size_t end;     /* where it ends, without the byte there; start <= end */
};

/* A group of a match. Both are ZF_NONE where it took no part. */
struct zf_group {
    size_t start;
    size_t end;
};

/* A fault in the text of a pattern. */
struct zf_fault {
    size_t start; /* where the part of the text begins that is at fault */
    size_t end;   /* where it ends */
    size_t len;   /* how many bytes the words for it have */
};

/* What a replacement wrote, or where it failed. */
struct zf_replaced {
    size_t count; /* how many matches were replaced */
    size_t len;   /* how many bytes the replaced text has */
    size_t at;    /* with ZF_SYNTAX: the byte of the template at which the fault is; else 0 */
};

/* What replaces one match, or where that failed. */
struct zf_replacement {
    struct zf_match found;
    size_t len; /* how many bytes replace it */
    size_t at;  /* with ZF_SYNTAX: the byte of the template at which the fault is; else 0 */
};

/* About how many bytes the parts of a handle take. */
struct zf_parts {
    size_t patterns;
    size_t cache;
};

/* What an edit changed in a live list. The matches before `first` stay as they are. Of the others `dropped` went, `added` came in their place,
 * and all behind them moved with the text. */
struct zf_change {
    size_t first;
    size_t dropped;
    size_t added;
    size_t start; /* where the bytes to draw anew begin, in the text as it is now; they have those that were inserted */
    size_t end;   /* where they end. Outside, the list has the matches that it had, those below moved with the text. */
};

/* A part of a text, whose bytes are the chunks that a call is given. */
struct zf_window {
    size_t start;    /* where it begins in the text */
    uint8_t is_last; /* not 0: the text ends with it; 0: more of the text may follow */
};

/* What a stream keeps. */
struct zf_kept {
    size_t start; /* where the first byte that it keeps stands in the stream: so many bytes before it were let go */
    size_t len;   /* how many bytes it keeps */
};

/* How far an iteration has come. */
struct zf_progress {
    size_t count; /* how many matches the call wrote */
    size_t next;  /* where the next search begins */
};

/* The version of the library, as ZF_VERSION is that of the header. */
uint32_t zf_version(void);

/* Compiles patterns into the handle, and frees what it held before. There may be none, and then there is never a match.
 *
 * ZF_DONE, and `refused` is as it was; or ZF_UNKNOWN, ZF_NO_KIND, ZF_TOO_LARGE for too many, ZF_NOT_UTF8, ZF_SYNTAX, ZF_TOO_LARGE, ZF_MEMORY:
 * the first of these that applies, want of memory at any time. Then the handle is empty, and `refused` tells the status and where. */
uint32_t zf_compile(struct zf_handle *handle, const struct zf_bytes *patterns, size_t pattern_count, const struct zf_settings *settings,
                    size_t settings_size, struct zf_refused *refused);

/* Fills `other` with a handle of the same patterns, and frees what it held before. Nothing is compiled again: what is compiled is read by both,
 * and each has a cache, an iteration, a live list, a stream and a search in slices of its own. So `other` is for another thread, or for the
 * live list of another text, or another stream. `handle` stays as it was, and `other` begins as after zf_compile. The two are different.
 *
 * ZF_DONE; ZF_EMPTY: `handle` is empty, and `other` is as it was; ZF_MEMORY: `other` is empty. */
uint32_t zf_share(struct zf_handle *handle, struct zf_handle *other);

/* What is wrong with the text of a pattern. ZF_DONE: nothing, it is read as a pattern. ZF_FOUND: `fault` is written, and the first fault->len
 * bytes of `words` are a line that says what is wrong, in UTF-8 and without a 0 behind it: 64 bytes are enough. ZF_SHORT: `words` has fewer than
 * fault->len bytes, and is as it was. ZF_UNKNOWN, ZF_NOT_UTF8, ZF_MEMORY. `kind` and the limits of the settings change nothing. */
uint32_t zf_explain(const uint8_t *pattern, size_t pattern_len, const struct zf_settings *settings, size_t settings_size,
                    struct zf_fault *fault, uint8_t *words, size_t words_len);

/* The pattern that matches a text and nothing else: the text, with a `\` before each of the characters \.+*?()|[{^$. It is not for a text that
 * is to stand in a class. ZF_DONE: the first *len bytes of `place` are the pattern. ZF_SHORT: `place` has fewer than the *len bytes that it
 * has, and is as it was. ZF_NOT_UTF8. */
uint32_t zf_escape(const uint8_t *text, size_t text_len, uint8_t *place, size_t place_len, size_t *len);

/* Frees what the handle holds, and leaves it empty. An empty one stays empty. */
void zf_free(struct zf_handle *handle);

/* Whether there is a match in the text from `start` to `end`, or to the text's end where that comes first. Assertions, as ^ and \b, see the
 * whole text. ZF_FOUND or ZF_DONE; or ZF_EMPTY, ZF_TOO_LONG, ZF_OUTSIDE. The iteration stays as it was. */
uint32_t zf_is_match(struct zf_handle *handle, const struct zf_bytes *chunks, size_t chunk_count, size_t start, size_t end);

/* The match there: with ZF_FOUND it is written to `found`, which else stays as it was. Statuses as zf_is_match. The iteration stays as it
 * was. */
uint32_t zf_find(struct zf_handle *handle, const struct zf_bytes *chunks, size_t chunk_count, size_t start, size_t end,
                 struct zf_match *found);

/* The match that begins at `start`, and ends at `end` or before: of those that do, the one that the kind prefers. Statuses and `found` as
 * zf_find. The iteration stays as it was. */
uint32_t zf_match_at(struct zf_handle *handle, const struct zf_bytes *chunks, size_t chunk_count, size_t start, size_t end,
                     struct zf_match *found);

/* The last match that begins before `place`, of the matches that zf_next gives from `start` to `end`. It goes over all of these up to the
 * place: where that is long, begin at a line or at another place where an iteration may begin. Statuses and `found` as zf_find. The iteration
 * stays as it was. */
uint32_t zf_find_last(struct zf_handle *handle, const struct zf_bytes *chunks, size_t chunk_count, size_t start, size_t end, size_t place,
                      struct zf_match *found);

/* What the beginning of a text tells of a search from `start` on, where more bytes may follow the chunks. ZF_FOUND: `found` is the match of
 * each text that goes on from them; some are told only once a few bytes more than their own are there. The next is then sought as zf_next
 * seeks it. ZF_DONE: no match of such a text begins before `*from`, so once more of it is there, search from that place on. It is `start` or
 * behind it, and not behind the end of the chunks. A caller may let go the bytes that are more than four before it, and then counts places
 * without them. What the status doesn't name stays as it was. Once nothing follows, zf_find has the answer. ZF_FOUND or ZF_DONE; or
 * ZF_EMPTY, ZF_TOO_LONG, ZF_OUTSIDE (`start` is behind the end of the chunks). The iteration stays as it was. */
uint32_t zf_find_partial(struct zf_handle *handle, const struct zf_bytes *chunks, size_t chunk_count, size_t start, struct zf_match *found,
                         size_t *from);

/* Windows: a search of a text by parts of it, as it lies in a rope, or in a file that is read by pages. A call is given the chunks of one part,
 * cut in any way, and the place where that part begins in the text. All places are those of the whole text, and so are the answers: a window
 * is no text of its own, and `^` matches at its start only where that is the text's. Nothing is kept between two calls.
 *
 * The match of the whole text from `*from` to `end`, or to the text's end where that comes first: that of zf_find in each text that has this
 * part there. ZF_FOUND: it is written to `found`. ZF_DONE: there is none. ZF_MORE_AFTER: the window doesn't tell, and the answer is that of a
 * search from a place on that is written to `*from`: it is not before the old one, and not behind `end`; behind the window only if the old
 * one was. Call again with a window that begins four bytes before it or earlier, and goes on behind the end of this one. The bytes before that
 * need not be kept. A window that is the last one, or has five bytes behind `end`, is never answered so. ZF_MORE_BEFORE: the window begins
 * behind the text's start, and later than four bytes before `*from`, so it doesn't tell what assertions see; call again with one that begins
 * there. ZF_OUTSIDE: `*from` is behind `end`, or behind the end of the last window. ZF_TOO_LONG: the window ends at SIZE_MAX or behind. ZF_EMPTY.
 * What the status doesn't name stays as it was, and so does the iteration.
 *
 * The next match is sought from where the one before ended; if that gives an empty one that ends there too, from a byte later. */
uint32_t zf_window_find(struct zf_handle *handle, const struct zf_bytes *chunks, size_t chunk_count, const struct zf_window *window, size_t *from,
                        size_t end, struct zf_match *found);

/* The match of zf_find with its groups, and `found` as there. With ZF_FOUND and with ZF_DONE each of the `group_count` places is written: groups[i]
 * is group i of the pattern that matched, groups[0] the whole match; a group that took no part, or that the pattern doesn't have, is ZF_NONE,
 * and so is each where there is no match. Under ZF_LEFTMOST_LONGEST they are those of the way that is preferred of the ways to match that
 * much. Under ZF_ALL the groups but for the whole match are ZF_NONE. Statuses as zf_is_match. The iteration stays as it was. */
uint32_t zf_find_groups(struct zf_handle *handle, const struct zf_bytes *chunks, size_t chunk_count, size_t start, size_t end,
                        struct zf_match *found, struct zf_group *groups, size_t group_count);

/* Which patterns have a match in the text from `start` to `end`, or to the text's end where that comes first: marks[p] is 1 where pattern p has
 * one, and else 0, also where there is no pattern p. A pattern has a match where it spells some span there, whatever the kind is, also where
 * another pattern is preferred there, and where searches pass over the span, since it ends inside a character. With ZF_DONE each of
 * the `mark_count` places is written. ZF_DONE; or ZF_EMPTY, ZF_TOO_LONG, ZF_OUTSIDE. The iteration stays as it was. */
uint32_t zf_which_patterns(struct zf_handle *handle, const struct zf_bytes *chunks, size_t chunk_count, size_t start, size_t end,
                           uint8_t *marks, size_t mark_count);

/* Begins an iteration at the byte `from`. With `follows` on (not 0) a match ended there: an empty match there then gives way to the next.
 * After zf_compile an iteration begins at 0. ZF_DONE or ZF_EMPTY. */
uint32_t zf_restart(struct zf_handle *handle, size_t from, uint8_t follows);

/* Fills `batch` with the next matches of the text up to `end`, from left to right, and goes on behind them with the next call. Each match is
 * sought from where the one before ended, and one that is empty and ends there gives way to the match from a byte later. A batch that isn't
 * full, progress->count < batch_len, is the last one. Each call goes over the chunks once to count their bytes, and from the first one to
 * the place: where a text has thousands of chunks, and many matches, large batches take less time.
 *
 * ZF_DONE, and `progress` is written; or ZF_EMPTY, ZF_TOO_LONG, ZF_OUTSIDE (the place, progress->next of the call before, is behind `end` or
 * behind the text's end): then the iteration stays as it was.
 *
 * The text between two calls. The handle keeps the place and whether a match ended there, and nothing of the text. Each call gives the
 * matches that the text handed to that call has from the place on, whatever text was handed to the calls before. So as long as the text is
 * the same, all batches together are the list of its matches, also where it is cut otherwise in each call. After an edit that lies
 * behind the place, the batches that follow are the matches of the new text from the place on. After an edit before the place, the place
 * has to be moved with it, by zf_restart(handle, next + what was inserted - what was removed, 1); where it was in what was removed, begin
 * where the edit does, with `follows` off. A text that has become too short for the place is told: ZF_OUTSIDE. That matches from before
 * an edit would still be found after it isn't promised: assertions at the place see the bytes before it that the text has now. */
uint32_t zf_next(struct zf_handle *handle, const struct zf_bytes *chunks, size_t chunk_count, size_t end, struct zf_match *batch,
                 size_t batch_len, struct zf_progress *progress);

/* The whole text with each match replaced by a template: in it `${1}` and `${name}` are the bytes of a group, or none where it took no part or
 * the pattern doesn't have it, `$$` is a `$`, and all else stands for itself. The matches are those of zf_next from 0 on. Memory is taken for
 * the replaced text while the call runs.
 *
 * ZF_DONE: the first replaced->len bytes of `place` are the replaced text. ZF_SHORT: `place` has fewer than replaced->len bytes, and is as it
 * was. ZF_SYNTAX: a `$` of the template begins nothing of that, and replaced->at tells where. `replaced` is written with these three alone.
 * ZF_NO_KIND: the kind is ZF_ALL. Else ZF_EMPTY, ZF_NOT_UTF8 (the template), ZF_TOO_LONG, ZF_MEMORY. The iteration stays as it was. */
uint32_t zf_replace(struct zf_handle *handle, const struct zf_bytes *chunks, size_t chunk_count, const uint8_t *template_bytes,
                    size_t template_len, uint8_t *place, size_t place_len, struct zf_replaced *replaced);

/* What such a template puts in the place of one match: of zf_find(.., start, ZF_NONE, ..). Memory is taken for it while the call runs.
 *
 * ZF_FOUND: the first replacement->len bytes of `place` are to stand where replacement->found does. ZF_SHORT: `place` has fewer than
 * replacement->len bytes, and is as it was. Both write `replacement`. ZF_DONE: there is no match. ZF_SYNTAX: a `$` of the template begins nothing,
 * and replacement->at alone is written. ZF_NO_KIND: the kind is ZF_ALL. Else ZF_EMPTY, ZF_NOT_UTF8 (the template), ZF_OUTSIDE, ZF_TOO_LONG,
 * ZF_MEMORY. What the status doesn't name stays as it was, and so does the iteration. */
uint32_t zf_replace_one(struct zf_handle *handle, const struct zf_bytes *chunks, size_t chunk_count, size_t start, const uint8_t *template_bytes,
                        size_t template_len, uint8_t *place, size_t place_len, struct zf_replacement *replacement);

/* Live lists. A handle may keep the list of all matches of a text, those of zf_next from 0 on, and keeps it under edits of that text: after an
 * edit it searches only what the edit may have changed. The text itself isn't kept. All other calls leave the list as it is, but for
 * zf_compile and zf_free, which free it. Each call on a list is ZF_NO_LIST if the handle keeps none. */

/* Makes the list of the whole text, in place of the one that the handle keeps. ZF_DONE; ZF_EMPTY; ZF_TOO_LONG, and the list stays as it was; or
 * ZF_MEMORY, and there is no list. The iteration stays as it was. */
uint32_t zf_live_new(struct zf_handle *handle, const struct zf_bytes *chunks, size_t chunk_count);

/* Keeps the list under an edit: of the text that it is of, the bytes from `start` to `end` were replaced by `inserted` others. The chunks are
 * the whole text as it is now, cut in any way.
 *
 * ZF_DONE: the list is that of the new text, and `change` is written. ZF_NO_LIST. ZF_OUTSIDE: `start` is behind `end`, or `end` behind the
 * end of the list's text. ZF_TOO_LONG. ZF_MISFIT: the new text doesn't have the length that the edit gives. ZF_MEMORY: there is no list any
 * more, and zf_live_new makes one anew. ZF_EMPTY. After all but ZF_DONE and ZF_MEMORY the list is as it was, and still that of the old text.
 *
 * What the caller owes: before `start` and behind the edit, the new text has the bytes of the old one, the text of the call before on this
 * list. That can't be tested, and nothing is promised of what follows if it isn't so, until zf_live_new. */
uint32_t zf_live_edit(struct zf_handle *handle, size_t start, size_t end, size_t inserted, const struct zf_bytes *chunks, size_t chunk_count,
                      struct zf_change *change);

/* Frees the list. ZF_DONE, also if there was none; or ZF_EMPTY. */
uint32_t zf_live_free(struct zf_handle *handle);

/* How many matches the list has. ZF_DONE, ZF_NO_LIST or ZF_EMPTY. */
uint32_t zf_live_len(struct zf_handle *handle, size_t *len);

/* The match of the list with this index, from 0 on. ZF_FOUND, and it is written to `found`, which else stays as it was; ZF_DONE: there are no
 * more. ZF_NO_LIST or ZF_EMPTY. */
uint32_t zf_live_get(struct zf_handle *handle, size_t index, struct zf_match *found);

/* The first match of the list that begins at `place` or later. It reads no text. Statuses and `found` as zf_live_get. */
uint32_t zf_live_next(struct zf_handle *handle, size_t place, struct zf_match *found);

/* The last match of the list that begins before `place`. It reads no text. Statuses and `found` as zf_live_get. */
uint32_t zf_live_previous(struct zf_handle *handle, size_t place, struct zf_match *found);

/* Fills `batch` with the first matches of the list that touch the bytes from `start` to `end`, in order, and writes to `count` how many these
 * are. If the batch isn't full, *count < batch_len, these are all. A match with a byte there touches them, also one that begins above, and
 * so does an empty one there or at one of the ends. ZF_DONE, ZF_NO_LIST or ZF_EMPTY. */
uint32_t zf_live_window(struct zf_handle *handle, size_t start, size_t end, struct zf_match *batch, size_t batch_len, size_t *count);

/* Streams: a text that is still coming in, as from a pipe or a socket. A handle may keep one. The matches are those of zf_next from 0 on in the
 * whole text, and each is told once it is known that nothing that follows can change it, once and in order, however the text was cut. What was told
 * is a beginning of the list of each text that the bytes fed so far may still become; once the stream is finished and zf_stream_next is
 * ZF_DONE, it is the list of the text that was fed. Places are those of the whole stream. It keeps the bytes that it may read again, which
 * are those of the match under way and some before, and has a cache of its own. All other calls leave it as it is, but for zf_compile and
 * zf_free, which free it. Each call on a stream but zf_stream_new and zf_stream_free is ZF_NO_STREAM if the handle keeps none. */

/* Begins a stream of which nothing has come yet, in place of the one that the handle keeps. It has no limit. ZF_DONE; ZF_EMPTY; or ZF_MEMORY,
 * and all is as it was. */
uint32_t zf_stream_new(struct zf_handle *handle);

/* Lets the stream keep at most so many bytes after a feed; before, there is no limit. It may be changed at any time. ZF_DONE, ZF_NO_STREAM or
 * ZF_EMPTY. */
uint32_t zf_stream_limit(struct zf_handle *handle, size_t limit);

/* Feeds the next bytes of the stream. It takes all of them, or none. Before, it lets go the bytes that no search needs any more.
 *
 * ZF_DONE; or the first of these that applies: ZF_FINISHED; ZF_TOO_LONG: the stream would have SIZE_MAX bytes or more; ZF_LIMIT: it would keep
 * more bytes than its limit; ZF_MEMORY. Then nothing of the chunk was taken, and the stream goes on as if the call hadn't been. ZF_NO_STREAM
 * or ZF_EMPTY. */
uint32_t zf_stream_feed(struct zf_handle *handle, const uint8_t *bytes, size_t len);

/* The next match. ZF_FOUND, and it is written to `found`, which else stays as it was. ZF_DONE: none is told until more is fed; once the
 * stream is finished, there are no more. ZF_NO_STREAM or ZF_EMPTY. A match may come some bytes after its last one: it has to be sure that
 * no longer one is there, and what assertions behind it see. Ask until it is ZF_DONE after each feed; it will be. */
uint32_t zf_stream_next(struct zf_handle *handle, struct zf_match *found);

/* Says that no more follows, so that zf_stream_next tells all that is left. ZF_DONE, also if it was finished; ZF_NO_STREAM or ZF_EMPTY. */
uint32_t zf_stream_finish(struct zf_handle *handle);

/* What the stream keeps. `kept` is written with ZF_DONE and with ZF_SHORT. ZF_DONE: the first kept->len bytes of `place` are those of the stream
 * from kept->start on. ZF_SHORT: `place` has fewer bytes than these, and is as it was; so ask with a `place_len` of 0 for the numbers alone.
 * The bytes of a match are among them until the next feed. ZF_NO_STREAM or ZF_EMPTY. */
uint32_t zf_stream_kept(struct zf_handle *handle, uint8_t *place, size_t place_len, struct zf_kept *kept);

/* Frees the stream. ZF_DONE, also if there was none; or ZF_EMPTY. */
uint32_t zf_stream_free(struct zf_handle *handle);

/* Searches in slices: each call searches some bytes of a text more, and returns. So a program can go on with other things between two calls,
 * show how far it is, and stop at any of them. The match is that of zf_find from the start on in the whole text, however the slices are cut.
 * A handle may keep one such search, which has a cache of its own. The text is handed to each call anew, whole, and may be cut otherwise
 * each time; if it was edited, start again. All other calls leave the search as it is, but for zf_compile and zf_free, which free it. */

/* Makes a search in slices from `start` on, in place of the one that the handle keeps. Nothing is searched yet. ZF_DONE; ZF_EMPTY; or ZF_MEMORY,
 * and all is as it was. */
uint32_t zf_step_new(struct zf_handle *handle, size_t start);

/* Begins anew from `start` on, in this or in another text, in place of the search under way. It takes no memory. The next match is sought
 * from where the one before ended; if that gives an empty one that ends there too, from a byte later. ZF_DONE, ZF_NO_STEPPER or ZF_EMPTY. */
uint32_t zf_step_start(struct zf_handle *handle, size_t start);

/* Searches about `budget` bytes more. It may read again as many as that, or more of them if something longer is under way, and then takes as
 * many more; it always takes one at least.
 *
 * ZF_FOUND: `found` is the match from the start on; else it stays as it was. ZF_DONE: there is none. After both the search stands as it was
 * before the call. ZF_MORE_AFTER: more bytes decide it; the text goes on behind them, so that calling again comes to an end. ZF_TOO_LONG,
 * ZF_NO_STEPPER or ZF_EMPTY. */
uint32_t zf_step_resume(struct zf_handle *handle, const struct zf_bytes *chunks, size_t chunk_count, size_t budget, struct zf_match *found);

/* How many bytes of the text were looked at, or where the search begins. ZF_DONE, ZF_NO_STEPPER or ZF_EMPTY. */
uint32_t zf_step_position(struct zf_handle *handle, size_t *position);

/* Frees the search. ZF_DONE, also if there was none; or ZF_EMPTY. */
uint32_t zf_step_free(struct zf_handle *handle);

/* Prepared texts. A call that is given chunks counts the bytes of all of them, which takes long where there are many. A prepared text keeps where
 * its chunks lie, and where each begins in the text: a search goes to its start in steps that grow with the logarithm of the number of chunks,
 * and then reads what it searches. It is no handle's own: any handle may search it. No byte of the chunks is copied. */

/* Makes the text of these chunks, and frees what was there. It goes over all of them. ZF_DONE; or ZF_TOO_LONG, ZF_MEMORY: then it is empty. */
uint32_t zf_text_new(struct zf_text *text, const struct zf_bytes *chunks, size_t chunk_count);

/* Replaces the chunks from the index `start` on and before the index `end`, counted from 0 on, by others: by none to remove them; from `start` to
 * `start` to insert before that one, or at the end. It takes time for the chunks that it replaces and puts in, and for those between its place
 * and that of the edit before. An iteration is moved as at zf_next, by zf_restart, and a list is kept by zf_text_live_edit.
 *
 * ZF_DONE; or ZF_OUTSIDE: `start` is above `end`, or `end` above the number of chunks; ZF_TOO_LONG: the text would have SIZE_MAX bytes or more;
 * ZF_MEMORY. Then the text is as it was. ZF_OUTSIDE comes before ZF_TOO_LONG. ZF_EMPTY. */
uint32_t zf_text_edit(struct zf_text *text, size_t start, size_t end, const struct zf_bytes *chunks, size_t chunk_count);

/* Frees the text, and leaves it empty. An empty one stays empty. */
void zf_text_free(struct zf_text *text);

/* The match of zf_find in the text from bounds->start to bounds->end; with bounds->anchored on, that of zf_match_at. Statuses and `found` as
 * there. The iteration and the text stay as they were. */
uint32_t zf_text_find(struct zf_handle *handle, struct zf_text *text, const struct zf_bounds *bounds, struct zf_match *found);

/* The match of zf_find with its groups, as zf_find_groups writes both. Statuses as zf_text_find. The iteration and the text stay as they were. */
uint32_t zf_text_find_groups(struct zf_handle *handle, struct zf_text *text, size_t start, size_t end, struct zf_match *found,
                             struct zf_group *groups, size_t group_count);

/* Fills `batch` with the next matches of the text up to `end`, as zf_next does, by the handle's iteration. Statuses and `progress` as there. The
 * text stays as it was. */
uint32_t zf_text_next(struct zf_handle *handle, struct zf_text *text, size_t end, struct zf_match *batch, size_t batch_len,
                      struct zf_progress *progress);

/* What the text tells of a search from `start` on, where more bytes may follow it, as zf_find_partial. Statuses and what is written as there.
 * The iteration and the text stay as they were. */
uint32_t zf_text_find_partial(struct zf_handle *handle, struct zf_text *text, size_t start, struct zf_match *found, size_t *from);

/* Makes the handle's live list of the whole text, as zf_live_new. Statuses and what is left as there. */
uint32_t zf_text_live_new(struct zf_handle *handle, struct zf_text *text);

/* Keeps the list under an edit, as zf_live_edit: `start`, `end` and `inserted` count bytes, and the text was edited before, by zf_text_edit.
 * Statuses, `change`, and what the caller owes, as there. The text stays as it was. */
uint32_t zf_text_live_edit(struct zf_handle *handle, size_t start, size_t end, size_t inserted, struct zf_text *text, struct zf_change *change);

/* How many patterns there are. ZF_DONE or ZF_EMPTY. */
uint32_t zf_pattern_count(struct zf_handle *handle, size_t *count);

/* How many groups a pattern has, the whole match among them; 0 where there is no such pattern. ZF_DONE; ZF_EMPTY; or ZF_ABSENT, where no
 * pattern can have that number: above 2,147,483,646. */
uint32_t zf_group_count(struct zf_handle *handle, size_t pattern, size_t *count);

/* The name of a group, in UTF-8 and without a 0 behind it. ZF_DONE: the first *len bytes of `name` are the name. ZF_SHORT: `name` has fewer
 * than the *len bytes that the name has, and is as it was. ZF_ABSENT: it has no name, or there is no such pattern or group. ZF_EMPTY. */
uint32_t zf_group_name(struct zf_handle *handle, size_t pattern, size_t group, uint8_t *name, size_t name_len, size_t *len);

/* The number of the group of that name, from 1 on: the first one where several have it. ZF_DONE; ZF_ABSENT: none has it, or there is no such
 * pattern; ZF_NOT_UTF8; ZF_EMPTY. */
uint32_t zf_group_number(struct zf_handle *handle, size_t pattern, const uint8_t *name, size_t name_len, size_t *number);

/* About how many bytes the patterns and their cache take. ZF_DONE or ZF_EMPTY. */
uint32_t zf_memory(struct zf_handle *handle, size_t *bytes);

/* The same by parts. ZF_DONE or ZF_EMPTY. */
uint32_t zf_memory_parts(struct zf_handle *handle, struct zf_parts *parts);

#ifdef __cplusplus
}
#endif

#endif
