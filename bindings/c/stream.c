/* A text comes in by pieces, as from a pipe. It prints each match as soon as the stream tells it, with its bytes, and then searches the text that
 * came in slices, as an editor does between two keys. */
#include "../../include/zorfelith.h"
#include <stdio.h>
#include <string.h>

enum { PIECES = 6, MOST = 64 };

static const char *const pieces[PIECES] = {"us", "er=7 id", "=12", "34 use", "r=", "88\n"};

/* Prints all matches that the stream tells before more has to come. */
static int print_told(struct zf_handle *handle) {
    struct zf_match found;
    uint32_t status;
    while ((status = zf_stream_next(handle, &found)) == ZF_FOUND) {
        uint8_t bytes[MOST];
        struct zf_kept kept;
        if (zf_stream_kept(handle, bytes, MOST, &kept) != ZF_DONE)
            return 1;
        printf("%zu..%zu: %.*s\n", found.start, found.end, (int)(found.end - found.start), (const char *)bytes + (found.start - kept.start));
    }
    return status != ZF_DONE;
}

/* Prints the match from `start` on in the text that came, by slices of four bytes. */
static int print_by_slices(struct zf_handle *handle, const struct zf_bytes *chunks, size_t start) {
    struct zf_match found;
    uint32_t status = zf_step_new(handle, start) == ZF_DONE ? ZF_MORE_AFTER : ZF_MEMORY;
    /* Other work is done here, between two slices. */
    while (status == ZF_MORE_AFTER)
        status = zf_step_resume(handle, chunks, PIECES, 4, &found);
    if (status == ZF_FOUND)
        printf("from %zu on: %zu..%zu\n", start, found.start, found.end);
    else
        printf("from %zu on: status %u\n", start, status);
    return status > ZF_FOUND || zf_step_free(handle) != ZF_DONE;
}

int main(void) {
    const struct zf_bytes pattern = zf_bytes_of("[a-z]+=[0-9]+", 13);
    const struct zf_settings settings = {0};
    struct zf_handle handle = {0};
    struct zf_refused refused;
    struct zf_bytes chunks[PIECES];
    int wrong = zf_compile(&handle, &pattern, 1, &settings, sizeof settings, &refused) != ZF_DONE;
    wrong = wrong || zf_stream_new(&handle) != ZF_DONE || zf_stream_limit(&handle, MOST) != ZF_DONE;
    for (size_t i = 0; i < PIECES && !wrong; i++) {
        chunks[i] = zf_bytes_of(pieces[i], strlen(pieces[i]));
        wrong = zf_stream_feed(&handle, chunks[i].bytes, chunks[i].len) != ZF_DONE || print_told(&handle);
    }
    wrong = wrong || zf_stream_finish(&handle) != ZF_DONE || print_told(&handle) || zf_stream_free(&handle) != ZF_DONE;
    wrong = wrong || print_by_slices(&handle, chunks, 0) || print_by_slices(&handle, chunks, 8) || print_by_slices(&handle, chunks, 22);
    zf_free(&handle);
    return wrong;
}
