/* Searches a gap buffer: its text stands on both sides of a gap, so it has two chunks, and nothing is copied. */
#include "../../include/zorfelith.h"
#include <stdio.h>
#include <string.h>

/* A text of at most 256 bytes, with a gap where it is edited. */
struct gap_buffer {
    uint8_t bytes[256];
    size_t gap;  /* where the gap begins */
    size_t rest; /* where the bytes behind it begin */
};

static void move_to(struct gap_buffer *text, size_t at) {
    if (at < text->gap) {
        size_t moved = text->gap - at;
        memmove(text->bytes + text->rest - moved, text->bytes + at, moved);
        text->gap -= moved;
        text->rest -= moved;
    } else {
        size_t moved = at - text->gap;
        memmove(text->bytes + text->gap, text->bytes + text->rest, moved);
        text->gap += moved;
        text->rest += moved;
    }
}

static size_t insert(struct gap_buffer *text, const char *bytes) {
    size_t len = strlen(bytes);
    if (len > text->rest - text->gap)
        return 0;
    memcpy(text->bytes + text->gap, bytes, len);
    text->gap += len;
    return len;
}

/* The two chunks of the text as it stands. They are made anew after each edit. */
static void chunks_of(const struct gap_buffer *text, struct zf_bytes chunks[2]) {
    chunks[0] = (struct zf_bytes){text->bytes, text->gap};
    chunks[1] = (struct zf_bytes){text->bytes + text->rest, sizeof text->bytes - text->rest};
}

/* Prints the next two matches, and answers where the next search begins. */
static size_t print_two(struct zf_handle *words, const struct gap_buffer *text) {
    struct zf_bytes chunks[2];
    struct zf_match batch[2];
    struct zf_progress progress = {0, 0};
    chunks_of(text, chunks);
    uint32_t status = zf_next(words, chunks, 2, ZF_NONE, batch, 2, &progress);
    if (status != ZF_DONE)
        printf("status %u\n", status);
    for (size_t i = 0; i < progress.count; i++)
        printf("%zu..%zu\n", batch[i].start, batch[i].end);
    return progress.next;
}

int main(void) {
    const struct zf_bytes pattern = {(const uint8_t *)"[a-z]+", 6};
    const struct zf_settings settings = {0};
    struct zf_handle words = {0};
    struct zf_refused refused;
    struct gap_buffer text = {{0}, 0, 256};
    if (zf_compile(&words, &pattern, 1, &settings, sizeof settings, &refused) != ZF_DONE)
        return 1;
    insert(&text, "one two three four");
    move_to(&text, 6); /* the gap stands inside "two" */
    size_t next = print_two(&words, &text);

    /* An edit before the place at which the iteration stands: the place moves with it. */
    move_to(&text, 0);
    size_t inserted = insert(&text, "zero ");
    zf_restart(&words, next + inserted, 1);
    print_two(&words, &text);

    /* An edit that leaves the text too short for the place: the library says so. */
    text.gap = 0;
    text.rest = 256;
    print_two(&words, &text);
    zf_free(&words);
    return 0;
}
