/* A rope of an editor, a tree whose leaves hold the text, is searched without joining its leaves: they are the chunks. It prints the words, and
 * the matches of a pattern that lies across leaves, before and after edits. */
#include "../../include/zorfelith.h"
#include <stdio.h>
#include <stdlib.h>
#include <string.h>

enum { MOST_LEAVES = 64, BATCH = 4 };

/* A leaf has bytes and no children; any other node has two children. */
struct node {
    struct node *left, *right;
    size_t len;
    uint8_t bytes[];
};

static struct node *made(size_t room) {
    struct node *node = calloc(1, sizeof *node + room);
    if (node == NULL)
        abort();
    return node;
}

static struct node *leaf(const void *bytes, size_t len) {
    struct node *node = made(len);
    node->len = len;
    if (len > 0)
        memcpy(node->bytes, bytes, len);
    return node;
}

static struct node *joined(struct node *left, struct node *right) {
    struct node *node = made(0);
    node->left = left;
    node->right = right;
    node->len = left->len + right->len;
    return node;
}

static void drop(struct node *node) {
    if (node == NULL)
        return;
    drop(node->left);
    drop(node->right);
    free(node);
}

/* Cuts a rope, which is used up, before the byte `at`. */
static void split(struct node *node, size_t at, struct node **left, struct node **right) {
    if (node->left == NULL) {
        *left = leaf(node->bytes, at);
        *right = leaf(node->bytes + at, node->len - at);
    } else if (at < node->left->len) {
        struct node *rest;
        split(node->left, at, left, &rest);
        *right = joined(rest, node->right);
    } else {
        struct node *rest;
        split(node->right, at - node->left->len, &rest, right);
        *left = joined(node->left, rest);
    }
    free(node);
}

/* Puts a text in place of `removed` bytes from `at` on. */
static struct node *edited(struct node *rope, size_t at, size_t removed, const char *text) {
    struct node *before, *middle, *after;
    split(rope, at, &before, &after);
    split(after, removed, &middle, &after);
    drop(middle);
    return joined(joined(before, leaf(text, strlen(text))), after);
}

/* Lists the leaves from left to right, and answers how many there are then. An empty leaf has a place to point at, too. */
static size_t leaves(const struct node *node, struct zf_bytes *chunks, size_t count) {
    if (node->left != NULL)
        return leaves(node->right, chunks, leaves(node->left, chunks, count));
    if (count == MOST_LEAVES)
        abort();
    chunks[count].bytes = node->bytes;
    chunks[count].len = node->len;
    return count + 1;
}

/* Prints the next matches, at most a batch, and answers where the search after them begins. */
static size_t print_batch(const char *what, struct zf_handle *handle, const struct node *rope) {
    struct zf_bytes chunks[MOST_LEAVES];
    struct zf_match batch[BATCH];
    struct zf_progress progress = {0, 0};
    size_t count = leaves(rope, chunks, 0);
    uint32_t status = zf_next(handle, chunks, count, ZF_NONE, batch, BATCH, &progress);
    printf("%s, in %zu leaves: status %u", what, count, status);
    for (size_t i = 0; i < progress.count; i++)
        printf(" %zu..%zu", batch[i].start, batch[i].end);
    printf("\n");
    return progress.next;
}

int main(void) {
    const struct zf_bytes pattern = {(const uint8_t *)"[a-z]+", 6};
    const struct zf_settings settings = {0};
    struct zf_handle words = {0};
    struct zf_refused refused;
    if (zf_compile(&words, &pattern, 1, &settings, sizeof settings, &refused) != ZF_DONE)
        return 1;
    struct node *rope = joined(joined(leaf("one t", 5), leaf("", 0)), joined(leaf("wo thr", 6), leaf("ee four five six", 16)));
    size_t next = print_batch("the first words", &words, rope);

    /* Behind the place at which the iteration stands: it goes on. */
    rope = edited(rope, 19, 4, "5 fi-ve");
    print_batch("those behind an edit", &words, rope);

    /* Before the place: the place moves with the text. */
    rope = edited(rope, 0, 3, "zero");
    zf_restart(&words, next + 1, 1);
    print_batch("those from the place that moved", &words, rope);

    zf_restart(&words, 0, 0);
    print_batch("from the start", &words, rope);
    drop(rope);
    zf_free(&words);
    return 0;
}
