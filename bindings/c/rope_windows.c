/* A rope is searched by windows, so that no list of all its leaves is made: each call is handed a few leaves. It prints the matches of patterns
 * that lie across leaves, how many leaves were read for them, and the text with one match replaced. */
#include "../../include/zorfelith.h"
#include <stdio.h>
#include <stdlib.h>
#include <string.h>

enum { MOST = 64 };

/* A leaf has bytes and no children; any other node has two children. */
struct node {
    const struct node *left, *right;
    const char *bytes;
    size_t len;
};

/* The leaf with the byte `at` of the rope, or the last one, and where it begins. */
static const struct node *leaf_at(const struct node *node, size_t at, size_t *begin) {
    for (*begin = 0; node->left != NULL;) {
        if (at - *begin < node->left->len) {
            node = node->left;
        } else {
            *begin += node->left->len;
            node = node->right;
        }
    }
    return node;
}

/* Lists at most so many leaves, beginning with the one that has the byte `at`, as a window. Answers how many these are. */
static size_t leaves_from(const struct node *rope, size_t at, size_t most, struct zf_bytes *chunks, struct zf_window *window) {
    size_t count = 0, begin;
    leaf_at(rope, at, &window->start);
    for (size_t place = window->start; count < most && place < rope->len; count++) {
        const struct node *leaf = leaf_at(rope, place, &begin);
        chunks[count] = zf_bytes_of(leaf->bytes, leaf->len);
        place = begin + leaf->len;
        window->is_last = place == rope->len;
    }
    return count;
}

/* The match from `from` on, by windows of two leaves, or of twice as many where these don't tell. Adds to `read` how many leaves were handed. */
static uint32_t find(struct zf_handle *handle, const struct node *rope, size_t from, struct zf_match *found, size_t *read) {
    struct zf_bytes chunks[MOST];
    struct zf_window window = {0, 0};
    uint32_t status = ZF_MORE_AFTER;
    for (size_t most = 2; status == ZF_MORE_AFTER && most <= MOST;) {
        const size_t before = from;
        const size_t count = leaves_from(rope, from < 4 ? 0 : from - 4, most, chunks, &window);
        status = zf_window_find(handle, chunks, count, &window, &from, ZF_NONE, found);
        *read += count;
        most = from == before ? 2 * most : 2;
    }
    return status;
}

/* Prints all matches, and how many leaves were handed for them. */
static int print_all(const char *pattern, const struct node *rope) {
    const struct zf_bytes bytes = zf_bytes_of(pattern, strlen(pattern));
    const struct zf_settings settings = {0};
    struct zf_handle handle = {0};
    struct zf_refused refused;
    struct zf_match found;
    size_t read = 0, from = 0, last = ZF_NONE;
    uint32_t status;
    if (zf_compile(&handle, &bytes, 1, &settings, sizeof settings, &refused) != ZF_DONE)
        return 1;
    printf("%s:", pattern);
    while ((status = find(&handle, rope, from, &found, &read)) == ZF_FOUND) {
        /* An empty match that ends where the one before ended gives way to the next. */
        if (found.start == found.end && found.end == last) {
            from += 1;
            last = ZF_NONE;
            continue;
        }
        printf(" %zu..%zu", found.start, found.end);
        from = last = found.end;
    }
    printf(", status %u, %zu leaves\n", status, read);
    zf_free(&handle);
    return status > ZF_FOUND && status != ZF_OUTSIDE;
}

int main(void) {
    const struct node leaves[8] = {{NULL, NULL, "one t", 5},   {NULL, NULL, "wo thr", 6}, {NULL, NULL, "ee \xe6\x9d", 5}, {NULL, NULL, "\xb1 fo", 4},
                                   {NULL, NULL, "ur five", 7}, {NULL, NULL, " s", 2},     {NULL, NULL, "ix", 2},          {NULL, NULL, " seven", 6}};
    struct node inner[8];
    for (size_t i = 1; i < 8; i++) {
        const struct node *left = i < 4 ? &inner[2 * i] : &leaves[2 * i - 8];
        const struct node *right = i < 4 ? &inner[2 * i + 1] : &leaves[2 * i - 7];
        inner[i] = (struct node){left, right, NULL, 0};
    }
    for (size_t i = 7; i > 0; i--)
        inner[i].len = inner[i].left->len + inner[i].right->len;
    int wrong = 0;
    wrong |= print_all("[a-z]+", &inner[1]);
    wrong |= print_all("\\b[^ a-z]+\\b", &inner[1]);
    wrong |= print_all("f[a-z]*", &inner[1]);
    wrong |= print_all("(?-u:\\b)|x", &inner[1]);
    wrong |= print_all("seven$", &inner[1]);
    wrong |= print_all("nowhere", &inner[1]);
    return wrong;
}
