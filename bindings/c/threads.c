/* Two threads, each with a handle of its own and a stack of 256 KiB, compile patterns that are nested 250 levels deep, and search one text. Then
 * four threads search by handles that share what one compiled, each with a live list of its own; each handle is made by the first thread, and
 * freed by the one that got it. It prints what each found. scripts/bindings runs it under helgrind and drd, which report data that two
 * threads reach without an order.
 *
 * usage: threads           does all that
 *        threads copied    uses one handle in two threads at once, which no caller may do: helgrind has to see it */
#include "../../include/zorfelith.h"
#include <pthread.h>
#include <stdio.h>
#include <string.h>

enum { LEVELS = 250, STACK = 256 * 1024, ROUNDS = 20 };

static const struct zf_bytes text[3] = {{(const uint8_t *)"xxa", 3}, {(const uint8_t *)"ab", 2}, {(const uint8_t *)"x", 1}};

struct work {
    char letter;
    uint32_t status;
    struct zf_match found;
};

/* Compiles, searches and frees, again and again, for a letter in groups. */
static void *run(void *given) {
    struct work *work = given;
    char pattern[2 * LEVELS + 1];
    memset(pattern, '(', LEVELS);
    pattern[LEVELS] = work->letter;
    memset(pattern + LEVELS + 1, ')', LEVELS);
    const struct zf_bytes bytes = {(const uint8_t *)pattern, sizeof pattern};
    const struct zf_settings settings = {0};
    for (int round = 0; round < ROUNDS; round++) {
        struct zf_handle handle = {0};
        struct zf_refused refused;
        struct zf_group groups[LEVELS + 1];
        work->status = zf_compile(&handle, &bytes, 1, &settings, sizeof settings, &refused);
        if (work->status == ZF_DONE)
            work->status = zf_find_groups(&handle, text, 3, 0, ZF_NONE, &work->found, groups, LEVELS + 1);
        if (work->status == ZF_FOUND && groups[LEVELS].start != work->found.start)
            work->status = ZF_ABSENT;
        zf_free(&handle);
    }
    return NULL;
}

enum { SHARES = 4 };

struct share {
    struct zf_handle handle;
    size_t count;
    size_t listed;
    uint32_t status;
};

/* Goes over the text again and again by a handle that shares its patterns, keeps a list, and frees the handle. */
static void *run_share(void *given) {
    struct share *share = given;
    const struct zf_bytes edited[1] = {{(const uint8_t *)"xxaabx1", 7}};
    struct zf_match batch[8], found;
    struct zf_group groups[2];
    struct zf_progress progress;
    struct zf_change change;
    size_t len = 0;
    for (int round = 0; round < ROUNDS; round++) {
        share->status = zf_restart(&share->handle, 0, 0);
        if (share->status == ZF_DONE)
            share->status = zf_next(&share->handle, text, 3, ZF_NONE, batch, 8, &progress);
        if (share->status == ZF_DONE)
            share->status = zf_find_groups(&share->handle, text, 3, 0, ZF_NONE, &found, groups, 2);
        if (share->status == ZF_FOUND)
            share->status = zf_live_new(&share->handle, text, 3);
        if (share->status == ZF_DONE)
            share->status = zf_live_edit(&share->handle, 6, 6, 1, edited, 1, &change);
        if (share->status == ZF_DONE)
            share->status = zf_live_len(&share->handle, &len);
        share->count += progress.count;
        share->listed += len;
    }
    zf_free(&share->handle);
    return NULL;
}

/* Compiles once, and hands a share to each thread. */
static int shared(void) {
    const struct zf_bytes pattern = {(const uint8_t *)"(?i)[a-z]|\\d", 12};
    const struct zf_settings settings = {0};
    static struct share shares[SHARES];
    struct zf_handle handle = {0};
    struct zf_refused refused;
    pthread_t threads[SHARES];
    if (zf_compile(&handle, &pattern, 1, &settings, sizeof settings, &refused) != ZF_DONE)
        return 1;
    for (int i = 0; i < SHARES; i++) {
        if (zf_share(&handle, &shares[i].handle) != ZF_DONE || pthread_create(&threads[i], NULL, run_share, &shares[i]) != 0)
            return 1;
        if (i == SHARES / 2)
            zf_free(&handle), zf_compile(&handle, &pattern, 1, &settings, sizeof settings, &refused);
    }
    zf_free(&handle);
    for (int i = 0; i < SHARES; i++) {
        pthread_join(threads[i], NULL);
        printf("share %d: status %u, %zu matches, %zu listed\n", i, shares[i].status, shares[i].count, shares[i].listed);
    }
    return 0;
}

/* Goes over the text again and again. */
static void *run_copied(void *handle) {
    struct zf_match found;
    struct zf_group groups[1];
    for (int round = 0; round < ROUNDS; round++) {
        zf_restart(handle, 0, 0);
        zf_find_groups(handle, text, 3, 0, ZF_NONE, &found, groups, 1);
    }
    return NULL;
}

/* A handle and a copy of it, at once. */
static int copied(void) {
    const struct zf_bytes pattern = {(const uint8_t *)"a[ab]x?", 7};
    const struct zf_settings settings = {0};
    struct zf_handle handle = {0}, copy;
    struct zf_refused refused;
    pthread_t threads[2];
    if (zf_compile(&handle, &pattern, 1, &settings, sizeof settings, &refused) != ZF_DONE)
        return 1;
    copy = handle;
    if (pthread_create(&threads[0], NULL, run_copied, &handle) != 0 || pthread_create(&threads[1], NULL, run_copied, &copy) != 0)
        return 1;
    pthread_join(threads[0], NULL);
    pthread_join(threads[1], NULL);
    zf_free(&handle);
    return 0;
}

int main(int argc, char **argv) {
    if (argc > 1 && strcmp(argv[1], "copied") == 0)
        return copied();
    struct work works[2] = {{.letter = 'a'}, {.letter = 'b'}};
    pthread_t threads[2];
    pthread_attr_t attributes;
    if (pthread_attr_init(&attributes) != 0 || pthread_attr_setstacksize(&attributes, STACK) != 0)
        return 1;
    for (int i = 0; i < 2; i++)
        if (pthread_create(&threads[i], &attributes, run, &works[i]) != 0)
            return 1;
    for (int i = 0; i < 2; i++) {
        pthread_join(threads[i], NULL);
        printf("%c: status %u, %zu..%zu\n", works[i].letter, works[i].status, works[i].found.start, works[i].found.end);
    }
    return shared();
}
