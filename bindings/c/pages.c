/* Prints where a pattern matches in a file, which is read in pages. The pages stay where they were read; no line or match has to lie in one.
 *
 * usage: pages PATTERN FILE PAGE      PAGE: the length of a page, in bytes */
#include "../../include/zorfelith.h"
#include <stdio.h>
#include <stdlib.h>
#include <string.h>

enum { BATCH = 256, MOST_PAGES = 1 << 20 };

/* Reads the file in pages, and answers how many there are. */
static size_t read_pages(FILE *file, size_t page, struct zf_bytes *pages) {
    size_t count = 0;
    while (count < MOST_PAGES) {
        uint8_t *bytes = malloc(page);
        if (bytes == NULL)
            abort();
        size_t len = fread(bytes, 1, page, file);
        if (len == 0) {
            free(bytes);
            break;
        }
        pages[count].bytes = bytes;
        pages[count++].len = len;
    }
    return count;
}

static uint32_t print_matches(struct zf_handle *handle, const struct zf_bytes *pages, size_t count) {
    static struct zf_match batch[BATCH];
    struct zf_progress progress = {0, 0};
    do {
        uint32_t status = zf_next(handle, pages, count, ZF_NONE, batch, BATCH, &progress);
        if (status != ZF_DONE)
            return status;
        for (size_t i = 0; i < progress.count; i++)
            printf("%zu..%zu\n", batch[i].start, batch[i].end);
    } while (progress.count == BATCH);
    return ZF_DONE;
}

int main(int argc, char **argv) {
    if (argc != 4)
        return 2;
    const struct zf_bytes pattern = {(const uint8_t *)argv[1], strlen(argv[1])};
    const struct zf_settings settings = {.multi_line = 1};
    struct zf_handle handle = {0};
    struct zf_refused refused;
    size_t page = strtoul(argv[3], NULL, 10);
    FILE *file = fopen(argv[2], "rb");
    struct zf_bytes *pages = malloc(MOST_PAGES * sizeof *pages);
    if (file == NULL || pages == NULL || page == 0)
        return 2;
    if (zf_compile(&handle, &pattern, 1, &settings, sizeof settings, &refused) != ZF_DONE) {
        fprintf(stderr, "refused: status %u, byte %zu\n", refused.status, refused.at);
        return 2;
    }
    size_t count = read_pages(file, page, pages);
    fclose(file);
    uint32_t status = print_matches(&handle, pages, count);
    zf_free(&handle);
    for (size_t i = 0; i < count; i++)
        free((void *)pages[i].bytes);
    free(pages);
    return status == ZF_DONE ? 0 : 1;
}
