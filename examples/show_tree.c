/*
 * What is live in flash, as text: of a new volume, with some files, after one was deleted, and when a byte is worn. Status 1 at the first
 * surprise.
 *
 *     cc -std=c11 -Iinclude examples/show_tree.c target/staticlib/libnffs.a -o show_tree
 */
#include "nffs.h"

#include <inttypes.h>
#include <stdbool.h>
#include <stdio.h>
#include <string.h>

enum { AREA = 4096, AREAS = 2, IMAGE = AREAS * AREA };

static const nffs_area areas[AREAS] = {{0, AREA}, {AREA, AREA}};

/* Says how a step ended; false where it was refused. */
static bool done(const char *step, uint32_t number) {
    if (number != NFFS_OK) {
        printf("%s: refused with %" PRIu32 ", %s\n", step, number, nffs_meaning(number));
        return false;
    }
    printf("%s: done\n", step);
    return true;
}

static bool append(const nffs_volume *flash, const char *path, const char *text) {
    return done("append", nffs_volume_append(flash, NULL, path, text, strlen(text)));
}

static bool store(const nffs_volume *flash, const char *path, const char *text) {
    return done("create", nffs_volume_create(flash, NULL, path, NFFS_FILE).number) && append(flash, path, text);
}

/* Prints the tree; true where it is the right one. Its length is asked for first. It is no C string: no NUL stands behind it. */
static bool show(const nffs_volume *flash, const char *right) {
    static char text[NFFS_TREE_MOST];
    nffs_tree_answer tree = nffs_volume_tree(flash, NULL, 0);
    if (tree.number != NFFS_OK) {
        return done("tree", tree.number);
    }
    printf("tree, %" PRIu32 " bytes:\n", tree.length);
    tree = nffs_volume_tree(flash, text, sizeof text);
    const bool printed = fwrite(text, 1, tree.length, stdout) == tree.length;
    return printed && tree.length == strlen(right) && memcmp(text, right, tree.length) == 0;
}

/* Where the next record goes: the file area is the second. */
static size_t next_place(const nffs_volume *flash) {
    return IMAGE - nffs_volume_area_report(flash, 1, 0).free;
}

static bool run(const nffs_volume *flash) {
    bool good = done("format", nffs_volume_format(flash)) && show(flash, "/\n") &&
                done("create directory", nffs_volume_create(flash, NULL, "/dose", NFFS_DIRECTORY).number) &&
                store(flash, "/dose/table", "0 5 10 20 40") && store(flash, "/dose/old", "0 4 9 18 36") &&
                store(flash, "/log", "pump started\n");
    const size_t first_block_end = next_place(flash);
    good = good && append(flash, "/log", "pump stopped\n") && show(flash, "/\n dose\n  old 11\n  table 12\n log 26\n") &&
           done("unlink", nffs_volume_unlink(flash, NULL, "/dose/old")) && show(flash, "/\n dose\n  table 12\n log 26\n");
    /* without its first block the log is broken */
    printf("a byte is worn\n");
    flash->image[first_block_end - 1] ^= 1;
    return good && show(flash, "/\n dose\n  table 12\n log broken\n");
}

int main(void) {
    static uint8_t image[IMAGE];
    const nffs_volume flash = {image, sizeof image, areas, AREAS};
    const bool good = run(&flash);
    uint32_t sum = 0;
    for (size_t i = 0; i < sizeof image; i++) {
        sum = 31 * sum + image[i];
    }
    printf("sum of the image: %08" PRIx32 "\n", sum);
    return good ? 0 : 1;
}
