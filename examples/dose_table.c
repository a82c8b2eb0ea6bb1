/*
 * A dose table kept in flash: formatted, stored, updated, collected and read back. Prints what happens; status 1 at the first surprise.
 *
 *     cc -std=c11 -Iinclude examples/dose_table.c target/staticlib/libnffs.a -o dose_table
 */
#include "nffs.h"

#include <inttypes.h>
#include <stdbool.h>
#include <stdio.h>
#include <string.h>

enum { ROWS = 12, ROW_BYTES = 8, TABLE_BYTES = ROWS * ROW_BYTES };

/* The path is kept by the program; a base would let it be relative. */
static const char *const TABLE = "/dose/table";

static void put_number(uint8_t *at, uint32_t value) {
    for (int i = 0; i < 4; i++) {
        at[i] = (uint8_t)(value >> (8 * i));
    }
}

/* Rows of energy and dose, low byte first, so that the bytes in flash do not depend on the machine that wrote them. */
static void fill_table(uint8_t table[TABLE_BYTES], uint32_t revision) {
    for (uint32_t row = 0; row < ROWS; row++) {
        put_number(table + row * ROW_BYTES, 50 + 10 * row);
        put_number(table + row * ROW_BYTES + 4, 1000 * revision + 7 * row * row);
    }
}

/* Says how a step ended; false where it was refused. */
static bool done(const char *step, uint32_t number) {
    if (number != NFFS_OK) {
        printf("%s: refused with %" PRIu32 ", %s\n", step, number, nffs_meaning(number));
        return false;
    }
    printf("%s: %s\n", step, nffs_meaning(number));
    return true;
}

static bool store(const nffs_volume *flash, const uint8_t table[TABLE_BYTES]) {
    return done("create", nffs_volume_create(flash, NULL, TABLE, NFFS_FILE).number) &&
           done("append", nffs_volume_append(flash, NULL, TABLE, table, TABLE_BYTES));
}

/* Reads the table in portions, to show that the handle moves, and compares it. */
static bool reads_as(const nffs_volume *flash, const uint8_t table[TABLE_BYTES]) {
    nffs_handle file;
    if (!done("open", nffs_volume_open(flash, NULL, TABLE, &file))) {
        return false;
    }
    uint8_t portion[40];
    size_t size = 0;
    for (;;) {
        const nffs_read_answer read = nffs_volume_read(flash, &file, portion, sizeof portion);
        if (read.number != NFFS_OK) {
            return done("read", read.number);
        }
        if (read.given == 0) {
            break;
        }
        if (read.given > TABLE_BYTES - size || memcmp(portion, table + size, read.given) != 0) {
            printf("read: other bytes than were stored\n");
            return false;
        }
        size += read.given;
    }
    printf("read: %zu bytes, as stored\n", size);
    return size == TABLE_BYTES;
}

static bool show(const nffs_volume *flash) {
    const nffs_report_answer report = nffs_volume_report(flash);
    printf("report: inodes %" PRIu32 " live %" PRIu32 " stretches %" PRIu32 " skipped %" PRIu32 " first %" PRIu32 "+%" PRIu32 "\n",
           report.inodes, report.live, report.stretches, report.skipped, report.first_offset, report.first_length);
    return report.number == NFFS_OK;
}

int main(void) {
    static uint8_t image[2 * 4096];
    static const nffs_area areas[] = {{0, 4096}, {4096, 4096}};
    const nffs_volume flash = {image, sizeof image, areas, sizeof areas / sizeof areas[0]};
    uint8_t first[TABLE_BYTES];
    uint8_t second[TABLE_BYTES];
    fill_table(first, 1);
    fill_table(second, 2);

    const bool good = done("format", nffs_volume_format(&flash)) &&
                      done("create directory", nffs_volume_create(&flash, NULL, "/dose", NFFS_DIRECTORY).number) &&
                      store(&flash, first) && reads_as(&flash, first) &&
                      /* the update: the old table goes, and the new one takes its name */
                      done("unlink", nffs_volume_unlink(&flash, NULL, TABLE)) && store(&flash, second) && show(&flash) &&
                      /* the first collection drops the old table's block, the second its inode, which the block still named */
                      done("collect", nffs_volume_collect(&flash)) && show(&flash) &&
                      done("collect", nffs_volume_collect(&flash)) && show(&flash) && reads_as(&flash, second);

    uint32_t sum = 0;
    for (size_t i = 0; i < sizeof image; i++) {
        sum = 31 * sum + image[i];
    }
    printf("sum of the image: %08" PRIx32 "\n", sum);
    return good ? 0 : 1;
}
