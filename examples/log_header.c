/*
 * A log in flash whose header counts its entries. An entry is appended first, and then the header is rewritten in place: so it never counts an
 * entry that is not there yet. Power may be lost after each call: printed is what a reader finds then, and what a start does about it, on a
 * copy. Status 1 at the first surprise.
 *
 *     cc -std=c11 -Iinclude examples/log_header.c target/staticlib/libnffs.a -o log_header
 */
#include "nffs.h"

#include <inttypes.h>
#include <stdbool.h>
#include <stdio.h>
#include <stdlib.h>
#include <string.h>

enum { AREA = 4096, AREAS = 2, IMAGE = AREAS * AREA, ENTRIES = 90 };

/* The header is appended alone, so that it is a block of its own: rewriting it stores one record, of 24 bytes and its length. */
static const char *const LOG = "/log";
static const char *const HEADER = "entries 0000\n";
enum { COUNT_AT = 8, COUNT_DIGITS = 4, HEADER_BYTES = 13, ENTRY_BYTES = 16 };

static const nffs_area areas[AREAS] = {{0, AREA}, {AREA, AREA}};

/* The calls that write. */
enum { CREATE, APPEND, REWRITE };

/* Says how a step ended; false where it was refused. */
static bool done(const char *step, uint32_t number) {
    if (number != NFFS_OK) {
        printf("%s: refused with %" PRIu32 ", %s\n", step, number, nffs_meaning(number));
        return false;
    }
    printf("%s: done\n", step);
    return true;
}

/* What a reader finds: the number of its read or of what refused it, the bytes, whether they are a header with whole entries behind it, what the
   header counts, and how many entries there are. */
typedef struct found {
    uint32_t number;
    uint32_t length;
    bool whole;
    uint32_t counted;
    uint32_t there;
} found;

static found load(const nffs_volume *flash) {
    found it = {0};
    nffs_handle file;
    /* an area holds no longer file */
    char text[AREA];
    it.number = nffs_volume_open(flash, NULL, LOG, &file);
    if (it.number != NFFS_OK) {
        return it;
    }
    const nffs_read_answer read = nffs_volume_read(flash, &file, text, sizeof text);
    it.number = read.number;
    it.length = read.given;
    if (it.length >= HEADER_BYTES && memcmp(text, HEADER, COUNT_AT) == 0 && text[HEADER_BYTES - 1] == '\n') {
        it.whole = strspn(text + COUNT_AT, "0123456789") == COUNT_DIGITS && (it.length - HEADER_BYTES) % ENTRY_BYTES == 0;
        it.counted = (uint32_t)strtoul(text + COUNT_AT, NULL, 10);
        it.there = (it.length - HEADER_BYTES) / ENTRY_BYTES;
    }
    return it;
}

static void show(const found *it) {
    if (it->number != NFFS_OK) {
        printf("    the log is refused with %" PRIu32 "\n", it->number);
    } else if (!it->whole) {
        printf("    %" PRIu32 " bytes, no log\n", it->length);
    } else {
        printf("    counted %" PRIu32 ", there %" PRIu32 "\n", it->counted, it->there);
    }
}

/* Whether no damage is counted and no area passed over. What comes back stale is not seen. */
static bool sound(const nffs_volume *flash) {
    const nffs_report_answer report = nffs_volume_report(flash);
    bool is = report.number == NFFS_OK && report.stretches == 0;
    for (uint32_t i = 0; is && i < flash->areas_count; i++) {
        is = nffs_volume_area_report(flash, i, 0).kind != NFFS_AREA_PASSED_OVER;
    }
    return is;
}

static uint32_t call(const nffs_volume *flash, int k, const char *text) {
    switch (k) {
    case CREATE: return nffs_volume_create(flash, NULL, LOG, NFFS_FILE).number;
    case APPEND: return nffs_volume_append(flash, NULL, LOG, text, strlen(text));
    default: return nffs_volume_overwrite(flash, NULL, LOG, COUNT_AT, text, COUNT_DIGITS);
    }
}

/* Makes a call. Where there is no room it collects and calls again, as often as there are areas; so often it collected in all. */
static unsigned collections;

static uint32_t settle(const nffs_volume *flash, int k, const char *text) {
    for (size_t collected = 0;; collected++) {
        const uint32_t number = call(flash, k, text);
        if (number != NFFS_NO_ROOM || collected == flash->areas_count || nffs_volume_collect(flash) != NFFS_OK) {
            return number;
        }
        collections++;
    }
}

static uint32_t append_entry(const nffs_volume *flash, uint32_t n) {
    char entry[ENTRY_BYTES + 1];
    snprintf(entry, sizeof entry, "%04" PRIu32 " started   \n", n % 10000);
    return settle(flash, APPEND, entry);
}

static uint32_t rewrite_header(const nffs_volume *flash, uint32_t n) {
    char count[COUNT_DIGITS + 1];
    snprintf(count, sizeof count, "%04" PRIu32, n % 10000);
    return settle(flash, REWRITE, count);
}

/* What a firmware does at its start, before it uses the log. False where somebody has to look. */
static bool start(const nffs_volume *flash) {
    const found log = load(flash);
    if (!sound(flash)) {
        printf("    a start changes nothing: the flash is damaged\n");
        return false;
    }
    if (log.number == NFFS_OK && log.length == 0) {
        printf("    a start appends the header\n");
        return settle(flash, APPEND, HEADER) == NFFS_OK;
    }
    if (!log.whole || log.counted > log.there) {
        printf("    a start changes nothing: there is no whole log\n");
        return false;
    }
    if (log.counted < log.there) {
        printf("    a start counts %" PRIu32 "\n", log.there);
        return rewrite_header(flash, log.there) == NFFS_OK;
    }
    printf("    a start has nothing to do\n");
    return true;
}

/* Power is lost here: what is found, and whether a start leaves a log whose header counts what is there. */
static bool cut(const nffs_volume *flash, uint32_t right) {
    static uint8_t copy[IMAGE];
    const nffs_volume later = {memcpy(copy, flash->image, IMAGE), IMAGE, areas, AREAS};
    found log = load(flash);
    show(&log);
    const bool started = start(&later);
    log = load(&later);
    return started && log.whole && log.counted == right && log.there == right;
}

static bool enter(const nffs_volume *flash, uint32_t n) {
    return done("append entry", append_entry(flash, n)) && cut(flash, n) && done("rewrite header", rewrite_header(flash, n)) && cut(flash, n);
}

int main(void) {
    static uint8_t image[IMAGE];
    const nffs_volume flash = {image, sizeof image, areas, AREAS};
    bool good = done("format", nffs_volume_format(&flash)) && done("create log", settle(&flash, CREATE, NULL)) && cut(&flash, 0) &&
                done("append header", settle(&flash, APPEND, HEADER)) && cut(&flash, 0) && enter(&flash, 1) && enter(&flash, 2);
    for (uint32_t n = 3; good && n <= ENTRIES; n++) {
        good = append_entry(&flash, n) == NFFS_OK && rewrite_header(&flash, n) == NFFS_OK;
    }
    /* a header that was rewritten keeps its room until a collection */
    printf("up to entry %d, collections: %u\n", ENTRIES, collections);
    good = good && cut(&flash, ENTRIES);
    uint32_t sum = 0;
    for (size_t i = 0; i < sizeof image; i++) {
        sum = 31 * sum + image[i];
    }
    printf("sum of the image: %08" PRIx32 "\n", sum);
    return good ? 0 : 1;
}
