/*
 * A table in flash is swapped for a new one: that is written beside it, the old one is unlinked, and the new one takes its name. Power may be
 * lost after each call: printed is what a reader finds then, and what a start does about it, on a copy. Status 1 at the first surprise.
 *
 *     cc -std=c11 -Iinclude examples/swap_table.c target/staticlib/libnffs.a -o swap_table
 */
#include "nffs.h"

#include <inttypes.h>
#include <stdbool.h>
#include <stdio.h>
#include <stdlib.h>
#include <string.h>

enum { AREA = 4096, AREAS = 2, IMAGE = AREAS * AREA, ROOM = 64 };

/* One base serves both names. */
static const char *const HOME = "/dose";
static const char *const TABLE = "table";
static const char *const FRESH = "table.new";
/* A table begins with its number, which goes up with each update, and ends with a dot: one without a dot is a part. */
static const char *const OLD = "1: 0 5 10 20 40.";
static const char *const NEW = "2: 0 4 9 18 36.";
enum { HALF = 8 };

static const nffs_area areas[AREAS] = {{0, AREA}, {AREA, AREA}};

/* The calls of an update in their order, and the one that a start needs besides. */
enum { CREATE, BEGIN, END, UNLINK, RENAME, DROP };
static const char *const STEPS[] = {"create table.new", "append to table.new", "append to table.new", "unlink table", "rename table.new to table"};

/* Says how a step ended; false where it was refused. */
static bool done(const char *step, uint32_t number) {
    if (number != NFFS_OK) {
        printf("%s: refused with %" PRIu32 ", %s\n", step, number, nffs_meaning(number));
        return false;
    }
    printf("%s: done\n", step);
    return true;
}

/* What is found under a name: the number of its read or of what refused it, then the text. One that fills the buffer may go on behind it. */
typedef struct found {
    uint32_t number;
    size_t length;
    char text[ROOM + 1];
} found;

static found load(const nffs_volume *flash, const char *name) {
    found it = {0};
    nffs_handle file;
    it.number = nffs_volume_open(flash, HOME, name, &file);
    if (it.number == NFFS_OK) {
        const nffs_read_answer read = nffs_volume_read(flash, &file, it.text, ROOM);
        it.number = read.number;
        it.length = read.given;
    }
    return it;
}

static void show(const nffs_volume *flash, const char *name) {
    const found it = load(flash, name);
    if (it.number != NFFS_OK) {
        printf("    %s: refused with %" PRIu32 "\n", name, it.number);
    } else {
        printf("    %s: \"%s\"\n", name, it.text);
    }
}

static bool too_long(const found *it) {
    return it->length == ROOM;
}

/* The number of a table that is whole: digits, ": ", and a dot at the end. 0 of any other. */
static uint32_t whole(const found *it) {
    const size_t digits = strspn(it->text, "0123456789");
    if (digits == 0 || digits > 9 || too_long(it) || strncmp(it->text + digits, ": ", 2) != 0 || it->text[it->length - 1] != '.') {
        return 0;
    }
    return (uint32_t)strtoul(it->text, NULL, 10);
}

/* Whether there is a part of a table: neither whole nor too long. */
static bool part(const found *it) {
    return it->number == NFFS_OK && !too_long(it) && whole(it) == 0;
}

/* Whether no damage is counted and no area passed over. What comes back stale is not seen. */
static bool sound(const nffs_volume *flash) {
    const nffs_report_answer report = nffs_volume_report(flash);
    bool is = report.number == NFFS_OK && report.stretches == 0;
    for (uint32_t i = 0; is && i < flash->areas_count; i++) {
        is = nffs_volume_area_report(flash, i, 0).kind != NFFS_AREA_PASSED_OVER;
    }
    return is;
}

/* Whether the unlink and the rename will both have room: one clean file area holds both records, or two hold the longer one each, since the
   shorter may go into either. If not it collects, as often as there are areas. */
static bool room(const nffs_volume *flash) {
    const size_t deletion = 20, renamed = 20 + strlen(TABLE);
    for (size_t collected = 0;; collected++) {
        unsigned records = 0;
        for (uint32_t i = 0; i < flash->areas_count; i++) {
            const nffs_area_answer area = nffs_volume_area_report(flash, i, 0);
            if (area.kind == NFFS_AREA_FILE && area.stretches == 0) {
                records += area.free >= deletion + renamed ? 2 : area.free >= renamed ? 1 : 0;
            }
        }
        if (records >= 2 || collected == flash->areas_count || nffs_volume_collect(flash) != NFFS_OK) {
            return records >= 2;
        }
    }
}

static uint32_t call(const nffs_volume *flash, int k, const char *text) {
    switch (k) {
    case CREATE: return nffs_volume_create(flash, HOME, FRESH, NFFS_FILE).number;
    case BEGIN: return nffs_volume_append(flash, HOME, FRESH, text, HALF);
    case END: return nffs_volume_append(flash, HOME, FRESH, text + HALF, strlen(text) - HALF);
    case UNLINK: return nffs_volume_unlink(flash, HOME, TABLE);
    case RENAME: return nffs_volume_rename(flash, HOME, FRESH, TABLE);
    default: return nffs_volume_unlink(flash, HOME, FRESH);
    }
}

/* Makes a call. Where there is no room it collects and calls again, as often as there are areas. */
static uint32_t settle(const nffs_volume *flash, int k, const char *text) {
    for (size_t collected = 0;; collected++) {
        const uint32_t number = call(flash, k, text);
        if (number != NFFS_NO_ROOM || collected == flash->areas_count || nffs_volume_collect(flash) != NFFS_OK) {
            return number;
        }
    }
}

/* A start that does not know what to do says what it sees. */
static void tell(const char *name, const found *it) {
    if (it->number != NFFS_OK) {
        printf(" %s is refused with %" PRIu32, name, it->number);
    } else if (too_long(it)) {
        printf(" %s is too long for this program", name);
    } else if (part(it)) {
        printf(" %s is a part", name);
    } else {
        printf(" %s is whole, number %" PRIu32, name, whole(it));
    }
}

/* What a firmware does at its start, before it uses the table. False where somebody has to look. */
static bool start(const nffs_volume *flash) {
    if (!sound(flash)) {
        printf("    a start changes nothing: the flash is damaged\n");
        return false;
    }
    const found table = load(flash, TABLE), fresh = load(flash, FRESH);
    if (whole(&table) > 0 && fresh.number == NFFS_NOT_FOUND) {
        printf("    a start has nothing to do\n");
        return true;
    }
    if (whole(&table) > 0 && whole(&fresh) > whole(&table)) {
        if (!room(flash)) {
            printf("    a start unlinks nothing: there is no room for the rename\n");
            return false;
        }
        printf("    a start unlinks table and renames table.new: that is whole and newer\n");
        return settle(flash, UNLINK, NULL) == NFFS_OK && settle(flash, RENAME, NULL) == NFFS_OK;
    }
    if (whole(&table) > 0 && part(&fresh)) {
        printf("    a start unlinks table.new: that is a part\n");
        return settle(flash, DROP, NULL) == NFFS_OK;
    }
    if (table.number == NFFS_NOT_FOUND && whole(&fresh) > 0) {
        printf("    a start renames table.new: that is whole\n");
        return settle(flash, RENAME, NULL) == NFFS_OK;
    }
    printf("    a start changes nothing:");
    tell(TABLE, &table);
    printf(",");
    tell(FRESH, &fresh);
    printf("\n");
    return false;
}

/* Power is lost here: what is found, and whether a start leaves the one table that is right; none: it changes nothing. */
static bool cut(const nffs_volume *flash, const char *right) {
    static uint8_t copy[IMAGE];
    const nffs_volume later = {memcpy(copy, flash->image, IMAGE), IMAGE, areas, AREAS};
    show(flash, TABLE);
    show(flash, FRESH);
    const bool started = start(&later);
    if (right == NULL) {
        return !started && memcmp(copy, flash->image, IMAGE) == 0;
    }
    const found table = load(&later, TABLE);
    printf("    then table: \"%s\"\n", table.text);
    return started && strcmp(table.text, right) == 0 && load(&later, FRESH).number == NFFS_NOT_FOUND;
}

/* An update, call by call, to a table from an old one; none: the first table, for which there is nothing to unlink. */
static bool update(const nffs_volume *flash, const char *text, const char *old) {
    bool good = sound(flash);
    if (!good) {
        printf("an update changes nothing: the flash is damaged\n");
    }
    for (int k = CREATE; good && k <= RENAME; k++) {
        if (k == UNLINK && old == NULL) {
            continue;
        }
        if (k == UNLINK && !room(flash)) {
            printf("an update unlinks nothing: there is no room for the rename\n");
            return false;
        }
        good = done(STEPS[k], settle(flash, k, text)) && cut(flash, k < END ? old : text);
    }
    return good;
}

int main(void) {
    static uint8_t image[IMAGE];
    const nffs_volume flash = {image, sizeof image, areas, AREAS};
    const bool good = done("format", nffs_volume_format(&flash)) &&
                      done("create directory", nffs_volume_create(&flash, NULL, HOME, NFFS_DIRECTORY).number) &&
                      update(&flash, OLD, NULL) && update(&flash, NEW, OLD);
    uint32_t sum = 0;
    for (size_t i = 0; i < sizeof image; i++) {
        sum = 31 * sum + image[i];
    }
    printf("sum of the image: %08" PRIx32 "\n", sum);
    return good ? 0 : 1;
}
