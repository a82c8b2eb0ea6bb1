/* What docs/LINKING.md, 10 and 11, says besides its table: what appends use up, how long an area must be for two blocks, areas of several lengths,
   which area is collected, and headers whose reserved byte is not 0. What an area is and how often it was collected is asked of its report. */
#include "nffs.h"

#include <stdio.h>

enum { MOST = 65536, COUNT_AT = 21, RESERVED_AT = 22 };
static uint8_t image[MOST];
static uint8_t data[NFFS_APPEND_MOST];
static nffs_area areas[NFFS_MOST_AREAS];
static unsigned passed, failed;

static void check(const char *words, int good) {
    printf("%s: %s\n", good ? "ok" : "FAILED", words);
    good ? passed++ : failed++;
}

/* what a case stands on; told only where it does not hold */
static void needs(const char *words, int good) {
    if (!good) {
        check(words, 0);
    }
}

/* a formatted volume of areas of these lengths, one behind the other */
static nffs_volume formatted(const uint32_t *lengths, size_t count) {
    uint32_t at = 0;
    for (size_t i = 0; i < count; i++) {
        areas[i] = (nffs_area){at, lengths[i]};
        at += lengths[i];
    }
    const nffs_volume flash = {image, at, areas, count};
    needs("a volume is formatted", nffs_volume_format(&flash) == NFFS_OK);
    return flash;
}

/* whether a new file "/a" takes just so many appends of a size in areas of one length, and what the next is refused with */
static int takes(uint32_t length, size_t count, size_t size, uint32_t expected, uint32_t refused) {
    uint32_t lengths[NFFS_MOST_AREAS], taken = 0, number;
    for (size_t i = 0; i < count; i++) {
        lengths[i] = length;
    }
    const nffs_volume flash = formatted(lengths, count);
    needs("a file is created", nffs_volume_create(&flash, NULL, "/a", NFFS_FILE).number == NFFS_OK);
    while ((number = nffs_volume_append(&flash, NULL, "/a", data, size)) == NFFS_OK) {
        taken++;
    }
    return taken == expected && number == refused;
}

/* collects so often, and counts for each area how often it was its turn; whether the numbers of the first so many were ever more than one apart */
static int in_turn(const nffs_volume *flash, unsigned collections, size_t first, unsigned *turns) {
    int good = 1;
    while (collections-- > 0) {
        good &= nffs_volume_collect(flash) == NFFS_OK;
        for (uint32_t i = 0; i < flash->areas_count; i++) {
            turns[i] += nffs_volume_area_report(flash, i, 0).kind == NFFS_AREA_SCRATCH;
        }
        for (size_t i = 0; i < first * first; i++) {
            good &= turns[i / first] <= turns[i % first] + 1;
        }
    }
    return good;
}

/* areas of one length have their turn, through 255 to 0, and a shorter one does not */
static void turns(void) {
    for (size_t count = 2; count <= 5; count++) {
        unsigned had[6] = {0};
        const nffs_volume flash = formatted((const uint32_t[]){1024, 1024, 1024, 1024, 1024}, count);
        check("after a format each has its turn", in_turn(&flash, 1300, count, had));
    }
    unsigned had[6] = {0};
    const nffs_volume one_short = formatted((const uint32_t[]){1024, 1024, 1024, 512}, 4);
    check("beside a shorter one too", in_turn(&one_short, 1300, 3, had) && had[3] == 0);

    unsigned of_five[6] = {0};
    const nffs_volume apart = formatted((const uint32_t[]){1024, 1024, 1024, 1024, 1024}, 5);
    image[areas[3].offset + COUNT_AT] = 86;
    image[areas[4].offset + COUNT_AT] = 172;
    check("counts of which each is preceded", !in_turn(&apart, 1300, 5, of_five));
    check("keep areas from their turn", of_five[0] == 650 && of_five[1] == 650 && of_five[2] + of_five[3] + of_five[4] == 0);
}

/* an area whose header has a reserved byte other than 0 is passed over, and nothing is stored in it */
static void reserved(void) {
    const nffs_volume flash = formatted((const uint32_t[]){1024, 1024, 1024}, 3);
    image[areas[2].offset + RESERVED_AT] = 1;
    const nffs_area_answer other = nffs_volume_area_report(&flash, 2, 0);
    check("its report says so, and nothing of its header", other.kind == NFFS_AREA_PASSED_OVER && other.id == 0 && other.free == 1000);
    needs("a file is created", nffs_volume_create(&flash, NULL, "/a", NFFS_FILE).number == NFFS_OK);
    check("an area that is passed over has no room", nffs_volume_append(&flash, NULL, "/a", data, 1000) == NFFS_NO_ROOM);
    image[areas[2].offset + RESERVED_AT] = 0;
    check("without the byte it is a file area", nffs_volume_area_report(&flash, 2, 0).kind == NFFS_AREA_FILE);
    check("and one that is not has", nffs_volume_append(&flash, NULL, "/a", data, 1000) == NFFS_OK);
    for (size_t i = 0; i < 2; i++) {
        const nffs_volume pair = formatted((const uint32_t[]){1024, 1024}, 2);
        image[areas[i].offset + RESERVED_AT] = 0x80;
        check("the only file area, or scratch", nffs_volume_report(&pair).number == NFFS_NO_FILE_OR_SCRATCH);
    }
}

int main(void) {
    check("appends of 30 bytes use up the ids", takes(4096, 16, 30, 1024, NFFS_TOO_MANY_IDS));
    check("appends of 40 bytes use up the room", takes(4096, 16, 40, 944, NFFS_NO_ROOM));
    check("the second full block in a pair of areas of 4,144", takes(4144, 2, 2036, 1, NFFS_NO_ROOM));
    check("two blocks of 2,048 and a name of one byte in 4,209", takes(4209, 2, 2048, 2, NFFS_NO_ROOM));
    check("not in 4,208", takes(4208, 2, 2048, 1, NFFS_NO_ROOM));
    check("an append that version 0.2.0 stored as one block", takes(128, 2, 39, 0, NFFS_NO_ROOM));

    const nffs_volume one_long = formatted((const uint32_t[]){4096, 16384, 4096}, 3);
    check("one longer than all others: nothing to collect", nffs_volume_collect(&one_long) == NFFS_NO_SOURCE);

    const nffs_volume one_short = formatted((const uint32_t[]){8192, 8192, 4096, 8192}, 4);
    int good = 1;
    for (int i = 0; i < 12; i++) {
        good &= nffs_volume_collect(&one_short) == NFFS_OK;
    }
    for (uint32_t i = 0; i < 4; i++) {
        good &= nffs_volume_area_report(&one_short, i, 0).count == (i == 2 ? 0 : 4);
    }
    check("a shorter one is never collected", good);
    turns();
    reserved();
    printf("%u passed, %u failed\n", passed, failed);
    return failed != 0;
}
