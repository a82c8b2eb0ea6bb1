/* The start of examples/log_header.c, on what the example does not show: docs/LINKING.md, 13, says what it does. Ends with the count. */
#define main log_header
#include "../../examples/log_header.c"
#undef main

#include "cases.h"

static uint8_t bytes[IMAGE], before[IMAGE], later[IMAGE];
static const nffs_volume volume = {bytes, IMAGE, areas, AREAS};
enum { BLOCK = 24, REWRITTEN = BLOCK + HEADER_BYTES, ENTERED = BLOCK + ENTRY_BYTES };

/* Where free space begins in the file area, which is scratch's after each collection. */
static size_t free_from(void) {
    const uint32_t index = nffs_volume_area_report(&volume, 0, 0).kind == NFFS_AREA_FILE ? 0 : 1;
    return areas[index].offset + AREA - nffs_volume_area_report(&volume, index, 0).free;
}

static bool is(uint32_t counted_now, uint32_t there) {
    const found log = load(&volume);
    return log.number == NFFS_OK && log.whole && log.counted == counted_now && log.there == there;
}

/* The start tells that somebody has to look, and changes nothing. */
static bool refrains(void) {
    memcpy(later, bytes, IMAGE);
    return !start(&volume) && memcmp(later, bytes, IMAGE) == 0;
}

static void fresh(void) {
    NEED(nffs_volume_format(&volume) == NFFS_OK && nffs_volume_create(&volume, NULL, LOG, NFFS_FILE).number == NFFS_OK);
}

/* A log of some entries, and `before` its image before the last header was rewritten. */
static void entered(uint32_t count) {
    fresh();
    NEED(settle(&volume, APPEND, HEADER) == NFFS_OK);
    for (uint32_t n = 1; n <= count; n++) {
        NEED(append_entry(&volume, n) == NFFS_OK);
        memcpy(before, bytes, IMAGE);
        NEED(rewrite_header(&volume, n) == NFFS_OK && is(n, n));
    }
}

/* Stale: the header is as before, no stretch tells it, and the start rewrites it by the same bytes. */
static void stale(void) {
    entered(3);
    memcpy(later, bytes, IMAGE);
    memcpy(bytes, before, IMAGE);
    NEED(sound(&volume));
    CHECK(is(2, 3) && start(&volume) && is(3, 3) && memcmp(bytes, later, IMAGE) == 0);
    /* a page older: the entry is missing, too, and was never counted */
    entered(3);
    memset(bytes + free_from() - REWRITTEN - ENTERED, 0xff, REWRITTEN + ENTERED);
    NEED(sound(&volume));
    CHECK(is(2, 2) && start(&volume) && is(2, 2));
}

/* Damage: nothing is changed, and all is right when the bit is. When the lost header was collected, the start counts anew. */
static void damaged(void) {
    entered(3);
    const size_t header = free_from() - REWRITTEN;
    bytes[header + 5] ^= 1;
    CHECK(is(2, 3) && refrains());
    bytes[header + 5] ^= 1;
    CHECK(start(&volume) && is(3, 3));
    bytes[header + 5] ^= 1;
    NEED(nffs_volume_collect(&volume) == NFFS_OK && sound(&volume));
    CHECK(is(2, 3) && start(&volume) && is(3, 3));
    /* a volume that does not mount */
    bytes[0] ^= 1;
    CHECK(refrains());
    /* torn: so many bytes of the header's record are stored */
    for (size_t stored = 1; stored < REWRITTEN; stored++) {
        entered(3);
        memset(bytes + header + stored, 0xff, REWRITTEN - stored);
        CHECK(is(2, 3) && refrains() && nffs_volume_collect(&volume) == NFFS_OK && start(&volume) && is(3, 3));
    }
}

/* Entries are lost that the header counts: the last one, or one before it. */
static void lost_entries(void) {
    entered(3);
    bytes[free_from() - REWRITTEN - ENTERED + 5] ^= 1;
    CHECK(is(3, 2) && refrains());
    NEED(nffs_volume_collect(&volume) == NFFS_OK && sound(&volume));
    CHECK(is(3, 2) && refrains());
    entered(3);
    bytes[free_from() - 2 * (REWRITTEN + ENTERED) + 5] ^= 1;
    CHECK(load(&volume).number == NFFS_BROKEN && refrains());
    NEED(nffs_volume_collect(&volume) == NFFS_OK && sound(&volume));
    CHECK(load(&volume).number == NFFS_BROKEN && refrains());
}

/* What else may be found. */
static void other_files(void) {
    static const char *const texts[] = {"entries 000", "entries 0000", "entries 0000.", "entries 00x0\n", "entries 0000\n1", "Entries 0000\n",
                                        "entries 0000\n0001 started  \n", "entries 0002\n0001 started   \n", "entries  000\n"};
    for (size_t k = 0; k < sizeof texts / sizeof texts[0]; k++) {
        fresh();
        NEED(settle(&volume, APPEND, texts[k]) == NFFS_OK);
        CHECK(refrains());
    }
    NEED(nffs_volume_format(&volume) == NFFS_OK);
    CHECK(refrains() && load(&volume).number == NFFS_NOT_FOUND);
    NEED(nffs_volume_create(&volume, NULL, LOG, NFFS_DIRECTORY).number == NFFS_OK);
    CHECK(refrains() && load(&volume).number == NFFS_WRONG_KIND);
    fresh();
    CHECK(start(&volume) && is(0, 0) && start(&volume) && is(0, 0));
}

/* A full volume: what is entered is counted up to the last entry that has room, also after collections. */
static void full(void) {
    uint32_t n = 0;
    entered(0);
    while (append_entry(&volume, n + 1) == NFFS_OK) {
        n++;
        if (rewrite_header(&volume, n) != NFFS_OK) {
            CHECK(is(n - 1, n) && !start(&volume) && is(n - 1, n));
            break;
        }
        NEED(is(n, n));
    }
    /* root, file, header and entries; the rest is too little for another header */
    const size_t live = 24 + 20 + 24 + REWRITTEN + n * ENTERED;
    CHECK(n == 99 && AREA - live < REWRITTEN && collections > 3);
}

int main(void) {
    stale();
    damaged();
    lost_entries();
    other_files();
    full();
    return counted();
}
