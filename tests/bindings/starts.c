/* The start and the update of examples/swap_table.c, on what the example does not show: docs/LINKING.md, 12, says what they do. Ends with the
   count. */
#define main swap_table
#include "../../examples/swap_table.c"
#undef main

#include "cases.h"

enum { MOST = 4, LENGTH = 2048, SIZE = MOST * LENGTH, PAGE = 512 };
static uint8_t bytes[SIZE], before[SIZE], later[SIZE];
static const nffs_area four[MOST] = {{0, LENGTH}, {LENGTH, LENGTH}, {2 * LENGTH, LENGTH}, {3 * LENGTH, LENGTH}};
static nffs_volume volume = {bytes, SIZE, four, MOST};

static void file(const char *name, const char *text) {
    NEED(nffs_volume_create(&volume, HOME, name, NFFS_FILE).number == NFFS_OK);
    NEED(nffs_volume_append(&volume, HOME, name, text, strlen(text)) == NFFS_OK);
}

/* A volume of so many areas, with tables; none where a text is null. */
static void tables(size_t areas_count, const char *table, const char *fresh) {
    volume.areas_count = areas_count;
    volume.image_length = areas_count * LENGTH;
    NEED(nffs_volume_format(&volume) == NFFS_OK && nffs_volume_create(&volume, NULL, HOME, NFFS_DIRECTORY).number == NFFS_OK);
    if (table != NULL) {
        file(TABLE, table);
    }
    if (fresh != NULL) {
        file(FRESH, fresh);
    }
}

static bool reads(const char *name, const char *expected) {
    const found it = load(&volume, name);
    return it.number == NFFS_OK && strcmp(it.text, expected) == 0;
}

static bool missing(const char *name) {
    return load(&volume, name).number == NFFS_NOT_FOUND;
}

/* The start tells that somebody has to look, and changes nothing. */
static bool refrains(void) {
    memcpy(later, bytes, SIZE);
    return !start(&volume) && memcmp(later, bytes, SIZE) == 0;
}

/* Swapped to the end; `before` is the image before the unlink and `at` where that wrote its record. The records are in one page. */
static size_t swapped(size_t areas_count) {
    size_t at = 0;
    tables(areas_count, OLD, NEW);
    memcpy(before, bytes, SIZE);
    NEED(nffs_volume_unlink(&volume, HOME, TABLE) == NFFS_OK);
    while (before[at] == bytes[at]) {
        at++;
    }
    NEED(nffs_volume_rename(&volume, HOME, FRESH, TABLE) == NFFS_OK && reads(TABLE, NEW) && missing(FRESH));
    return at;
}

/* A stale page is not seen; the start finishes, by the same bytes. */
static void stale(void) {
    const size_t at = swapped(2), page = at / PAGE * PAGE;
    memcpy(later, bytes, SIZE);
    memcpy(bytes + page, before + page, PAGE);
    NEED(memcmp(bytes, before, volume.image_length) == 0 && reads(TABLE, OLD) && reads(FRESH, NEW) && sound(&volume));
    CHECK(start(&volume) && reads(TABLE, NEW) && missing(FRESH) && memcmp(bytes, later, volume.image_length) == 0);
    /* the rename alone */
    memset(bytes + at + 20, 0xff, 25);
    NEED(missing(TABLE) && reads(FRESH, NEW) && sound(&volume));
    CHECK(start(&volume) && reads(TABLE, NEW) && memcmp(bytes, later, volume.image_length) == 0);
}

/* Damage, and an area that is passed over: nothing is changed, and all is right when the bits are. */
static void damaged(void) {
    static const unsigned lost[][2] = {{8, 8}, {28, 28}, {8, 28}};
    for (int k = 0; k < 3; k++) {
        const size_t at = swapped(MOST);
        bytes[at + lost[k][0]] ^= 1;
        bytes[at + lost[k][1]] ^= lost[k][0] == lost[k][1] ? 0 : 1;
        CHECK(refrains());
        bytes[at + lost[k][0]] ^= 1;
        bytes[at + lost[k][1]] ^= lost[k][0] == lost[k][1] ? 0 : 1;
        CHECK(start(&volume) && reads(TABLE, NEW));
    }
    /* no stretch tells it: the unlink and the rename stand in an area of their own */
    static const char filling[900];
    tables(MOST, OLD, NEW);
    NEED(nffs_volume_create(&volume, NULL, "/fill", NFFS_FILE).number == NFFS_OK);
    for (uint32_t room; (room = nffs_volume_area_report(&volume, 1, 0).free) > 24;) {
        const uint32_t most = room - 24;
        NEED(nffs_volume_append(&volume, NULL, "/fill", filling, most <= 800 ? most : 700) == NFFS_OK);
    }
    NEED(nffs_volume_unlink(&volume, HOME, TABLE) == NFFS_OK && nffs_volume_rename(&volume, HOME, FRESH, TABLE) == NFFS_OK);
    bytes[2 * LENGTH] ^= 1;
    NEED(nffs_volume_report(&volume).number == NFFS_OK && nffs_volume_report(&volume).stretches == 0 && reads(TABLE, OLD) && reads(FRESH, NEW));
    CHECK(refrains());
    bytes[2 * LENGTH] ^= 1;
    CHECK(start(&volume) && reads(TABLE, NEW));
    /* a volume that does not mount */
    bytes[LENGTH] ^= 1;
    CHECK(nffs_volume_report(&volume).number != NFFS_OK && refrains());
}

/* What a power cut leaves, the first table's too, and what else may be found. */
static void left(void) {
    tables(2, OLD, "2: 0 4");
    CHECK(start(&volume) && reads(TABLE, OLD) && missing(FRESH));
    tables(2, NULL, NEW);
    CHECK(start(&volume) && reads(TABLE, NEW) && missing(FRESH));
    tables(2, NULL, NULL);
    CHECK(refrains());
    tables(2, NULL, "1: 0 5");
    CHECK(refrains());
    tables(2, "1: 0 5", NULL);
    CHECK(refrains());
    tables(2, "1: 0 5", NEW);
    CHECK(refrains());
    tables(2, NEW, OLD);
    CHECK(refrains());
    tables(2, NEW, NEW);
    CHECK(refrains());
    tables(2, OLD, NULL);
    NEED(nffs_volume_create(&volume, HOME, FRESH, NFFS_DIRECTORY).number == NFFS_OK);
    CHECK(refrains());
    tables(2, "", NULL);
    CHECK(refrains());
}

/* What fills the buffer is neither whole nor a part, whatever it ends with. */
static void filling_the_buffer(void) {
    for (size_t length = ROOM - 1; length < ROOM + 3; length++) {
        char text[ROOM + 4] = "2: ";
        memset(text + 3, '7', length - 4);
        strcpy(text + length - 1, ".");
        tables(2, OLD, text);
        CHECK(length < ROOM ? start(&volume) && reads(TABLE, text) && missing(FRESH) : refrains() && reads(TABLE, OLD));
        tables(2, text, NULL);
        CHECK(length < ROOM ? start(&volume) && reads(TABLE, text) : refrains());
        tables(2, NULL, text);
        CHECK(length < ROOM ? start(&volume) && reads(TABLE, text) : refrains());
        text[length - 1] = '7';
        tables(2, OLD, text);
        CHECK(length < ROOM ? start(&volume) && reads(TABLE, OLD) && missing(FRESH) : refrains());
    }
}

/* Whole is what begins with digits and ": ", and ends with a dot. */
static void wholes(void) {
    static const struct {
        const char *text;
        uint32_t number;
    } some[] = {{"2: 0.", 2}, {"12: .", 12}, {"999999999: 1.", 999999999}, {"1000000000: 1.", 0}, {"0: 1.", 0}, {" 2: 1.", 0}, {"+2: 1.", 0},
                {"-1: 1.", 0}, {"2x: 1.", 0}, {"2x.", 0}, {"2.", 0}, {"2:.", 0}, {"2:1.", 0}, {": 1.", 0}, {"2: 1", 0}, {".", 0}, {"", 0}};
    for (size_t k = 0; k < sizeof some / sizeof some[0]; k++) {
        found it = {0};
        it.length = strlen(some[k].text);
        strcpy(it.text, some[k].text);
        CHECK(whole(&it) == some[k].number);
    }
}

/* The unlink would have room, and the rename would not, also after collections. The records of the table are in an area that is never collected. */
static const nffs_area uneven[3] = {{0, 512}, {512, 512}, {1024, 128}};

static uint32_t long_free(void) {
    const nffs_area_answer area = nffs_volume_area_report(&volume, 0, 0);
    return area.kind == NFFS_AREA_FILE ? area.free : nffs_volume_area_report(&volume, 1, 0).free;
}

static void fill_long(const char *path, uint32_t leave) {
    static const char filling[28];
    for (uint32_t room; (room = long_free() - leave) > 0;) {
        NEED(nffs_volume_append(&volume, NULL, path, filling, room >= 77 ? 28 : room > 52 ? room - 50 : room - 24) == NFFS_OK);
    }
}

static void no_room_for_both(uint32_t free) {
    volume.areas = uneven;
    volume.areas_count = 3;
    volume.image_length = 1152;
    NEED(nffs_volume_format(&volume) == NFFS_OK && nffs_volume_create(&volume, NULL, HOME, NFFS_DIRECTORY).number == NFFS_OK);
    NEED(nffs_volume_create(&volume, NULL, "/y", NFFS_FILE).number == NFFS_OK);
    NEED(nffs_volume_create(&volume, NULL, "/z", NFFS_FILE).number == NFFS_OK);
    fill_long("/y", 22);
    file(TABLE, OLD);
    NEED(nffs_volume_append(&volume, NULL, "/z", "12345678901234", 14) == NFFS_OK && nffs_volume_area_report(&volume, 2, 0).free == 1);
    NEED(nffs_volume_unlink(&volume, NULL, "/y") == NFFS_OK && nffs_volume_collect(&volume) == NFFS_OK && nffs_volume_collect(&volume) == NFFS_OK);
    file(FRESH, NEW);
    fill_long("/z", free);
    const bool fits = free >= 45;
    memcpy(before, bytes, SIZE);
    CHECK(start(&volume) == fits && reads(TABLE, fits ? NEW : OLD) && (fits ? missing(FRESH) : reads(FRESH, NEW)));
    CHECK(start(&volume) == fits && reads(TABLE, fits ? NEW : OLD));
    /* an update that comes so far asks, too */
    memcpy(bytes, before, SIZE);
    CHECK(room(&volume) == fits && reads(TABLE, OLD) && reads(FRESH, NEW));
    volume.areas = four;
}

/* One area for each record: the shorter may go where the longer would fit. */
static void room_in_two(void) {
    static const char filling[900];
    for (uint32_t first = 19; first <= 45; first++) {
        tables(MOST, OLD, NEW);
        NEED(nffs_volume_create(&volume, NULL, "/fill", NFFS_FILE).number == NFFS_OK);
        const uint32_t free[3] = {first, 25, 0};
        for (uint32_t i = 1; i < MOST; i++) {
            for (uint32_t rest; (rest = nffs_volume_area_report(&volume, i, 0).free - free[i - 1]) > 0;) {
                NEED(nffs_volume_append(&volume, NULL, "/fill", filling, rest > 1000 ? 700 : rest - 24) == NFFS_OK);
            }
        }
        const bool fits = room(&volume);
        CHECK(fits == (first >= 25) && reads(TABLE, OLD) && reads(FRESH, NEW));
        CHECK(!fits || (nffs_volume_unlink(&volume, HOME, TABLE) == NFFS_OK && nffs_volume_rename(&volume, HOME, FRESH, TABLE) == NFFS_OK));
    }
}

/* An update changes nothing where the flash is damaged, and collects where there is no room. */
static void updated(void) {
    static uint8_t wide[IMAGE];
    const nffs_volume flash = {wide, IMAGE, areas, AREAS};
    static const char filling[2000];
    NEED(nffs_volume_format(&flash) == NFFS_OK && nffs_volume_create(&flash, NULL, HOME, NFFS_DIRECTORY).number == NFFS_OK);
    NEED(update(&flash, OLD, NULL));
    NEED(nffs_volume_create(&flash, NULL, "/gone", NFFS_FILE).number == NFFS_OK);
    NEED(nffs_volume_append(&flash, NULL, "/gone", filling, 1000) == NFFS_OK);
    NEED(nffs_volume_unlink(&flash, NULL, "/gone") == NFFS_OK && nffs_volume_create(&flash, NULL, "/stays", NFFS_FILE).number == NFFS_OK);
    for (uint32_t rest; (rest = nffs_volume_area_report(&flash, 1, 0).free) > 40;) {
        NEED(nffs_volume_append(&flash, NULL, "/stays", filling, rest > 1000 ? 700 : rest - 24) == NFFS_OK);
    }
    static uint8_t kept[IMAGE];
    wide[AREA + 70] ^= 1;
    memcpy(kept, wide, IMAGE);
    CHECK(!update(&flash, NEW, OLD) && memcmp(kept, wide, IMAGE) == 0);
    wide[AREA + 70] ^= 1;
    CHECK(nffs_volume_create(&flash, HOME, FRESH, NFFS_FILE).number == NFFS_NO_ROOM && update(&flash, NEW, OLD));
    const found table = load(&flash, TABLE);
    CHECK(table.number == NFFS_OK && strcmp(table.text, NEW) == 0);
}

/* No room: the start collects and calls again, and gives up where that does not help. */
static void full(void) {
    static const char filling[900];
    for (int deleted = 0; deleted < 2; deleted++) {
        tables(2, OLD, NEW);
        for (int k = 0; k < 2; k++) {
            const char *const path = k == 0 ? "/first" : "/second";
            NEED(nffs_volume_create(&volume, NULL, path, NFFS_FILE).number == NFFS_OK);
            NEED(nffs_volume_append(&volume, NULL, path, filling, 700) == NFFS_OK);
        }
        NEED(!deleted || nffs_volume_unlink(&volume, NULL, "/first") == NFFS_OK);
        const uint32_t room = nffs_volume_area_report(&volume, 1, 0).free;
        NEED(nffs_volume_append(&volume, NULL, "/second", filling, room - 24) == NFFS_OK);
        NEED(nffs_volume_unlink(&volume, HOME, TABLE) == NFFS_NO_ROOM);
        CHECK(start(&volume) == deleted && reads(TABLE, deleted ? NEW : OLD) && (deleted ? missing(FRESH) : reads(FRESH, NEW)));
    }
}

int main(void) {
    stale();
    damaged();
    left();
    filling_the_buffer();
    wholes();
    full();
    for (uint32_t free = 20; free <= 46; free++) {
        no_room_for_both(free);
    }
    room_in_two();
    updated();
    return counted();
}
