/* nffs_overwrite from C: what it writes and keeps, what it refuses and in which order, the room it needs; and what docs/LINKING.md, 13, says of
   records that are damaged, come back stale, or are read again after a while. Ends with the count. */
#include "cases.h"
#include "nffs.h"

#include <string.h>

enum { WIDE = 65536, HEADER = 24, FILE_ID = 0x10000000 };
static const uint32_t BLOCK_ID = 0x80000000, NONE = 0xffffffff;
static uint8_t image[WIDE], kept[WIDE];
static nffs_area areas[NFFS_MOST_AREAS];
static nffs_volume flash = {image, 0, areas, 0};
static uint8_t data[NFFS_APPEND_MOST + 1], text[2 * NFFS_APPEND_MOST];

static void formatted(uint32_t count, uint32_t length) {
    for (uint32_t i = 0; i < count; i++) {
        areas[i] = (nffs_area){i * length, length};
    }
    flash.image_length = (size_t)count * length;
    flash.areas_count = count;
    NEED(nffs_volume_format(&flash) == NFFS_OK);
}

static void created(const char *path, uint32_t kind) {
    NEED(nffs_volume_create(&flash, NULL, path, kind).number == NFFS_OK);
}

/* An append of at most the greatest block's size is one block. */
static void appended(const char *path, const void *bytes, size_t length) {
    NEED(nffs_volume_append(&flash, NULL, path, bytes, length) == NFFS_OK);
}

/* A file of blocks, one of each text. */
static void file(const char *path, const char *first, const char *second) {
    created(path, NFFS_FILE);
    appended(path, first, strlen(first));
    appended(path, second, strlen(second));
}

static uint32_t written(const char *path, uint32_t offset, const char *bytes) {
    return nffs_volume_overwrite(&flash, NULL, path, offset, bytes, strlen(bytes));
}

static void collected(int times) {
    for (int i = 0; i < times; i++) {
        NEED(nffs_volume_collect(&flash) == NFFS_OK);
    }
}

static void keep(void) {
    memcpy(kept, image, WIDE);
}

static int same(void) {
    return memcmp(kept, image, WIDE) == 0;
}

/* Whether a file holds just these bytes. */
static int holds(const char *path, const void *bytes, size_t length) {
    nffs_handle handle;
    if (nffs_volume_open(&flash, NULL, path, &handle) != NFFS_OK) {
        return 0;
    }
    const nffs_read_answer read = nffs_volume_read(&flash, &handle, text, sizeof text);
    return read.number == NFFS_OK && read.given == length && memcmp(text, bytes, length) == 0;
}

static int reads(const char *path, const char *bytes) {
    return holds(path, bytes, strlen(bytes));
}

/* How many headers a read of one byte follows: the same for two bytes if they are in one block. */
static uint32_t headers(uint32_t id, uint32_t position) {
    uint8_t byte;
    return nffs_volume_read_at(&flash, id, position, &byte, 1).headers;
}

static uint32_t stretches(void) {
    return nffs_volume_report(&flash).stretches;
}

/* Where free space begins in the image, of an area. */
static size_t free_of(uint32_t index) {
    return areas[index].offset + areas[index].length - nffs_volume_area_report(&flash, index, 0).free;
}

static void put_number(uint8_t *at, uint32_t value) {
    for (int i = 0; i < 4; i++) {
        at[i] = (uint8_t)(value >> (8 * i));
    }
}

/* Puts the check of a record right, over its header before the check field and what stands behind it. */
static void checked(uint8_t *record, size_t header, size_t body) {
    uint16_t sum = 0;
    for (size_t i = 0; i < header + body; i++) {
        if (i == header - 2 || i == header - 1) {
            continue;
        }
        sum ^= (uint16_t)(record[i] << 8);
        for (int bit = 0; bit < 8; bit++) {
            sum = (uint16_t)(sum << 1 ^ (sum & 0x8000 ? 0x1021 : 0));
        }
    }
    record[header - 2] = (uint8_t)sum;
    record[header - 1] = (uint8_t)(sum >> 8);
}

/* A block of one of the texts below, as it should stand in the image. */
static int is_block(size_t place, uint32_t id, uint32_t sequence, uint32_t previous, const void *bytes, size_t length) {
    uint8_t expected[HEADER + 64] = {0xb9, 0x23, 0xba, 0x53};
    put_number(expected + 4, id);
    put_number(expected + 8, sequence);
    put_number(expected + 12, FILE_ID);
    put_number(expected + 16, previous);
    expected[20] = (uint8_t)length;
    memcpy(expected + HEADER, bytes, length);
    checked(expected, HEADER, length);
    return memcmp(image + place, expected, HEADER + length) == 0;
}

/* The place of a version of a block; 0 where there is none. */
static size_t found(uint32_t id, uint32_t sequence) {
    uint8_t fields[12] = {0xb9, 0x23, 0xba, 0x53};
    put_number(fields + 4, id);
    put_number(fields + 8, sequence);
    for (size_t i = 0; i + HEADER < flash.image_length; i++) {
        if (memcmp(image + i, fields, sizeof fields) == 0) {
            return i;
        }
    }
    return 0;
}

/* A file of 16 bytes in four blocks. */
static const uint32_t LENGTHS[] = {5, 1, 7, 3};
enum { BLOCKS = 4, SIZE = 16 };

static void four_blocks(void) {
    const char *from = "abcdefghijklmnop";
    formatted(2, 4096);
    created("/f", NFFS_FILE);
    for (int k = 0; k < BLOCKS; from += LENGTHS[k++]) {
        appended("/f", from, LENGTHS[k]);
    }
}

/* What one overwrite of it writes: a new version of each block that holds a byte of the range, in file order, and nothing else. */
static int wrote(const char *after, uint32_t offset, uint32_t length) {
    const size_t from = areas[1].offset + 24 + 20 + 21 + BLOCKS * HEADER + SIZE;
    size_t place = from;
    uint32_t start = 0;
    int good = 1;
    for (uint32_t k = 0; k < BLOCKS; start += LENGTHS[k++]) {
        if (length > 0 && offset < start + LENGTHS[k] && start < offset + length) {
            good &= is_block(place, BLOCK_ID + k, 1, k == 0 ? NONE : BLOCK_ID + k - 1, after + start, LENGTHS[k]);
            place += HEADER + LENGTHS[k];
        }
    }
    return good && memcmp(image, kept, from) == 0 && memcmp(image + place, kept + place, flash.image_length - place) == 0 && free_of(1) == place;
}

/* Every range of it. */
static void ranges(void) {
    static const char fresh[] = "0123456789ABCDEF";
    uint32_t before[SIZE];
    four_blocks();
    keep();
    for (uint32_t at = 0; at < SIZE; at++) {
        before[at] = headers(FILE_ID, at);
    }
    for (uint32_t offset = 0; offset <= SIZE; offset++) {
        for (uint32_t length = 0; offset + length <= SIZE; length++) {
            char after[] = "abcdefghijklmnop";
            memcpy(after + offset, fresh, length);
            memcpy(image, kept, WIDE);
            CHECK(nffs_volume_overwrite(&flash, "/", "f", offset, fresh, length) == NFFS_OK && wrote(after, offset, length));
            CHECK(reads("/f", after) && stretches() == 0);
            int alike = 1;
            for (uint32_t at = 0; at < SIZE; at++) {
                alike &= headers(FILE_ID, at) == before[at];
            }
            CHECK(alike);
        }
    }
}

/* The header of a log is written again and again, and its sequence goes up. Handles stay right; collections keep what is there. */
static void log_header(void) {
    nffs_handle handle;
    char count[5], expected[] = "entries 0000\npump started\n";
    formatted(3, 512);
    file("/log", "entries 0000\n", "pump started\n");
    NEED(nffs_volume_open(&flash, NULL, "/log", &handle) == NFFS_OK && nffs_volume_read(&flash, &handle, text, 8).given == 8);
    unsigned collections = 0;
    for (unsigned i = 1; i <= 300; i++) {
        snprintf(count, sizeof count, "%04u", i);
        memcpy(expected + 8, count, 4);
        uint32_t number = written("/log", 8, count);
        while (number == NFFS_NO_ROOM && collections < 300) {
            collected(1);
            collections++;
            number = written("/log", 8, count);
        }
        NEED(number == NFFS_OK);
        CHECK(reads("/log", expected) && found(BLOCK_ID, i) != 0);
    }
    CHECK(collections > 10 && collections < 300 && nffs_volume_report(&flash).inodes == 2);
    CHECK(handle.position == 8 && nffs_volume_read(&flash, &handle, text, sizeof text).given == 18 && memcmp(text, expected + 8, 18) == 0);
    /* by another name, and no more when it is unlinked */
    CHECK(nffs_volume_rename(&flash, NULL, "/log", "/old") == NFFS_OK && written("/log", 0, "E") == NFFS_NOT_FOUND);
    collected(2);
    CHECK(written("/old", 0, "E") == NFFS_OK && reads("/old", "Entries 0300\npump started\n"));
    CHECK(nffs_volume_unlink(&flash, NULL, "/old") == NFFS_OK && written("/old", 0, "e") == NFFS_NOT_FOUND);
}

/* The most bytes of one call, from the start, over every block, and up to the end; and the whole file by two calls. */
static void most_bytes(void) {
    enum { LENGTH = NFFS_APPEND_MOST + 808 };
    static uint8_t expected[LENGTH];
    formatted(4, 16384);
    created("/f", NFFS_FILE);
    memset(expected, 'a', LENGTH);
    appended("/f", expected, NFFS_APPEND_MOST);
    appended("/f", expected, 808);
    for (uint32_t offset = 0; offset <= 808; offset += 404) {
        for (size_t i = 0; i < sizeof data; i++) {
            data[i] = (uint8_t)(i * 7 + i / 256 + offset);
        }
        keep();
        CHECK(nffs_volume_overwrite(&flash, NULL, "/f", offset, data, NFFS_APPEND_MOST + 1) == NFFS_BAD_PATH && same());
        uint32_t number = nffs_volume_overwrite(&flash, NULL, "/f", offset, data, NFFS_APPEND_MOST);
        for (int i = 0; number == NFFS_NO_ROOM && i < 4; i++) {
            collected(1);
            number = nffs_volume_overwrite(&flash, NULL, "/f", offset, data, NFFS_APPEND_MOST);
        }
        memcpy(expected + offset, data, NFFS_APPEND_MOST);
        CHECK(number == NFFS_OK && holds("/f", expected, LENGTH));
    }
    collected(4);
    memset(expected, 'z', LENGTH);
    CHECK(nffs_volume_overwrite(&flash, NULL, "/f", 0, expected, NFFS_APPEND_MOST) == NFFS_OK);
    CHECK(nffs_volume_overwrite(&flash, NULL, "/f", NFFS_APPEND_MOST, expected, 808) == NFFS_OK && holds("/f", expected, LENGTH));
}

/* The most blocks of one call: all that a volume may have, of a byte each. No id is new. */
static void most_blocks(void) {
    enum { MOST = 1024 };
    formatted(16, 4096);
    created("/f", NFFS_FILE);
    for (int i = 0; i < MOST; i++) {
        appended("/f", "a", 1);
    }
    CHECK(nffs_volume_append(&flash, NULL, "/f", "a", 1) == NFFS_TOO_MANY_IDS);
    for (size_t i = 0; i < MOST; i++) {
        data[i] = (uint8_t)(i * 5 + i / 256);
    }
    CHECK(nffs_volume_overwrite(&flash, NULL, "/f", 0, data, MOST) == NFFS_OK && holds("/f", data, MOST));
    CHECK(headers(FILE_ID, 0) == MOST && headers(FILE_ID, MOST - 1) == 1);
    /* as much again has no room, and a part has */
    keep();
    CHECK(nffs_volume_overwrite(&flash, NULL, "/f", 0, data + 1, MOST) == NFFS_NO_ROOM && same());
    CHECK(nffs_volume_overwrite(&flash, NULL, "/f", 0, data, 300) == NFFS_OK);
    collected(16);
    CHECK(holds("/f", data, MOST) && nffs_volume_overwrite(&flash, NULL, "/f", 0, data + 1, MOST) == NFFS_OK && holds("/f", data + 1, MOST));
}

/* Directories /d and /d/e; files /f, /d/f, /empty, /last, whose first block is at the greatest sequence, /broken, whose first block is damaged, and
   two /d/e/t: of the first the deletion is damaged. So the only file area is, and nothing can be stored. */
static void filled(void) {
    formatted(2, 4096);
    created("/d", NFFS_DIRECTORY);
    created("/d/e", NFFS_DIRECTORY);
    file("/f", "0123456789", "abcde");
    file("/d/f", "0", "1");
    created("/empty", NFFS_FILE);
    created("/d/e/t", NFFS_FILE);
    const size_t deletion = free_of(1);
    NEED(nffs_volume_unlink(&flash, NULL, "/d/e/t") == NFFS_OK);
    created("/d/e/t", NFFS_FILE);
    const size_t broken = free_of(1) + 20 + strlen("broken");
    file("/broken", "01234", "abcde");
    const size_t last = free_of(1) + 20 + strlen("last");
    file("/last", "01234", "abcde");
    put_number(image + last + 8, 0xffffffff);
    checked(image + last, HEADER, 5);
    NEED(stretches() == 0 && reads("/last", "01234abcde") && reads("/broken", "01234abcde"));
    image[deletion + 5] ^= 1;
    image[broken + 5] ^= 1;
    NEED(stretches() == 2);
}

/* A call on what is filled, and its answer. */
enum { OVER = NFFS_APPEND_MOST + 1, FULL = NFFS_APPEND_MOST };
static const struct {
    const char *path;
    uint32_t offset, length, number;
} cases[] = {
    /* bad paths, and too many bytes, before any walk */
    {"", 0, 1, NFFS_BAD_PATH}, {"f", 0, 1, NFFS_BAD_PATH}, {"/f/", 0, 1, NFFS_BAD_PATH}, {"//f", UINT32_MAX, 0, NFFS_BAD_PATH},
    {"/f", 0, OVER, NFFS_BAD_PATH}, {"/none", 0, OVER, NFFS_BAD_PATH}, {"/d/e/t", 0, OVER, NFFS_BAD_PATH}, {"/", 0, OVER, NFFS_BAD_PATH},
    {"/broken", UINT32_MAX, OVER, NFFS_BAD_PATH}, {"/last", 0, OVER, NFFS_BAD_PATH},
    /* the path's walk */
    {"/none", 0, 0, NFFS_NOT_FOUND}, {"/none", UINT32_MAX, 1, NFFS_NOT_FOUND}, {"/d/none/f", 0, FULL, NFFS_NOT_FOUND},
    {"/d/e/t", 0, 0, NFFS_AMBIGUOUS}, {"/d/e/t", 1, 1, NFFS_AMBIGUOUS}, {"/d/e/t/x", 0, 1, NFFS_AMBIGUOUS},
    {"/", 0, 0, NFFS_WRONG_KIND}, {"/d", 0, 1, NFFS_WRONG_KIND}, {"/d/e", 1, 0, NFFS_WRONG_KIND}, {"/f/x", 0, 1, NFFS_WRONG_KIND},
    {"/broken/x", 0, 1, NFFS_WRONG_KIND},
    /* a broken file, whatever the range */
    {"/broken", 0, 0, NFFS_BROKEN}, {"/broken", 0, 1, NFFS_BROKEN}, {"/broken", 11, 0, NFFS_BROKEN}, {"/broken", UINT32_MAX, FULL, NFFS_BROKEN},
    /* past the size, by the offset or by the end; sums of 2^32 and more */
    {"/f", 16, 0, NFFS_PAST_END}, {"/f", 15, 1, NFFS_PAST_END}, {"/f", 0, 16, NFFS_PAST_END}, {"/f", 14, 2, NFFS_PAST_END},
    {"/f", 0, FULL, NFFS_PAST_END}, {"/f", UINT32_MAX, 0, NFFS_PAST_END}, {"/f", UINT32_MAX, 1, NFFS_PAST_END},
    {"/f", UINT32_MAX, 2, NFFS_PAST_END}, {"/f", UINT32_MAX - FULL + 1, FULL, NFFS_PAST_END}, {"/f", UINT32_MAX - FULL + 2, FULL, NFFS_PAST_END},
    {"/empty", 0, 1, NFFS_PAST_END}, {"/empty", 1, 0, NFFS_PAST_END}, {"/last", 0, 11, NFFS_PAST_END}, {"/last", 11, 0, NFFS_PAST_END},
    /* a block of the range at the greatest sequence, where nothing has room */
    {"/last", 0, 1, NFFS_LAST_SEQUENCE}, {"/last", 4, 1, NFFS_LAST_SEQUENCE}, {"/last", 4, 2, NFFS_LAST_SEQUENCE},
    {"/last", 0, 10, NFFS_LAST_SEQUENCE},
    /* nothing else is wrong, and the only file area is damaged */
    {"/last", 5, 1, NFFS_NO_ROOM}, {"/last", 5, 5, NFFS_NO_ROOM}, {"/f", 0, 1, NFFS_NO_ROOM}, {"/f", 14, 1, NFFS_NO_ROOM},
    {"/f", 0, 15, NFFS_NO_ROOM},
    /* 0 bytes within the size: nothing is written */
    {"/f", 0, 0, NFFS_OK}, {"/f", 7, 0, NFFS_OK}, {"/f", 15, 0, NFFS_OK}, {"/empty", 0, 0, NFFS_OK}, {"/last", 0, 0, NFFS_OK},
    {"/last", 10, 0, NFFS_OK},
};

/* Each refusal, alone and before later ones; none changes a byte. */
static void refusals(void) {
    filled();
    keep();
    for (size_t i = 0; i < sizeof cases / sizeof cases[0]; i++) {
        const uint32_t number = nffs_volume_overwrite(&flash, NULL, cases[i].path, cases[i].offset, data, cases[i].length);
        if (number != cases[i].number) {
            printf("%s, %u+%u is %u, not %u\n", cases[i].path, (unsigned)cases[i].offset, (unsigned)cases[i].length, (unsigned)number,
                   (unsigned)cases[i].number);
        }
        CHECK(number == cases[i].number && same());
    }
    /* a base is asked only where the path is relative */
    CHECK(nffs_volume_overwrite(&flash, "/d", "f", 0, data, 2) == NFFS_NO_ROOM);
    CHECK(nffs_volume_overwrite(&flash, "/d", "f", 0, data, 3) == NFFS_PAST_END);
    CHECK(nffs_volume_overwrite(&flash, "d", "f", 0, data, 2) == NFFS_BAD_PATH);
    CHECK(nffs_volume_overwrite(&flash, "d", "/f", 0, data, 2) == NFFS_NO_ROOM);
    CHECK(same());
}

/* A volume that does not mount: 1 to 7 come before all else, a bad path too. */
static int refused_with(uint32_t number) {
    keep();
    const uint32_t good_call = written("/f", 0, "x"), bad_call = nffs_volume_overwrite(&flash, NULL, "//", 9, data, sizeof data);
    return good_call == number && bad_call == number && same();
}

enum { LONG = 16384 };

static void bad_headers(void) {
    enum { LENGTH_AT = 16, ID_AT = 23 };
    areas[2].offset--;
    CHECK(refused_with(NFFS_BAD_AREAS));
    areas[2].offset++;
    image[areas[2].offset + ID_AT] = 0;
    CHECK(refused_with(NFFS_SAME_AREA_ID));
    image[areas[2].offset + ID_AT] = 255;
    CHECK(refused_with(NFFS_NO_FILE_OR_SCRATCH));
    image[areas[2].offset + ID_AT] = 1;
    /* scratch of half the length */
    put_number(image + LENGTH_AT, LONG / 2);
    areas[0].length = LONG / 2;
    CHECK(refused_with(NFFS_SHORT_SCRATCH));
    put_number(image + LENGTH_AT, LONG);
    areas[0].length = LONG;
}

static void unmounted(void) {
    enum { INODE = 20 };
    formatted(3, LONG);
    file("/f", "0123456789", "abcde");
    NEED(written("/f", 0, "x") == NFFS_OK);
    bad_headers();
    /* another record of the new version, and the root's damaged */
    uint8_t *const copy = image + areas[2].offset + HEADER;
    memcpy(copy, image + found(BLOCK_ID, 1), HEADER + 10);
    copy[HEADER] = 'y';
    checked(copy, HEADER, 10);
    CHECK(refused_with(NFFS_CONFLICT));
    memset(copy, 0xff, HEADER + 10);
    image[areas[1].offset + HEADER + 5] ^= 1;
    CHECK(refused_with(NFFS_NO_ROOT));
    image[areas[1].offset + HEADER + 5] ^= 1;
    /* deletion records of 255 ids more than root and file */
    for (uint32_t id = 1; id <= 255; id++) {
        uint8_t *const record = copy + (id - 1) * INODE;
        memcpy(record, (const uint8_t[INODE]){0xc0, 0x8b, 0x5f, 0x92, (uint8_t)id, 0, 0, 0, 0, 0, 0, 0, 0xff, 0xff, 0xff, 0xff}, INODE);
        checked(record, INODE, 0);
    }
    CHECK(refused_with(NFFS_TOO_MANY_IDS));
    memset(copy + 254 * INODE, 0xff, INODE);
    NEED(nffs_volume_report(&flash).inodes == 256 && written("/f", 0, "x") == NFFS_OK);
}

/* Fills an area with what is in use until so many bytes are free. Those before it have no room. */
static void fill(uint32_t index, uint32_t free) {
    static const uint8_t bytes[200];
    if (nffs_volume_lookup(&flash, NULL, "/fill").number != NFFS_OK) {
        created("/fill", NFFS_FILE);
    }
    for (uint32_t left; (left = nffs_volume_area_report(&flash, index, 0).free - free) > 0;) {
        appended("/fill", bytes, left > 200 ? 100 : left - HEADER);
        if (nffs_volume_area_report(&flash, index, 0).free - free == left) {
            NEED(0);
            return;
        }
    }
}

/* Blocks of 100 and 50 bytes. */
static void two_blocks(uint32_t count) {
    formatted(count, 1024);
    created("/f", NFFS_FILE);
    appended("/f", data, 100);
    appended("/f", data, 50);
}

/* Room for a copy of each block that is touched, and for nothing more: all of them or none. */
static void room(void) {
    static const struct {
        uint32_t offset, length, needs;
    } parts[] = {{0, 1, 124}, {99, 1, 124}, {100, 1, 74}, {149, 1, 74}, {99, 2, 124 + 74}, {0, 150, 124 + 74}};
    for (uint32_t free = HEADER; free <= 200; free++) {
        two_blocks(2);
        fill(1, free);
        keep();
        for (size_t k = 0; k < sizeof parts / sizeof parts[0]; k++) {
            memcpy(image, kept, WIDE);
            const int fits = free >= parts[k].needs;
            CHECK(nffs_volume_overwrite(&flash, NULL, "/f", parts[k].offset, data, parts[k].length) == (fits ? NFFS_OK : NFFS_NO_ROOM));
            CHECK(fits ? nffs_volume_area_report(&flash, 1, 0).free == free - parts[k].needs : same());
        }
    }
    /* each goes to the first area that has room for it: the first block to the second area, and the second to the first */
    two_blocks(3);
    fill(1, 123);
    CHECK(written("/f", 99, "xy") == NFFS_OK);
    CHECK(found(BLOCK_ID, 1) == areas[2].offset + HEADER && found(BLOCK_ID + 1, 1) == areas[1].offset + areas[1].length - 123);
    CHECK(nffs_volume_area_report(&flash, 1, 0).free == 123 - 74 && nffs_volume_area_report(&flash, 2, 0).free == 1000 - 124);
    /* and to none that is damaged */
    image[areas[2].offset + HEADER + 5] ^= 1;
    CHECK(written("/f", 99, "z") == NFFS_NO_ROOM && written("/f", 100, "z") == NFFS_NO_ROOM);
}

/* From here on: what is lost of an overwrite. Of two blocks the bytes 3 to 6 are written over; gives the place of each new version. */
enum { LENGTH = 5, RECORD = HEADER + LENGTH };

static size_t overwritten(void) {
    formatted(3, 4096);
    file("/f", "aaaaa", "bbbbb");
    const size_t place = free_of(1);
    NEED(written("/f", 3, "XXXX") == NFFS_OK && reads("/f", "aaaXXXXbbb") && free_of(1) == place + 2 * RECORD);
    return place;
}

/* A new version is damaged: that block's old bytes are back, and the other's are new. A stretch tells it, until the area is collected. */
static void damaged(void) {
    static const char *const found_then[] = {"aaaXXXXbbb", "aaaaaXXbbb", "aaaXXbbbbb", "aaaaabbbbb"};
    for (int lost = 1; lost < 4; lost++) {
        const size_t place = overwritten();
        image[place + 5] ^= lost & 1;
        image[place + RECORD + 5] ^= lost >> 1;
        CHECK(reads("/f", found_then[lost]) && stretches() == 1);
        collected(2);
        CHECK(reads("/f", found_then[lost]) && stretches() == 0);
        /* and so it stays: the versions that were lost are dropped */
        CHECK((found(BLOCK_ID, 1) == 0) == (lost & 1) && (found(BLOCK_ID + 1, 1) == 0) == lost >> 1);
    }
}

/* Only the first ones come to the flash, as where an image is written back in parts, or a page comes back stale: nothing tells it. */
static void in_part(void) {
    size_t place = overwritten();
    memset(image + place + RECORD, 0xff, RECORD);
    CHECK(reads("/f", "aaaXXbbbbb") && stretches() == 0);
    memset(image + place, 0xff, RECORD);
    CHECK(reads("/f", "aaaaabbbbb") && stretches() == 0);
    /* a later one without an earlier of the same area is told */
    place = overwritten();
    memset(image + place, 0xff, RECORD);
    CHECK(reads("/f", "aaaaaXXbbb") && stretches() == 1);
    /* in an area of its own it is not: the first goes to the second area, the other to the first */
    formatted(3, 512);
    file("/f", "aaaaaaaaaa", "bbbbb");
    fill(1, RECORD);
    NEED(written("/f", 8, "XXXX") == NFFS_OK && reads("/f", "aaaaaaaaXXXXbbb"));
    memset(image + areas[2].offset + HEADER, 0xff, HEADER + 10);
    CHECK(reads("/f", "aaaaaaaaaaXXbbb") && stretches() == 0);
}

/* Power that is lost in the middle: of the record only the first bytes are stored. A range in one block is old until the record is whole. */
static void torn(void) {
    for (size_t stored = 1; stored < RECORD; stored++) {
        formatted(2, 4096);
        file("/f", "aaaaa", "bbbbb");
        const size_t place = free_of(1);
        NEED(written("/f", 1, "XXX") == NFFS_OK && reads("/f", "aXXXabbbbb"));
        memset(image + place + stored, 0xff, RECORD - stored);
        CHECK(reads("/f", "aaaaabbbbb") && stretches() == 1 && written("/f", 1, "XXX") == NFFS_NO_ROOM);
        collected(1);
        CHECK(reads("/f", "aaaaabbbbb") && stretches() == 0 && written("/f", 1, "XXX") == NFFS_OK && reads("/f", "aXXXabbbbb"));
    }
    /* of several the ones before it are new */
    for (size_t stored = 1; stored < RECORD; stored++) {
        const size_t place = overwritten();
        memset(image + place + RECORD + stored, 0xff, RECORD - stored);
        CHECK(reads("/f", "aaaXXbbbbb") && stretches() == 1);
    }
}

/* Lost after the old version was collected: the block is missing. In the middle the file is broken, at its end shorter, alone empty. */
static void old_version_collected(void) {
    for (uint32_t k = 0; k < 2; k++) {
        overwritten();
        collected(2);
        NEED(found(BLOCK_ID, 0) == 0 && found(BLOCK_ID + 1, 0) == 0 && reads("/f", "aaaXXXXbbb"));
        image[found(BLOCK_ID + k, 1) + 5] ^= 1;
        CHECK(stretches() == 1 && (k == 1 ? reads("/f", "aaaXX") : nffs_volume_read_at(&flash, FILE_ID, 0, text, 1).number == NFFS_BROKEN));
        CHECK(written("/f", 0, "Y") == (k == 1 ? NFFS_OK : NFFS_BROKEN));
    }
    formatted(2, 4096);
    created("/f", NFFS_FILE);
    appended("/f", "aaaaa", 5);
    NEED(written("/f", 0, "X") == NFFS_OK);
    collected(1);
    image[found(BLOCK_ID, 1) + 5] ^= 1;
    CHECK(reads("/f", "") && stretches() == 1);
}

/* The newest version that is left counts: of three the first, where the second was collected and the third is lost. */
static void earlier_version(void) {
    formatted(4, 2048);
    collected(2);
    created("/f", NFFS_FILE);
    appended("/f", "first", 5);
    fill(1, 0);
    NEED(written("/f", 0, "2") == NFFS_OK);
    fill(2, 0);
    NEED(written("/f", 1, "3") == NFFS_OK && reads("/f", "23rst"));
    size_t place = found(BLOCK_ID, 2);
    image[place + 5] ^= 1;
    CHECK(reads("/f", "2irst"));
    image[place + 5] ^= 1;
    collected(1);
    NEED(found(BLOCK_ID, 0) != 0 && found(BLOCK_ID, 1) == 0 && reads("/f", "23rst"));
    place = found(BLOCK_ID, 2);
    image[place + 5] ^= 1;
    CHECK(reads("/f", "first"));
}

/* A new version is lost, something is written, and it is read again. The same once more is harmless, another overwrite of its block is 6. */
static void read_again(void) {
    const size_t place = overwritten();
    image[place + 5] ^= 1;
    keep();
    static const struct {
        uint32_t offset;
        const char *bytes, *after;
        uint32_t number;
    } cases[] = {
        {3, "XXXX", "aaaXXXXbbb", NFFS_OK}, {3, "XX", "aaaXXXXbbb", NFFS_OK},       {0, "aaaXX", "aaaXXXXbbb", NFFS_OK},
        {5, "Y", "aaaXXYXbbb", NFFS_OK},    {3, "YY", "aaaYYXXbbb", NFFS_CONFLICT}, {0, "Y", "YaaaaXXbbb", NFFS_CONFLICT},
        {4, "X", "aaaaXXXbbb", NFFS_CONFLICT},
    };
    for (size_t k = 0; k < sizeof cases / sizeof cases[0]; k++) {
        memcpy(image, kept, WIDE);
        NEED(written("/f", cases[k].offset, cases[k].bytes) == NFFS_OK);
        image[place + 5] ^= 1;
        CHECK(nffs_volume_report(&flash).number == cases[k].number && (cases[k].number != NFFS_OK || reads("/f", cases[k].after)));
    }
    /* it does not come back from an area that was collected */
    memcpy(image, kept, WIDE);
    collected(2);
    CHECK(found(BLOCK_ID, 1) == 0 && written("/f", 3, "YY") == NFFS_OK && reads("/f", "aaaYYXXbbb"));
}

int main(void) {
    memset(data, 'x', sizeof data);
    ranges();
    log_header();
    most_bytes();
    most_blocks();
    refusals();
    unmounted();
    room();
    damaged();
    in_part();
    torn();
    old_version_collected();
    earlier_version();
    read_again();
    return counted();
}
