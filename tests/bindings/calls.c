/* Every call from C: what is answered, what is written and what is left alone, with slices that are empty too. Ends with the count. */
#include "cases.h"
#include "nffs.h"

#include <string.h>

enum { SIZE = 4096 };
static uint8_t image[2 * SIZE];
static uint8_t kept[2 * SIZE];
static const nffs_area areas[] = {{0, SIZE}, {SIZE, SIZE}};
static const nffs_volume flash = {image, sizeof image, areas, 2};
static const nffs_volume nothing = {NULL, 0, NULL, 0};

static void keep(void) {
    memcpy(kept, image, sizeof image);
}

/* The image is as it was kept. */
static int same(void) {
    return memcmp(kept, image, sizeof image) == 0;
}

static int all(const uint8_t *bytes, size_t length, uint8_t value) {
    for (size_t i = 0; i < length; i++) {
        if (bytes[i] != value) {
            return 0;
        }
    }
    return 1;
}

/* An area's answer, field by field as the header has them. */
static int is_area(const nffs_area_answer *a, const uint32_t *expected) {
    const uint32_t fields[] = {a->number, a->kind, a->id, a->count, a->records, a->stretches, a->skipped, a->free, a->offset, a->length};
    return memcmp(fields, expected, sizeof fields) == 0;
}

/* Each answer between guards: an answer longer or shorter than the header says would show. */
static void layouts(void) {
    struct {
        uint32_t before[4];
        nffs_report_answer answer;
        uint32_t after[4];
    } report;
    memset(&report, 0xa5, sizeof report);
    report.answer = nffs_report(image, sizeof image, areas, 2);
    CHECK(report.answer.number == NFFS_OK && report.answer.inodes == 1 && report.answer.live == 1);
    CHECK(report.answer.stretches == 0 && report.answer.skipped == 0);
    CHECK(report.answer.first_offset == 0 && report.answer.first_length == 0);
    CHECK(all((const uint8_t *)report.before, sizeof report.before, 0xa5));
    CHECK(all((const uint8_t *)report.after, sizeof report.after, 0xa5));

    struct {
        uint32_t before[4];
        nffs_area_answer answer;
        uint32_t after[4];
    } area;
    memset(&area, 0xa5, sizeof area);
    area.answer = nffs_area_report(image, sizeof image, areas, 2, 1, 0);
    CHECK(is_area(&area.answer, (const uint32_t[]){NFFS_OK, NFFS_AREA_FILE, 0, 0, 1, 0, 0, SIZE - 44, 0, 0}));
    CHECK(all((const uint8_t *)area.before, sizeof area.before, 0xa5));
    CHECK(all((const uint8_t *)area.after, sizeof area.after, 0xa5));

    const nffs_lookup_answer root =
        nffs_lookup(image, sizeof image, areas, 2, (const uint8_t *)"", 0, (const uint8_t *)"/", 1);
    CHECK(root.number == NFFS_OK && root.id == 0 && root.kind == NFFS_DIRECTORY);
}

/* The calls, each asked about the root; of the area reports the first two entries of the list. */
enum { REPORT, TREE, LOOKUP, OPEN, READ, READ_AT, CREATE, APPEND, OVERWRITE, UNLINK, RENAME, COLLECT, FIRST_AREA, SECOND_AREA, FORMAT };

static uint32_t number_of(int call, const nffs_area *list, size_t count) {
    nffs_handle handle = {0, 0};
    uint8_t byte = 0;
    const uint8_t *const path = (const uint8_t *)"/";
    switch (call) {
    case REPORT: return nffs_report(image, sizeof image, list, count).number;
    case TREE: return nffs_tree(image, sizeof image, list, count, &byte, 1).number;
    case LOOKUP: return nffs_lookup(image, sizeof image, list, count, path, 0, path, 1).number;
    case OPEN: return nffs_open(image, sizeof image, list, count, path, 0, path, 1).number;
    case READ: return nffs_read(image, sizeof image, list, count, &handle, &byte, 1).number;
    case READ_AT: return nffs_read_at(image, sizeof image, list, count, 0, 0, &byte, 1).number;
    case CREATE: return nffs_create(image, sizeof image, list, count, path, 0, path, 1, NFFS_FILE).number;
    case APPEND: return nffs_append(image, sizeof image, list, count, path, 0, path, 1, &byte, 0);
    case OVERWRITE: return nffs_overwrite(image, sizeof image, list, count, path, 0, path, 1, 0, &byte, 0);
    case UNLINK: return nffs_unlink(image, sizeof image, list, count, path, 0, path, 1);
    case RENAME: return nffs_rename(image, sizeof image, list, count, path, 0, path, 1, (const uint8_t *)"/a", 2);
    case COLLECT: return nffs_collect(image, sizeof image, list, count);
    case FIRST_AREA: return nffs_area_report(image, sizeof image, list, count, 0, 0).number;
    case SECOND_AREA: return nffs_area_report(image, sizeof image, list, count, 1, 0).number;
    default: return nffs_format(image, sizeof image, list, count);
    }
}

enum { MOST = 20 };

/* What each call answers to a list whose end mark is at a place, to the same list up to its mark, and up to before it. */
static void ended_list(const nffs_area *list, size_t end) {
    static const uint32_t of_root[] = {
        [REPORT] = NFFS_OK, [TREE] = NFFS_OK, [LOOKUP] = NFFS_OK, [OPEN] = NFFS_WRONG_KIND, [READ] = NFFS_WRONG_KIND,
        [READ_AT] = NFFS_WRONG_KIND, [CREATE] = NFFS_BAD_PATH, [APPEND] = NFFS_WRONG_KIND, [OVERWRITE] = NFFS_WRONG_KIND, [UNLINK] = NFFS_BAD_PATH,
        [RENAME] = NFFS_INTO_ITSELF,
    };
    const uint32_t expected = end == 0 ? NFFS_BAD_AREAS : end == 1 ? NFFS_NO_FILE_OR_SCRATCH : end == 2 ? NFFS_OK : NFFS_BAD_AREAS;
    for (int call = REPORT; call <= RENAME; call++) {
        const uint32_t number = expected == NFFS_OK ? of_root[call] : expected;
        CHECK(number_of(call, list, MOST) == number);
        CHECK(number_of(call, list, end + 1) == number);
        CHECK(number_of(call, list, end) == number);
    }
    if (expected != NFFS_OK) {
        CHECK(number_of(COLLECT, list, MOST) == expected && number_of(COLLECT, list, end) == expected);
        CHECK(number_of(FORMAT, list, MOST) == expected && number_of(FORMAT, list, end) == expected);
    }
    /* of the check for 3 an area's report knows nothing; a list of one entry has no second */
    for (int call = FIRST_AREA; call <= SECOND_AREA; call++) {
        const uint32_t number = expected == NFFS_NO_FILE_OR_SCRATCH ? (call == FIRST_AREA ? NFFS_OK : NFFS_BAD_AREAS) : expected;
        CHECK(number_of(call, list, MOST) == number && number_of(call, list, end) == number);
    }
}

/* What a list of areas is: up to its end mark or its end, of any length. Every call is asked, and none changes what it refuses. */
static void area_lists(void) {
    nffs_area list[MOST];
    keep();
    for (size_t end = 0; end < MOST; end++) {
        /* behind the mark stands what would be bad */
        for (size_t i = 0; i < MOST; i++) {
            list[i] = i < 2 ? areas[i] : (nffs_area){9, 9};
        }
        list[end].length = 0;
        ended_list(list, end);
        CHECK(same());
    }
    CHECK(nffs_report(image, sizeof image - 1, areas, 2).number == NFFS_BAD_AREAS);
}

/* Good entries: sixteen are taken, seventeen or more are refused, and no call looks at a seventeenth behind the mark. */
static void most_areas(void) {
    static uint8_t wide[MOST * 128];
    nffs_area list[MOST];
    for (uint32_t i = 0; i < MOST; i++) {
        list[i] = (nffs_area){i * 128, 128};
    }
    for (size_t count = 2; count <= MOST; count++) {
        const uint32_t expected = count <= NFFS_MOST_AREAS ? NFFS_OK : NFFS_BAD_AREAS;
        CHECK(nffs_format(wide, sizeof wide, list, count) == expected);
        CHECK(nffs_report(wide, sizeof wide, list, count).number == expected);
    }
    CHECK(nffs_report(wide, sizeof wide, list, NFFS_MOST_AREAS).number == NFFS_OK);
    CHECK(nffs_area_report(wide, sizeof wide, list, NFFS_MOST_AREAS, NFFS_MOST_AREAS - 1, 0).number == NFFS_OK);
    CHECK(nffs_area_report(wide, sizeof wide, list, NFFS_MOST_AREAS, NFFS_MOST_AREAS, 0).number == NFFS_BAD_AREAS);
    CHECK(nffs_area_report(wide, sizeof wide, list, NFFS_MOST_AREAS + 1, 0, 0).number == NFFS_BAD_AREAS);
    CHECK(nffs_collect(wide, sizeof wide, list, NFFS_MOST_AREAS + 1) == NFFS_BAD_AREAS);
    list[NFFS_MOST_AREAS].length = 0;
    CHECK(nffs_report(wide, sizeof wide, list, MOST).number == NFFS_OK && nffs_collect(wide, sizeof wide, list, MOST) == NFFS_OK);
}

static void empty_slices(void) {
    uint8_t byte = 7;
    nffs_handle handle = {3, 4};
    CHECK(nffs_volume_format(&nothing) == NFFS_BAD_AREAS);
    CHECK(nffs_volume_report(&nothing).number == NFFS_BAD_AREAS);
    CHECK(nffs_volume_area_report(&nothing, 0, 0).number == NFFS_BAD_AREAS);
    CHECK(nffs_volume_tree(&nothing, NULL, 0).number == NFFS_BAD_AREAS && nffs_volume_tree(&nothing, &byte, 1).length == 0);
    CHECK(nffs_volume_lookup(&nothing, NULL, NULL).number == NFFS_BAD_AREAS);
    CHECK(nffs_volume_open(&nothing, NULL, NULL, &handle) == NFFS_BAD_AREAS);
    CHECK(nffs_volume_read(&nothing, &handle, NULL, 0).number == NFFS_BAD_AREAS);
    CHECK(nffs_volume_read_at(&nothing, 0, 0, &byte, 1).number == NFFS_BAD_AREAS);
    CHECK(nffs_volume_create(&nothing, NULL, NULL, NFFS_FILE).number == NFFS_BAD_AREAS);
    CHECK(nffs_volume_append(&nothing, NULL, NULL, NULL, 0) == NFFS_BAD_AREAS);
    CHECK(nffs_volume_overwrite(&nothing, NULL, NULL, 0, NULL, 0) == NFFS_BAD_AREAS);
    CHECK(nffs_volume_unlink(&nothing, NULL, NULL) == NFFS_BAD_AREAS);
    CHECK(nffs_volume_rename(&nothing, NULL, NULL, NULL) == NFFS_BAD_AREAS);
    CHECK(nffs_volume_collect(&nothing) == NFFS_BAD_AREAS);
    CHECK(byte == 7 && handle.id == 3 && handle.position == 4);

    CHECK(nffs_volume_lookup(&flash, NULL, NULL).number == NFFS_BAD_PATH);
    CHECK(nffs_volume_lookup(&flash, "/", "").number == NFFS_BAD_PATH);
    CHECK(nffs_volume_lookup(&flash, NULL, "a").number == NFFS_BAD_PATH);
    CHECK(nffs_volume_overwrite(&flash, NULL, NULL, 0, NULL, 0) == NFFS_BAD_PATH);
    CHECK(nffs_volume_rename(&flash, NULL, NULL, "/a") == NFFS_BAD_PATH && nffs_volume_rename(&flash, NULL, "/a", NULL) == NFFS_BAD_PATH);
}

static void paths(void) {
    nffs_handle handle = {3, 4};
    CHECK(nffs_volume_create(&flash, NULL, "/d", NFFS_DIRECTORY).id == 1);
    const nffs_create_answer file = nffs_volume_create(&flash, "/d", "f", 7);
    CHECK(file.number == NFFS_OK && file.id == 0x10000000);
    const nffs_lookup_answer found = nffs_volume_lookup(&flash, "/", "d/f");
    CHECK(found.number == NFFS_OK && found.id == file.id && found.kind == NFFS_FILE);
    CHECK(nffs_volume_open(&flash, NULL, "/d", &handle) == NFFS_WRONG_KIND && handle.id == 3 && handle.position == 4);
    CHECK(nffs_volume_open(&flash, NULL, "/d/f", &handle) == NFFS_OK && handle.id == file.id && handle.position == 0);

    keep();
    const nffs_create_answer again = nffs_volume_create(&flash, NULL, "/d/f", NFFS_FILE);
    CHECK(again.number == NFFS_EXISTS && again.id == 0);
    CHECK(nffs_volume_create(&flash, NULL, "/d/f/g", NFFS_FILE).number == NFFS_WRONG_KIND);
    CHECK(nffs_volume_create(&flash, NULL, "/", NFFS_FILE).number == NFFS_BAD_PATH);
    CHECK(nffs_volume_unlink(&flash, NULL, "/e") == NFFS_NOT_FOUND);
    CHECK(nffs_volume_append(&flash, NULL, "/d", "x", 1) == NFFS_WRONG_KIND);
    CHECK(nffs_volume_overwrite(&flash, NULL, "/d", 0, "x", 1) == NFFS_WRONG_KIND);
    CHECK(same());

    CHECK(nffs_volume_unlink(&flash, NULL, "/d") == NFFS_OK);
    CHECK(nffs_volume_lookup(&flash, "/d", "f").number == NFFS_NOT_FOUND);
    const nffs_report_answer report = nffs_volume_report(&flash);
    CHECK(report.number == NFFS_OK && report.inodes == 3 && report.live == 1);
}

/* Document 01's bench area: 10 and 5 bytes of 41 hex in file a. */
static void bench(void) {
    static uint8_t data[NFFS_APPEND_MOST + 1];
    memset(data, 0x41, sizeof data);
    CHECK(nffs_volume_format(&flash) == NFFS_OK);
    CHECK(nffs_volume_create(&flash, NULL, "/a", NFFS_FILE).number == NFFS_OK);
    CHECK(nffs_volume_append(&flash, NULL, "/a", data, 10) == NFFS_OK);
    CHECK(nffs_volume_append(&flash, "/", "a", data, 5) == NFFS_OK);
    CHECK(all(image + SIZE + 128, SIZE - 128, 0xff) && image[SIZE + 127] == 0x41);
    keep();
    CHECK(nffs_volume_append(&flash, NULL, "/a", NULL, 0) == NFFS_OK);
    CHECK(nffs_volume_append(&flash, NULL, "/a", data, sizeof data) == NFFS_BAD_PATH);
    CHECK(nffs_volume_append(&flash, NULL, "/a", data, SIZE) == NFFS_NO_ROOM);
    CHECK(same());

    image[SIZE + 70] ^= 1;
    const nffs_report_answer broken = nffs_volume_report(&flash);
    CHECK(broken.number == NFFS_OK && broken.stretches == 1 && broken.skipped == 34);
    CHECK(broken.first_offset == SIZE + 65 && broken.first_length == 34);
    CHECK(nffs_volume_read_at(&flash, 0x10000000, 0, data, 1).number == NFFS_BROKEN);
    image[SIZE + 70] ^= 1;
    image[SIZE + 103] ^= 1;
    const nffs_report_answer shorter = nffs_volume_report(&flash);
    CHECK(shorter.number == NFFS_OK && shorter.stretches == 1 && shorter.skipped == 29);
    CHECK(shorter.first_offset == SIZE + 99 && shorter.first_length == 29);
    CHECK(nffs_volume_read_at(&flash, 0x10000000, 0, data, sizeof data).given == 10);
    image[SIZE + 103] ^= 1;
}

/* What the area's report answers of its second stretch, of the first, and of none, while the records of "a" and of its second block are damaged. */
static void area_stretches(void) {
    uint32_t answer[] = {NFFS_OK, NFFS_AREA_FILE, 0, 0, 2, 2, 50, SIZE - 128, 99, 29};
    const nffs_area_answer last = nffs_volume_area_report(&flash, 1, 1);
    CHECK(is_area(&last, answer));
    answer[8] = 44;
    answer[9] = 21;
    const nffs_area_answer first = nffs_volume_area_report(&flash, 1, 0);
    CHECK(is_area(&first, answer));
    answer[8] = answer[9] = 0;
    for (int i = 0; i < 2; i++) {
        const nffs_area_answer none = nffs_volume_area_report(&flash, 1, i == 0 ? 2 : UINT32_MAX);
        CHECK(is_area(&none, answer));
    }
    /* the last area's damage is the report's first if its descriptor is, too */
    const nffs_area turned[] = {areas[1], areas[0]};
    CHECK(nffs_report(image, sizeof image, turned, 2).first_offset == SIZE + 44);
    CHECK(nffs_area_report(image, sizeof image, turned, 2, 0, 0).offset == 44);

    /* without a valid header nothing mounts; the bytes are told all the same, but nothing of the header */
    image[SIZE] ^= 1;
    CHECK(nffs_volume_report(&flash).number == NFFS_NO_FILE_OR_SCRATCH && nffs_volume_report(&flash).first_length == 0);
    answer[1] = NFFS_AREA_PASSED_OVER;
    const nffs_area_answer passed_over = nffs_volume_area_report(&flash, 1, UINT32_MAX);
    CHECK(is_area(&passed_over, answer));
    image[SIZE] ^= 1;
}

/* The same area by itself: its damage, its two stretches, and what else there may be. */
static void area_reports(void) {
    image[SIZE + 50] ^= 1;
    image[SIZE + 103] ^= 1;
    area_stretches();
    /* what lies in scratch is no damage */
    image[50] = 0;
    const nffs_area_answer scratch = nffs_volume_area_report(&flash, 0, 0);
    CHECK(is_area(&scratch, (const uint32_t[]){NFFS_OK, NFFS_AREA_SCRATCH, 255, 0, 0, 1, 27, SIZE - 51, 24, 27}));
    CHECK(nffs_volume_report(&flash).stretches == 2 && nffs_volume_report(&flash).first_offset == SIZE + 44);
    image[50] = 0xff;

    static const uint32_t beyond[] = {2, 16, 17, UINT32_MAX};
    for (size_t i = 0; i < sizeof beyond / sizeof beyond[0]; i++) {
        const nffs_area_answer refused = nffs_volume_area_report(&flash, beyond[i], 0);
        CHECK(is_area(&refused, (const uint32_t[10]){NFFS_BAD_AREAS}));
    }
    image[SIZE + 50] ^= 1;
    image[SIZE + 103] ^= 1;
    CHECK(same());
}

/* The tree of the volume is this text: in buffers of every length from none on, the front of it, and nothing behind; refused, nothing at all. */
static void is_tree(const char *text) {
    enum { GUARD = 8, MOST_TEXT = 64 };
    const size_t whole = strlen(text);
    uint8_t buffer[GUARD + MOST_TEXT + GUARD];
    keep();
    for (size_t length = 0; length <= MOST_TEXT; length++) {
        const size_t given = length < whole ? length : whole;
        memset(buffer, 0xa5, sizeof buffer);
        const nffs_tree_answer tree = nffs_volume_tree(&flash, buffer + GUARD, length);
        CHECK(tree.number == NFFS_OK && tree.length == whole && memcmp(buffer + GUARD, text, given) == 0);
        CHECK(all(buffer, GUARD, 0xa5) && all(buffer + GUARD + given, sizeof buffer - GUARD - given, 0xa5));
        memset(buffer, 0xa5, sizeof buffer);
        const nffs_tree_answer refused = nffs_tree(image, sizeof image, areas, 1, buffer + GUARD, length);
        CHECK(refused.number == NFFS_NO_FILE_OR_SCRATCH && refused.length == 0 && all(buffer, sizeof buffer, 0xa5));
    }
    CHECK(nffs_volume_tree(&flash, NULL, 0).length == whole && same());
}

/* Document 01's bench area, with its first block damaged, and with its second one; a directory and another file; a fresh pair. */
static void trees(void) {
    is_tree("/\n a 15\n");
    image[SIZE + 70] ^= 1;
    is_tree("/\n a broken\n");
    image[SIZE + 70] ^= 1;
    image[SIZE + 103] ^= 1;
    is_tree("/\n a 10\n");
    image[SIZE + 103] ^= 1;
    static uint8_t before[sizeof image];
    memcpy(before, image, sizeof image);
    CHECK(nffs_volume_create(&flash, NULL, "/\n", NFFS_DIRECTORY).number == NFFS_OK);
    CHECK(nffs_volume_create(&flash, "/\n", "b c", NFFS_FILE).number == NFFS_OK);
    CHECK(nffs_volume_create(&flash, NULL, "/a 15", NFFS_DIRECTORY).number == NFFS_OK);
    /* the newline comes before the letter, as the byte that it is in the name */
    is_tree("/\n /\n  b c 0\n a 15\n a 15\n");
    CHECK(nffs_volume_unlink(&flash, NULL, "/\n") == NFFS_OK);
    is_tree("/\n a 15\n a 15\n");
    CHECK(nffs_volume_format(&flash) == NFFS_OK);
    is_tree("/\n");
    memcpy(image, before, sizeof image);
}

static void reads(void) {
    uint8_t buffer[8];
    nffs_handle handle;
    CHECK(nffs_volume_open(&flash, NULL, "/a", &handle) == NFFS_OK);
    memset(buffer, 0xa5, sizeof buffer);
    nffs_read_answer read = nffs_volume_read(&flash, &handle, buffer + 1, 6);
    CHECK(read.number == NFFS_OK && read.given == 6 && read.headers == 2 && handle.position == 6);
    CHECK(buffer[0] == 0xa5 && all(buffer + 1, 6, 0x41) && buffer[7] == 0xa5);
    read = nffs_volume_read(&flash, &handle, NULL, 0);
    CHECK(read.number == NFFS_OK && read.given == 0 && read.headers == 0 && handle.position == 6);
    handle.position = 12;
    memset(buffer, 0xa5, sizeof buffer);
    read = nffs_volume_read(&flash, &handle, buffer, sizeof buffer);
    CHECK(read.given == 3 && read.headers == 1 && handle.position == 15);
    CHECK(all(buffer, 3, 0x41) && all(buffer + 3, 5, 0xa5));
    CHECK(nffs_volume_read(&flash, &handle, buffer, sizeof buffer).given == 0 && handle.position == 15);
    handle.position = 16;
    memset(buffer, 0xa5, sizeof buffer);
    read = nffs_volume_read(&flash, &handle, buffer, sizeof buffer);
    CHECK(read.number == NFFS_PAST_END && read.given == 0 && read.headers == 0);
    CHECK(handle.id == 0x10000000 && handle.position == 16 && all(buffer, sizeof buffer, 0xa5));
    CHECK(nffs_volume_read_at(&flash, 0, 0, buffer, 1).number == NFFS_WRONG_KIND);
    CHECK(nffs_volume_read_at(&flash, 0xffffffff, 0, buffer, 1).number == NFFS_NOT_FOUND);
    read = nffs_volume_read_at(&flash, 0x10000000, 9, buffer, 2);
    CHECK(read.number == NFFS_OK && read.given == 2 && read.headers == 2 && buffer[1] == 0x41 && buffer[2] == 0xa5);
}

/* Bytes 8 to 11 of the 15: both blocks are written anew behind the two, and nothing else changes. */
static void overwrite(void) {
    uint8_t buffer[20];
    keep();
    CHECK(nffs_volume_overwrite(&flash, "/", "a", 8, "\x42\x42\x42\x42", 4) == NFFS_OK);
    CHECK(memcmp(image, kept, SIZE + 128) == 0 && image[SIZE + 190] == 0x41 && all(image + SIZE + 191, SIZE - 191, 0xff));
    const nffs_read_answer read = nffs_volume_read_at(&flash, 0x10000000, 0, buffer, sizeof buffer);
    CHECK(read.number == NFFS_OK && read.given == 15 && read.headers == 2);
    CHECK(all(buffer, 8, 0x41) && all(buffer + 8, 4, 0x42) && all(buffer + 12, 3, 0x41));
    keep();
    CHECK(nffs_volume_overwrite(&flash, NULL, "/a", 15, NULL, 0) == NFFS_OK);
    CHECK(nffs_volume_overwrite(&flash, NULL, "/a", 16, NULL, 0) == NFFS_PAST_END);
    CHECK(nffs_volume_overwrite(&flash, NULL, "/a", 14, buffer, 2) == NFFS_PAST_END);
    CHECK(same());
}

/* The file area and scratch change places, and the image holds the file still: root, file and two blocks. */
static void collection(void) {
    uint8_t buffer[20];
    CHECK(nffs_volume_collect(&flash) == NFFS_OK);
    CHECK(all(image + SIZE + 24, SIZE - 24, 0xff) && nffs_volume_area_report(&flash, 0, 0).records == 4);
    CHECK(nffs_volume_read_at(&flash, 0x10000000, 0, buffer, sizeof buffer).given == 15);
    CHECK(all(buffer, 8, 0x41) && all(buffer + 8, 4, 0x42) && all(buffer + 12, 3, 0x41));
    CHECK(nffs_volume_report(&flash).live == 2);
}

static void meanings(void) {
    for (uint32_t n = 0; n <= NFFS_INTO_ITSELF; n++) {
        CHECK(strcmp(nffs_meaning(n), nffs_meaning(n + 1)) != 0);
    }
    CHECK(strcmp(nffs_meaning(NFFS_INTO_ITSELF + 1), nffs_meaning(UINT32_MAX)) == 0);
}

int main(void) {
    CHECK(nffs_volume_format(&flash) == NFFS_OK);
    layouts();
    area_lists();
    most_areas();
    empty_slices();
    paths();
    bench();
    area_reports();
    trees();
    reads();
    overwrite();
    collection();
    meanings();
    return counted();
}
