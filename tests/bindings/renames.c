/* nffs_rename from C: what it refuses, in which order, what it writes and what it keeps; and what docs/LINKING.md, 12, says of records that are
   damaged, come back stale, or are read again after a while. Ends with the count. */
#include "cases.h"
#include "nffs.h"

#include <string.h>

enum { SIZE = 4096, IMAGE = 2 * SIZE, WIDE = 65536, FILE_ID = 0x10000000, HEADER = 20 };
static uint8_t image[WIDE];
static uint8_t kept[WIDE];
/* two areas of SIZE; the cases further below take more of them */
static nffs_area areas[4] = {{0, SIZE}, {SIZE, SIZE}};
static nffs_volume flash = {image, IMAGE, areas, 2};

static uint32_t at(const char *path) {
    return nffs_volume_lookup(&flash, NULL, path).number;
}

static int leads(const char *path, uint32_t id) {
    const nffs_lookup_answer found = nffs_volume_lookup(&flash, NULL, path);
    return found.number == NFFS_OK && found.id == id;
}

static uint32_t moved(const char *old_path, const char *new_path) {
    return nffs_volume_rename(&flash, NULL, old_path, new_path);
}

static void directory(const char *path) {
    NEED(nffs_volume_create(&flash, NULL, path, NFFS_DIRECTORY).number == NFFS_OK);
}

static void file(const char *path, const char *text) {
    NEED(nffs_volume_create(&flash, NULL, path, NFFS_FILE).number == NFFS_OK);
    NEED(nffs_volume_append(&flash, NULL, path, text, strlen(text)) == NFFS_OK);
}

static int reads(const char *path, const char *text) {
    nffs_handle handle;
    uint8_t buffer[32];
    if (nffs_volume_open(&flash, NULL, path, &handle) != NFFS_OK) {
        return 0;
    }
    const nffs_read_answer read = nffs_volume_read(&flash, &handle, buffer, sizeof buffer);
    return read.number == NFFS_OK && read.given == strlen(text) && memcmp(buffer, text, read.given) == 0;
}

/* The index of the file area, which is scratch's after each collection, and where its free space begins in the image. */
static uint32_t file_area(void) {
    return nffs_volume_area_report(&flash, 0, 0).kind == NFFS_AREA_FILE ? 0 : 1;
}

static size_t free_from(void) {
    const uint32_t index = file_area();
    return areas[index].offset + SIZE - nffs_volume_area_report(&flash, index, 0).free;
}

/* Renames, and gives the place of the new record. */
static size_t moved_at(const char *old_path, const char *new_path) {
    const size_t place = free_from();
    NEED(moved(old_path, new_path) == NFFS_OK);
    return place;
}

/* One bit of a record's header is altered: it is surely read no more. */
static void damage(size_t place) {
    image[place + 5] ^= 1;
}

/* A volume with directories /d and /d/e, files /d/f and /g, and two files /d/e/t: of the first the deletion is damaged. */
static void filled(void) {
    NEED(nffs_volume_format(&flash) == NFFS_OK);
    directory("/d");
    directory("/d/e");
    file("/d/f", "abc");
    file("/g", "");
    file("/d/e/t", "");
    const size_t deletion = free_from();
    NEED(nffs_volume_unlink(&flash, NULL, "/d/e/t") == NFFS_OK);
    file("/d/e/t", "");
    damage(deletion);
    NEED(at("/d/e/t") == NFFS_AMBIGUOUS);
}

/* Each refusal of a path, alone and before later ones; none changes a byte. */
static void refusals(void) {
    static const struct {
        const char *old_path, *new_path;
        uint32_t number;
    } cases[] = {
        /* bad paths, before any walk */
        {"", "/x", NFFS_BAD_PATH}, {"d/f", "/x", NFFS_BAD_PATH}, {"/d/f", "/x/", NFFS_BAD_PATH}, {"/d/f", "/", NFFS_BAD_PATH},
        {"/none", "/", NFFS_BAD_PATH}, {"/none", "//x", NFFS_BAD_PATH}, {"/", "/", NFFS_BAD_PATH},
        /* the old path's walk, before the new one's */
        {"/none", "/x", NFFS_NOT_FOUND}, {"/none", "/g/x", NFFS_NOT_FOUND}, {"/none", "/g", NFFS_NOT_FOUND}, {"/d/none/f", "/g", NFFS_NOT_FOUND},
        {"/d/e/t", "/x", NFFS_AMBIGUOUS}, {"/d/e/t", "/none/x", NFFS_AMBIGUOUS}, {"/d/e/t/x", "/g", NFFS_AMBIGUOUS},
        {"/g/x", "/x", NFFS_WRONG_KIND}, {"/g/x", "/none/x", NFFS_WRONG_KIND}, {"/d/f/x", "/g", NFFS_WRONG_KIND},
        /* the new path's */
        {"/d/f", "/none/x", NFFS_NOT_FOUND}, {"/", "/none/x", NFFS_NOT_FOUND}, {"/d", "/d/none/x", NFFS_NOT_FOUND},
        {"/d/f", "/d/e/t/x", NFFS_AMBIGUOUS}, {"/d", "/d/e/t/x", NFFS_AMBIGUOUS},
        {"/d/f", "/g/x", NFFS_WRONG_KIND}, {"/d", "/d/f/x", NFFS_WRONG_KIND}, {"/", "/g/x", NFFS_WRONG_KIND}, {"/d/f", "/g/x/y", NFFS_WRONG_KIND},
        /* the new name is there, once or oftener; the present name is */
        {"/d/f", "/g", NFFS_EXISTS}, {"/d/f", "/d/e", NFFS_EXISTS}, {"/d/f", "/d/e/t", NFFS_EXISTS}, {"/d/f", "/d/f", NFFS_EXISTS},
        {"/d", "/d", NFFS_EXISTS}, {"/d", "/d/e", NFFS_EXISTS}, {"/", "/g", NFFS_EXISTS}, {"/", "/d/e/t", NFFS_EXISTS},
        /* the root, and a directory moved below itself */
        {"/", "/x", NFFS_INTO_ITSELF}, {"/", "/d/e/x", NFFS_INTO_ITSELF}, {"/d", "/d/x", NFFS_INTO_ITSELF}, {"/d", "/d/e/x", NFFS_INTO_ITSELF},
        /* nothing else is wrong, and the only file area is damaged */
        {"/d/f", "/x", NFFS_NO_ROOM}, {"/d/e", "/d/x", NFFS_NO_ROOM}, {"/d/e", "/e", NFFS_NO_ROOM},
    };
    filled();
    memcpy(kept, image, IMAGE);
    for (size_t i = 0; i < sizeof cases / sizeof cases[0]; i++) {
        const uint32_t number = moved(cases[i].old_path, cases[i].new_path);
        if (number != cases[i].number) {
            printf("%s to %s is %u, not %u\n", cases[i].old_path, cases[i].new_path, (unsigned)number, (unsigned)cases[i].number);
        }
        CHECK(number == cases[i].number && memcmp(kept, image, IMAGE) == 0);
    }
    /* one base for both, and only where a path is relative */
    CHECK(nffs_volume_rename(&flash, "/d", "none", "f") == NFFS_NOT_FOUND && nffs_volume_rename(&flash, "/d", "f", "e") == NFFS_EXISTS);
    CHECK(nffs_volume_rename(&flash, "d", "/d/f", "/g") == NFFS_EXISTS && nffs_volume_rename(&flash, "d", "/d/f", "g") == NFFS_BAD_PATH);
    CHECK(memcmp(kept, image, IMAGE) == 0);
}

/* What is written is one record at the start of free space: same id, sequence plus one, new parent, new name. */
static void record(void) {
    NEED(nffs_volume_format(&flash) == NFFS_OK);
    directory("/d");
    file("/f", "abc");
    memcpy(kept, image, IMAGE);
    const size_t place = moved_at("/f", "/d/name");
    static const uint8_t fields[] = {0xc0, 0x8b, 0x5f, 0x92, 0, 0, 0, 0x10, 1, 0, 0, 0, 1, 0, 0, 0, 0, 4};
    CHECK(memcmp(image + place, fields, sizeof fields) == 0 && memcmp(image + place + HEADER, "name", 4) == 0);
    CHECK(free_from() == place + HEADER + 4);
    CHECK(memcmp(image, kept, place) == 0 && memcmp(image + place + HEADER + 4, kept + place + HEADER + 4, IMAGE - place - HEADER - 4) == 0);
}

/* Names and places change; id, contents, handles and what lies below stay, through a collection too. */
static void moves(void) {
    nffs_handle handle;
    uint8_t buffer[4];
    NEED(nffs_volume_format(&flash) == NFFS_OK);
    directory("/d");
    directory("/d/e");
    file("/d/e/f", "abcd");
    file("/g", "other");
    CHECK(nffs_volume_open(&flash, NULL, "/d/e/f", &handle) == NFFS_OK);
    CHECK(nffs_volume_read(&flash, &handle, buffer, 2).given == 2);
    CHECK(nffs_volume_rename(&flash, "/d/e", "f", "h") == NFFS_OK && at("/d/e/f") == NFFS_NOT_FOUND && leads("/d/e/h", FILE_ID));
    CHECK(moved("/d/e", "/k") == NFFS_OK && at("/d/e") == NFFS_NOT_FOUND && at("/d/e/h") == NFFS_NOT_FOUND && leads("/k/h", FILE_ID));
    CHECK(moved("/d", "/k/d") == NFFS_OK && at("/k/d") == NFFS_OK);
    CHECK(moved("/k/h", "/d") == NFFS_OK && leads("/d", FILE_ID) && reads("/d", "abcd"));
    CHECK(nffs_volume_read(&flash, &handle, buffer, 4).given == 2 && memcmp(buffer, "cd", 2) == 0 && handle.id == FILE_ID);
    /* an old name is free again */
    CHECK(nffs_volume_create(&flash, NULL, "/k/h", NFFS_FILE).number == NFFS_OK && reads("/k/h", ""));
    for (int i = 0; i < 2; i++) {
        CHECK(nffs_volume_collect(&flash) == NFFS_OK && reads("/d", "abcd") && reads("/g", "other") && at("/k/d") == NFFS_OK);
    }
    CHECK(nffs_volume_report(&flash).live == 6 && nffs_volume_report(&flash).inodes == 6);
}

/* No id is new: with all of them used a rename is still accepted. The longest name is. */
static void limits(void) {
    enum { MOST = 256, LENGTH = 16384 };
    static uint8_t wide[2 * LENGTH];
    static const nffs_area two[] = {{0, LENGTH}, {LENGTH, LENGTH}};
    const nffs_volume volume = {wide, sizeof wide, two, 2};
    char name[258] = "/";
    NEED(nffs_volume_format(&volume) == NFFS_OK);
    for (int i = 1; i < MOST; i++) {
        snprintf(name + 1, 8, "%d", i);
        NEED(nffs_volume_create(&volume, NULL, name, NFFS_FILE).number == NFFS_OK);
    }
    CHECK(nffs_volume_create(&volume, NULL, "/x", NFFS_FILE).number == NFFS_TOO_MANY_IDS);
    CHECK(nffs_volume_rename(&volume, NULL, "/1", "/x") == NFFS_OK);
    memset(name + 1, 'n', 256);
    CHECK(nffs_volume_rename(&volume, NULL, "/x", name) == NFFS_BAD_PATH);
    name[256] = '\0';
    CHECK(nffs_volume_rename(&volume, NULL, "/x", name) == NFFS_OK && nffs_volume_lookup(&volume, NULL, name).id == FILE_ID);
    CHECK(nffs_volume_report(&volume).inodes == MOST && nffs_volume_report(&volume).live == MOST);
}

/* The update of a table up to its end, in a directory of its own; gives the places of the deletion and of the new name. */
static void updated(size_t *deletion, size_t *renamed) {
    NEED(nffs_volume_format(&flash) == NFFS_OK);
    directory("/dose");
    file("/dose/table", "old");
    file("/dose/table.new", "new");
    *deletion = free_from();
    NEED(nffs_volume_unlink(&flash, NULL, "/dose/table") == NFFS_OK);
    *renamed = moved_at("/dose/table.new", "/dose/table");
    NEED(reads("/dose/table", "new") && at("/dose/table.new") == NFFS_NOT_FOUND);
}

/* What damage to the last records of an update leaves. */
static void damaged_update(void) {
    size_t deletion, renamed;
    /* the new name is lost, and the old one back: finished once more, when a collection has made the area clean */
    updated(&deletion, &renamed);
    damage(renamed);
    CHECK(at("/dose/table") == NFFS_NOT_FOUND && reads("/dose/table.new", "new") && nffs_volume_report(&flash).stretches == 1);
    CHECK(moved("/dose/table.new", "/dose/table") == NFFS_NO_ROOM && nffs_volume_collect(&flash) == NFFS_OK);
    CHECK(moved("/dose/table.new", "/dose/table") == NFFS_OK && reads("/dose/table", "new"));
    /* the deletion is lost, and the old table back: two have the name */
    updated(&deletion, &renamed);
    damage(deletion);
    CHECK(at("/dose/table") == NFFS_AMBIGUOUS && at("/dose/table.new") == NFFS_NOT_FOUND && nffs_volume_report(&flash).stretches == 1);
    CHECK(moved("/dose/table", "/dose/x") == NFFS_AMBIGUOUS && nffs_volume_unlink(&flash, NULL, "/dose/table") == NFFS_AMBIGUOUS);
    CHECK(nffs_volume_collect(&flash) == NFFS_OK && moved("/dose", "/lost") == NFFS_OK && at("/dose/table") == NFFS_NOT_FOUND);
    /* both are */
    updated(&deletion, &renamed);
    damage(deletion);
    damage(renamed);
    CHECK(reads("/dose/table", "old") && reads("/dose/table.new", "new"));
    /* the new name is lost after the next update has begun: two have the old one */
    updated(&deletion, &renamed);
    file("/dose/table.new", "next");
    damage(renamed);
    CHECK(at("/dose/table") == NFFS_NOT_FOUND && at("/dose/table.new") == NFFS_AMBIGUOUS);
    /* stale: the bytes are those from before the rename, and no stretch tells it */
    updated(&deletion, &renamed);
    memset(image + renamed, 0xff, free_from() - renamed);
    CHECK(at("/dose/table") == NFFS_NOT_FOUND && reads("/dose/table.new", "new") && nffs_volume_report(&flash).stretches == 0);
}

/* Power that is lost in the middle of the rename: of its record only the first bytes are stored. All is as before it, and when a collection has
   made the area clean, it is finished. */
static void torn_update(void) {
    const size_t size = HEADER + strlen("table");
    size_t deletion, renamed;
    for (size_t stored = 1; stored < size; stored++) {
        updated(&deletion, &renamed);
        memset(image + renamed + stored, 0xff, size - stored);
        CHECK(at("/dose/table") == NFFS_NOT_FOUND && reads("/dose/table.new", "new") && nffs_volume_report(&flash).stretches == 1);
        CHECK(moved("/dose/table.new", "/dose/table") == NFFS_NO_ROOM && nffs_volume_collect(&flash) == NFFS_OK);
        CHECK(moved("/dose/table.new", "/dose/table") == NFFS_OK && reads("/dose/table", "new"));
    }
}

/* What else an updater is told: handles, a first table, and several tables at once in a directory. */
static void updates(void) {
    nffs_handle old, new;
    uint8_t byte;
    NEED(nffs_volume_format(&flash) == NFFS_OK);
    file("/table", "old");
    file("/table.new", "new");
    NEED(nffs_volume_open(&flash, NULL, "/table", &old) == NFFS_OK && nffs_volume_open(&flash, NULL, "/table.new", &new) == NFFS_OK);
    CHECK(nffs_volume_unlink(&flash, NULL, "/table") == NFFS_OK && nffs_volume_read(&flash, &old, &byte, 1).number == NFFS_NOT_FOUND);
    /* a collection in between changes nothing of what is found */
    CHECK(nffs_volume_collect(&flash) == NFFS_OK && at("/table") == NFFS_NOT_FOUND && reads("/table.new", "new"));
    CHECK(moved("/table.new", "/table") == NFFS_OK && nffs_volume_read(&flash, &new, &byte, 1).given == 1 && byte == 'n');
    /* the first table of all, in part: it looks as if the old one had been unlinked */
    NEED(nffs_volume_format(&flash) == NFFS_OK);
    file("/table.new", "n");
    CHECK(at("/table") == NFFS_NOT_FOUND && at("/table.new") == NFFS_OK);

    NEED(nffs_volume_format(&flash) == NFFS_OK);
    directory("/dose");
    directory("/dose/tables");
    file("/dose/tables/a", "old a");
    file("/dose/tables/b", "old b");
    directory("/dose/tables.new");
    file("/dose/tables.new/a", "new a");
    file("/dose/tables.new/b", "new b");
    CHECK(reads("/dose/tables/a", "old a") && reads("/dose/tables/b", "old b") && nffs_volume_unlink(&flash, NULL, "/dose/tables") == NFFS_OK);
    CHECK(moved("/dose/tables.new", "/dose/tables") == NFFS_OK && reads("/dose/tables/a", "new a") && reads("/dose/tables/b", "new b"));
}

/* Where nothing leads to it any more: the record before it was collected, or names a directory that is deleted, or lies below it by now. */
static void lost(void) {
    NEED(nffs_volume_format(&flash) == NFFS_OK);
    file("/a", "abc");
    CHECK(moved("/a", "/other") == NFFS_OK && nffs_volume_collect(&flash) == NFFS_OK && reads("/other", "abc"));
    /* the first record that was copied is the root's, the second the file's block, and then comes its name */
    damage(free_from() - HEADER - 5);
    CHECK(at("/other") == NFFS_NOT_FOUND && at("/a") == NFFS_NOT_FOUND && nffs_volume_report(&flash).inodes == 1);

    NEED(nffs_volume_format(&flash) == NFFS_OK);
    directory("/d");
    file("/d/f", "abc");
    size_t renamed = moved_at("/d/f", "/f");
    CHECK(nffs_volume_unlink(&flash, NULL, "/d") == NFFS_OK && reads("/f", "abc"));
    damage(renamed);
    CHECK(at("/f") == NFFS_NOT_FOUND && nffs_volume_report(&flash).live == 1);

    NEED(nffs_volume_format(&flash) == NFFS_OK);
    directory("/d");
    directory("/d/e");
    renamed = moved_at("/d/e", "/e");
    CHECK(moved("/d", "/e/d") == NFFS_OK && at("/e/d") == NFFS_OK);
    damage(renamed);
    CHECK(at("/e") == NFFS_NOT_FOUND && at("/d") == NFFS_NOT_FOUND && nffs_volume_report(&flash).live == 1);
}

/* From here on: several file areas, or others than before. */
static void formatted(uint32_t count, uint32_t length) {
    for (uint32_t i = 0; i < count; i++) {
        areas[i] = (nffs_area){i * length, length};
    }
    flash.image_length = (size_t)count * length;
    flash.areas_count = count;
    NEED(nffs_volume_format(&flash) == NFFS_OK);
}

/* The place of the last record of an inode with a name; with an empty one, of its deletion. 0 where there is none. */
static size_t found(uint32_t id, const char *name) {
    static const uint8_t magic[] = {0xc0, 0x8b, 0x5f, 0x92};
    const size_t length = strlen(name);
    size_t place = 0;
    for (size_t i = 0; i + HEADER + length <= flash.image_length; i++) {
        if (memcmp(image + i, magic, 4) == 0 && memcmp(image + i + 4, &id, 4) == 0 && image[i + 17] == length &&
            memcmp(image + i + HEADER, name, length) == 0) {
            place = i;
        }
    }
    return place;
}

/* The record is lost, or read again. */
static void toggle(uint32_t id, const char *name) {
    const size_t place = found(id, name);
    NEED(place != 0);
    image[place + 8] ^= 0x40;
}

/* Fills a file area with what is in use, up to its end: what comes next goes to another. Those before it are full. */
static void fill(uint32_t index) {
    enum { BLOCK = 24 };
    static const uint8_t bytes[800];
    uint32_t left;
    if (at("/fill") != NFFS_OK) {
        file("/fill", "");
    }
    while ((left = nffs_volume_area_report(&flash, index, 0).free) > BLOCK) {
        const uint32_t most = left - BLOCK;
        NEED(nffs_volume_append(&flash, NULL, "/fill", bytes, most <= 800 ? most : most < 900 ? 700 : 800) == NFFS_OK);
        if (nffs_volume_area_report(&flash, index, 0).free == left) {
            NEED(0);
            return;
        }
    }
    NEED(left < HEADER);
}

static uint32_t id_of(const char *path) {
    return nffs_volume_lookup(&flash, NULL, path).id;
}

static void unlinked(const char *path) {
    NEED(nffs_volume_unlink(&flash, NULL, path) == NFFS_OK);
}

static void collected(int times) {
    for (int i = 0; i < times; i++) {
        NEED(nffs_volume_collect(&flash) == NFFS_OK);
    }
}

/* The newest version that is left counts: of three names the first, where the second was collected and the third is lost. */
static void earlier_name(void) {
    formatted(4, 2048);
    collected(2);
    file("/a", "dose");
    const uint32_t id = id_of("/a");
    fill(1);
    NEED(moved("/a", "/b") == NFFS_OK);
    fill(2);
    NEED(moved("/b", "/c") == NFFS_OK);
    toggle(id, "c");
    CHECK(reads("/b", "dose") && at("/a") == NFFS_NOT_FOUND && at("/c") == NFFS_NOT_FOUND);
    toggle(id, "c");
    collected(1);
    NEED(found(id, "a") != 0 && found(id, "b") == 0 && reads("/c", "dose"));
    toggle(id, "c");
    CHECK(reads("/a", "dose") && at("/b") == NFFS_NOT_FOUND && at("/c") == NFFS_NOT_FOUND);
}

/* A swap whose last two records are lost, after the new table's first record was collected: the old table is all that is found. */
static void old_table_alone(void) {
    formatted(4, 2048);
    collected(2);
    directory("/t");
    file("/t/table", "old");
    fill(1);
    file("/t/table.new", "new");
    const uint32_t old = id_of("/t/table"), new = id_of("/t/table.new");
    fill(2);
    unlinked("/t/table");
    NEED(moved("/t/table.new", "/t/table") == NFFS_OK);
    collected(1);
    NEED(found(old, "table") != 0 && found(new, "table.new") == 0 && reads("/t/table", "new"));
    toggle(old, "");
    toggle(new, "table");
    CHECK(reads("/t/table", "old") && at("/t/table.new") == NFFS_NOT_FOUND);
}

/* The deletion of the old table is lost after its record was collected: nothing changes. Where its own first record, as table.new, is left, it is
   back under that name. */
static void old_table_collected(void) {
    formatted(2, SIZE);
    directory("/t");
    file("/t/table", "old");
    file("/t/table.new", "new");
    uint32_t old = id_of("/t/table");
    unlinked("/t/table");
    NEED(moved("/t/table.new", "/t/table") == NFFS_OK);
    collected(1);
    NEED(found(old, "table") == 0);
    toggle(old, "");
    CHECK(reads("/t/table", "new") && at("/t/table.new") == NFFS_NOT_FOUND);

    formatted(4, 2048);
    collected(2);
    directory("/t");
    file("/t/table.new", "old");
    old = id_of("/t/table.new");
    fill(1);
    NEED(moved("/t/table.new", "/t/table") == NFFS_OK);
    fill(2);
    file("/t/table.new", "new");
    unlinked("/t/table");
    NEED(moved("/t/table.new", "/t/table") == NFFS_OK);
    collected(1);
    NEED(found(old, "table.new") != 0 && found(old, "table") == 0);
    toggle(old, "");
    CHECK(reads("/t/table", "new") && reads("/t/table.new", "old"));
}

/* The new name is lost: what is in table.new is the only table, and the next update cannot create another. */
static void only_table(void) {
    formatted(3, SIZE);
    directory("/t");
    file("/t/table.new", "new");
    const uint32_t id = id_of("/t/table.new");
    NEED(moved("/t/table.new", "/t/table") == NFFS_OK);
    toggle(id, "table");
    CHECK(at("/t/table") == NFFS_NOT_FOUND && reads("/t/table.new", "new"));
    CHECK(nffs_volume_create(&flash, NULL, "/t/table.new", NFFS_FILE).number == NFFS_EXISTS);
}

/* A handle to the old table answers 9, until another file has its id. */
static void old_handle(void) {
    nffs_handle handle;
    char text[8] = "";
    formatted(2, SIZE);
    file("/table", "old");
    NEED(nffs_volume_open(&flash, NULL, "/table", &handle) == NFFS_OK);
    file("/table.new", "new");
    unlinked("/table");
    NEED(moved("/table.new", "/table") == NFFS_OK);
    collected(1);
    CHECK(nffs_volume_read_at(&flash, handle.id, 0, text, sizeof text).number == NFFS_NOT_FOUND);
    collected(1);
    file("/table.new", "next");
    CHECK(id_of("/table.new") == handle.id && nffs_volume_read(&flash, &handle, text, sizeof text).given == 4 && memcmp(text, "next", 4) == 0);
}

/* Moved into a directory, or out of one, that was deleted since. */
static void deleted_directory(void) {
    formatted(2, SIZE);
    directory("/trash");
    file("/cal", "last year");
    uint32_t id = id_of("/cal");
    NEED(moved("/cal", "/trash/calx") == NFFS_OK);
    unlinked("/trash");
    CHECK(at("/cal") == NFFS_NOT_FOUND && at("/trash/calx") == NFFS_NOT_FOUND);
    toggle(id, "calx");
    CHECK(reads("/cal", "last year"));

    formatted(3, SIZE);
    directory("/d");
    file("/d/f", "dose");
    id = id_of("/d/f");
    NEED(moved("/d/f", "/g") == NFFS_OK);
    unlinked("/d");
    toggle(id, "g");
    CHECK(at("/g") == NFFS_NOT_FOUND && found(id, "f") != 0);
    collected(3);
    CHECK(nffs_volume_report(&flash).live == 1 && found(id, "f") == 0 && found(id, "g") == 0);
}

/* A record is lost, something is written, and the record is read again. The same once more is harmless, all else is 6. A rename: */
static void rename_read_again(void) {
    formatted(3, SIZE);
    file("/a", "dose");
    const uint32_t id = id_of("/a");
    NEED(moved("/a", "/b") == NFFS_OK);
    toggle(id, "b");
    memcpy(kept, image, WIDE);
    const size_t place = found(id, "b");
    NEED(nffs_volume_report(&flash).stretches == 1);
    CHECK(moved("/a", "/b") == NFFS_OK);
    image[place + 8] ^= 0x40;
    CHECK(reads("/b", "dose") && nffs_volume_report(&flash).number == NFFS_OK);
    memcpy(image, kept, WIDE);
    CHECK(moved("/a", "/c") == NFFS_OK);
    image[place + 8] ^= 0x40;
    CHECK(nffs_volume_report(&flash).number == NFFS_CONFLICT && at("/c") == NFFS_CONFLICT);
    memcpy(image, kept, WIDE);
    unlinked("/a");
    image[place + 8] ^= 0x40;
    CHECK(nffs_volume_report(&flash).number == NFFS_CONFLICT && nffs_volume_collect(&flash) == NFFS_CONFLICT);
    /* it does not come back from an area that was collected: none is damaged then */
    memcpy(image, kept, WIDE);
    collected(2);
    CHECK(nffs_volume_report(&flash).stretches == 0 && found(id, "b") == 0 && moved("/a", "/c") == NFFS_OK && reads("/c", "dose"));
}

/* An unlink once more; and a create, then another with its id. */
static void unlink_and_create_read_again(void) {
    formatted(3, SIZE);
    file("/a", "dose");
    const uint32_t id = id_of("/a");
    unlinked("/a");
    const size_t deletion = found(id, "");
    image[deletion + 8] ^= 0x40;
    CHECK(nffs_volume_unlink(&flash, NULL, "/a") == NFFS_OK);
    image[deletion + 8] ^= 0x40;
    CHECK(nffs_volume_report(&flash).number == NFFS_OK && at("/a") == NFFS_NOT_FOUND);

    formatted(3, SIZE);
    NEED(nffs_volume_create(&flash, NULL, "/a", NFFS_FILE).number == NFFS_OK);
    const size_t created = found(id, "a");
    image[created + 8] ^= 0x40;
    CHECK(nffs_volume_create(&flash, NULL, "/other", NFFS_FILE).id == id);
    image[created + 8] ^= 0x40;
    CHECK(nffs_volume_report(&flash).number == NFFS_CONFLICT);
}

/* The header of the area is damaged, or the list leaves it out, where it is the last: no stretch tells it. */
static void area_read_again(void) {
    for (int left_out = 0; left_out < 2; left_out++) {
        formatted(4, 2048);
        file("/a", "dose");
        const uint32_t id = id_of("/a");
        fill(1);
        NEED(moved("/a", "/b") == NFFS_OK && found(id, "b") > areas[2].offset && found(id, "b") < areas[3].offset);
        const nffs_area last = areas[2];
        areas[2] = areas[3];
        areas[3] = last;
        flash.areas_count -= left_out;
        image[last.offset] ^= !left_out;
        CHECK(nffs_volume_report(&flash).stretches == 0 && reads("/a", "dose"));
        CHECK(left_out || nffs_volume_area_report(&flash, 3, 0).kind == NFFS_AREA_PASSED_OVER);
        unlinked("/a");
        image[last.offset] ^= !left_out;
        flash.areas_count = 4;
        CHECK(nffs_volume_report(&flash).number == NFFS_CONFLICT);
    }
}

enum { NAME = 255, LEVELS = 8 };
static char base[4 * (NAME + 1) + 1], path[5 * (NAME + 1) + 1], top[NAME + 2];

/* Two trees, of eight names with a file at the end, and of seven: a level below the other. `top` is the first name; a handle to the file. */
static nffs_handle two_trees(void) {
    nffs_handle handle = {0};
    formatted(4, 16384);
    for (int tree = 0; tree < 2; tree++) {
        for (int level = 0; level < LEVELS - tree; level++) {
            char *const to = level < 4 ? base : path;
            const int k = level % 4;
            to[k * (NAME + 1)] = '/';
            memset(to + k * (NAME + 1) + 1, 'a' + LEVELS * tree + level, NAME);
            to[(k + 1) * (NAME + 1)] = '\0';
            const char *const from = level < 4 ? base : path + 1;
            const uint32_t kind = level == LEVELS - 1 ? NFFS_FILE : NFFS_DIRECTORY;
            NEED(nffs_volume_create(&flash, level < 4 ? NULL : base, from, kind).number == NFFS_OK);
        }
        if (tree == 0) {
            NEED(nffs_volume_append(&flash, base, path + 1, "dose", 4) == NFFS_OK);
            NEED(nffs_volume_open(&flash, base, path + 1, &handle) == NFFS_OK);
            memcpy(top, base, NAME + 1);
        }
    }
    return handle;
}

/* Names of 255 bytes: what a rename moves too deep for base and path answers 8, is read by its id, and is back when it is moved up. */
static void too_deep(void) {
    uint8_t text[8];
    nffs_handle handle = two_trees();
    /* the first tree's top goes below the second tree */
    path[3 * (NAME + 1)] = '/';
    memcpy(path + 3 * (NAME + 1) + 1, top + 1, NAME);
    path[4 * (NAME + 1)] = '\0';
    CHECK(nffs_volume_rename(&flash, base, top, path + 1) == NFFS_OK && nffs_volume_lookup(&flash, base, path + 1).number == NFFS_OK);
    path[4 * (NAME + 1)] = '/';
    memset(path + 4 * (NAME + 1) + 1, 'b', NAME);
    CHECK(nffs_volume_lookup(&flash, base, path + 1).number == NFFS_BAD_PATH && nffs_volume_unlink(&flash, base, path + 1) == NFFS_BAD_PATH);
    CHECK(nffs_volume_report(&flash).live == 16 && nffs_volume_report(&flash).inodes == 16);
    CHECK(nffs_volume_read(&flash, &handle, text, sizeof text).given == 4 && memcmp(text, "dose", 4) == 0);
    collected(4);
    CHECK(nffs_volume_read_at(&flash, handle.id, 0, text, sizeof text).given == 4 && nffs_volume_report(&flash).live == 16);
    path[4 * (NAME + 1)] = '\0';
    CHECK(nffs_volume_rename(&flash, base, path + 1, top) == NFFS_OK);
    char below[2 * (NAME + 1) + 1];
    memcpy(below, top, NAME + 1);
    below[NAME + 1] = '/';
    memset(below + NAME + 2, 'b', NAME);
    below[2 * (NAME + 1)] = '\0';
    CHECK(at(below) == NFFS_OK);
}

int main(void) {
    refusals();
    record();
    moves();
    limits();
    damaged_update();
    torn_update();
    updates();
    lost();
    earlier_name();
    old_table_alone();
    old_table_collected();
    only_table();
    old_handle();
    deleted_directory();
    rename_read_again();
    unlink_and_create_read_again();
    area_read_again();
    too_deep();
    return counted();
}
