/*
 * nffs.h: the calls of libnffs.a, NFFS version 0 over a lent flash image. Plain C11; C++ may include it too.
 *
 * Every call answers from the bytes it is given alone, as if the image were mounted anew: there is nothing to set up, to keep or to free.
 * No call allocates, panics or runs for ever, for any bytes. A refused call changes no byte of image, buffer, text or handle.
 *
 *   image   0 to 65,536 bytes, the flash.
 *   areas   offset and length of each area. The list ends at the first length 0 or at its end; what stands behind is not looked at. Good
 *           are 1 to 16 areas of 128 to 65,536 bytes, inside the image, none overlapping. One without a valid header is passed over with
 *           all that lies in it, by every call but nffs_format and nffs_area_report, which tells of it. Since version 0.4.0 a header whose
 *           reserved byte is not 0 is not valid, and an inode's record with such a byte is not read (docs/LINKING.md, "Volumes of other
 *           writers").
 *   base    what a path without a leading slash is taken below: a good absolute path. Otherwise it is not looked at and may be empty.
 *   path    1 to 1,024 bytes: "/", or names of 1 to 255 bytes parted by single slashes, none at the end, no NUL. Nothing has to stand
 *           behind it.
 *
 * How arguments pass (x86-64, System V). The archive takes a slice as two arguments of their own, first the pointer, then the number of
 * elements, never as a struct of the two: in nffs_read the buffer's pointer is in a register and its length on the stack. Numbers are
 * uint32_t. An answer of 4 or 8 bytes comes back in rax, of 12 in rax and edx, of 28 or 40 in memory that the caller lends. All this is what
 * a C compiler does with the prototypes below. Header and archive must be of one version: since 0.5.0 a report has 28 bytes, and an archive
 * writes them all, also over what stands behind the 20 that a program lends which was compiled with an older header.
 *
 * What the caller owes, because the proofs take it for granted:
 *   - a pointer is never null, for an empty slice neither, and those to nffs_area and nffs_handle are aligned for it;
 *   - so many elements are there, and nobody else writes them while the call runs;
 *   - what a call may write (image of a write, buffer, text, handle) overlaps no other argument.
 * The functions nffs_volume_* at the end see to the pointers of empty slices, and take paths as C strings.
 */
#ifndef NFFS_H
#define NFFS_H

#if !defined(__x86_64__) || defined(__ILP32__) || defined(_WIN32) || defined(__CYGWIN__)
#error "libnffs.a is for x86-64 with the System V calling convention"
#endif

#include <stddef.h>
#include <stdint.h>
#include <string.h>

/* Of the calls and their declarations here. */
#define NFFS_VERSION "0.8.0"

/* An answer that nobody looks at may be a refusal. */
#if defined(__cplusplus) && __cplusplus >= 201703L
#define NFFS_ANSWERS [[nodiscard]]
#else
#define NFFS_ANSWERS __attribute__((warn_unused_result))
#endif

#ifdef __cplusplus
extern "C" {
#endif

/* An area of the flash: where it starts in the image, and its length in bytes. */
typedef struct nffs_area {
    uint32_t offset;
    uint32_t length;
} nffs_area;

/* An open file: the id of its inode, and where the next read begins. */
typedef struct nffs_handle {
    uint32_t id;
    uint32_t position;
} nffs_handle;

/* The number in an answer: 0, or why the call was refused. The first check that fails is answered; with each call below stands which it
   makes, and in which order, which is not always that of the numbers. */
enum {
    NFFS_OK = 0,
    NFFS_BAD_AREAS = 1,           /* image over 65,536 bytes, or areas not good; nffs_area_report: or the list has no such entry */
    NFFS_SAME_AREA_ID = 2,        /* two file areas have one id */
    NFFS_NO_FILE_OR_SCRATCH = 3,  /* no file area, or not exactly one scratch area */
    NFFS_SHORT_SCRATCH = 4,       /* scratch shorter than a file area */
    NFFS_TOO_MANY_IDS = 5,        /* more than 256 inode ids or 1,024 block ids */
    NFFS_CONFLICT = 6,            /* two records of one id, same sequence, different bytes */
    NFFS_NO_ROOT = 7,             /* no record of the root */
    NFFS_BAD_PATH = 8,            /* bad path or name; over 8,192 bytes to append or overwrite; creating or unlinking the root, or renaming to it */
    NFFS_NOT_FOUND = 9,           /* no such child, or a handle's id is not live */
    NFFS_AMBIGUOUS = 10,          /* two or more live children of that name */
    NFFS_WRONG_KIND = 11,         /* a file where a directory is needed, or the reverse */
    NFFS_EXISTS = 12,             /* create, rename: the name is there */
    NFFS_BROKEN = 13,             /* read, append or overwrite of a broken file */
    NFFS_PAST_END = 14,           /* read begins after the end; overwrite begins or ends after it */
    NFFS_NO_ROOM = 15,            /* a record fits in no clean file area */
    NFFS_LAST_SEQUENCE = 16,      /* unlink, rename: the sequence is at its greatest; overwrite: that of a block in the range */
    NFFS_NO_SOURCE = 17,          /* collect: no file area is as long as the scratch area */
    NFFS_INTO_ITSELF = 18         /* rename: the root, or a directory moved below itself */
};

/* What nffs_lookup finds and nffs_create is told. To nffs_create every number but 0 is a file. */
enum { NFFS_DIRECTORY = 0, NFFS_FILE = 1 };

/* What nffs_area_report finds an area to be: without a valid header, and so passed over with all that lies in it; a file area; scratch. */
enum { NFFS_AREA_PASSED_OVER = 0, NFFS_AREA_FILE = 1, NFFS_AREA_SCRATCH = 2 };

/* The most areas of a list, the most bytes that one nffs_append or nffs_overwrite takes, and a length that no text of nffs_tree exceeds. */
enum { NFFS_MOST_AREAS = 16, NFFS_APPEND_MOST = 8192, NFFS_TREE_MOST = 102400 };

/* The answers. Where the number is not 0, the others are 0. */

/* Distinct inode ids, live inodes, damage stretches and their bytes; where the first of these stretches begins in the image, and its
   length, both 0 if there is none. The first is the first of the first damaged file area in the order of the list, which need not be the one
   with the lowest offset. Of the last stretch of an area the bytes that read FF up to the area's end are left out and count as free: a torn
   or worn record can reach farther than is told. Not seen is what lies in scratch or in an area that is passed over; nor is a page that came
   back with its previous contents, where its checks are right: it is no damage and has no stretch. */
typedef struct nffs_report_answer {
    uint32_t number;
    uint32_t inodes;
    uint32_t live;
    uint32_t stretches;
    uint32_t skipped;
    uint32_t first_offset;
    uint32_t first_length;
} nffs_report_answer;

/* One area: its kind (NFFS_AREA_..); id and collection count of its header, both 0 where it is passed over; and, whatever its kind, what
   stands behind its first 24 bytes: records, damage stretches, their bytes, and the bytes of free space at its end. Then one of the
   stretches: where it begins, counted from the area's start, and its length, both 0 if there are not so many. Of the last one the bytes
   that read FF up to the area's end are free space. What is no record and not free in scratch, or in an area that is passed over, is told
   here too, but it is no damage of the volume. Header, records, stretches and free space are the whole area: 24 + bytes of records +
   skipped + free = its length. */
typedef struct nffs_area_answer {
    uint32_t number;
    uint32_t kind;
    uint32_t id;
    uint32_t count;
    uint32_t records;
    uint32_t stretches;
    uint32_t skipped;
    uint32_t free;
    uint32_t offset;
    uint32_t length;
} nffs_area_answer;

/* What a path leads to. */
typedef struct nffs_lookup_answer {
    uint32_t number;
    uint32_t id;
    uint32_t kind;
} nffs_lookup_answer;

/* An opened file: what its handle holds. */
typedef struct nffs_open_answer {
    uint32_t number;
    uint32_t id;
    uint32_t position;
} nffs_open_answer;

/* How many bytes a read gave, and how many block headers it followed. */
typedef struct nffs_read_answer {
    uint32_t number;
    uint32_t given;
    uint32_t headers;
} nffs_read_answer;

/* How long the text of a tree is, all of it, however much of it was written. */
typedef struct nffs_tree_answer {
    uint32_t number;
    uint32_t length;
} nffs_tree_answer;

/* The id of what was created. */
typedef struct nffs_create_answer {
    uint32_t number;
    uint32_t id;
} nffs_create_answer;

/* The calls of the archive. Behind each pointer to more than one element stands how many there are: bytes, or areas. */

/* Erases the areas and makes an empty volume of them: the longest, first among equals, is scratch, and the others are file areas. Needs
   two areas. Checks in order: 1, 3. */
NFFS_ANSWERS uint32_t nffs_format(uint8_t *image, size_t image_length, const nffs_area *areas, size_t areas_count);

/* The state of a volume: whether it mounts, what is in it, and where its damage begins. Checks in order: 1 to 7. */
NFFS_ANSWERS nffs_report_answer nffs_report(const uint8_t *image, size_t image_length, const nffs_area *areas, size_t areas_count);

/* The state of one area, entry index of the list, and its damage stretch of number stretch; both count from 0. It tells of the areas of a
   volume that does not mount, too. With each number below the answer's stretches it gives all of them; each call reads the area anew, so
   bound how many you ask for.
   Checks in order: 1, and 1 where the list has no entry `index`. */
NFFS_ANSWERS nffs_area_answer nffs_area_report(const uint8_t *image, size_t image_length, const nffs_area *areas, size_t areas_count,
                                  uint32_t index, uint32_t stretch);

/* What is live, as text, one line for each inode: its depth as spaces, its name and, for a file, a space and its size in decimal digits, or
   `broken`; then a newline. The first line is the root, "/" alone, at depth 0. The line of a directory is followed by those of what lies in it,
   in order of the names' bytes, a shorter name before a longer one that it begins, and by id where names are equal. So two children of one name,
   to which no path leads (10), are both there. What was deleted, and what is an orphan, is not. Nor is what lies in a directory at depth 64, or
   below it: where something live does, one line stands for all of it, 65 spaces and `deeper`. Where no directory has that line, there are as
   many lines as nffs_report counts live.
   As much as fits is written to the front of text, and the rest of it stays; the answer is the length of the whole. So an empty text asks for
   the length alone, and NFFS_TREE_MOST bytes are enough for any image. The text is bytes and no C string: nothing stands behind it, and a name
   holds any byte but NUL and slash. A newline in a name is written as a slash, so that a newline always ends a line, and each slash below the
   first line is a newline of a name. The last space of a file's line parts its size from its name, which may hold spaces and digits, too. But a
   line does not tell its kind: a directory `a 15` and a file `a` of 15 bytes have the same, and a name that begins with a space looks deeper
   than it is (docs/LINKING.md, "List what is live"). Checks in order: 1 to 7. */
NFFS_ANSWERS nffs_tree_answer nffs_tree(const uint8_t *image, size_t image_length, const nffs_area *areas, size_t areas_count,
                           uint8_t *text, size_t text_length);

/* What a path leads to: id and kind. Checks in order: 1 to 7, 8, then 9, 10 or 11 at the first step of the path that fails. */
NFFS_ANSWERS nffs_lookup_answer nffs_lookup(const uint8_t *image, size_t image_length, const nffs_area *areas, size_t areas_count,
                               const uint8_t *base, size_t base_length, const uint8_t *path, size_t path_length);

/* Opens the file of a path, at position 0. Checks in order: 1 to 7, 8, then 9, 10 or 11 at the first step of the path that fails, 11
   for a directory. */
NFFS_ANSWERS nffs_open_answer nffs_open(const uint8_t *image, size_t image_length, const nffs_area *areas, size_t areas_count,
                           const uint8_t *base, size_t base_length, const uint8_t *path, size_t path_length);

/* Reads from the handle's position on into the front of the buffer, as much as buffer and file allow, and moves the position behind
   what was given. At the end of the file it gives 0 bytes. Checks in order: 1 to 7, 9, 11, 13, 14. */
NFFS_ANSWERS nffs_read_answer nffs_read(const uint8_t *image, size_t image_length, const nffs_area *areas, size_t areas_count,
                           nffs_handle *handle, uint8_t *buffer, size_t buffer_length);

/* The same with id and position by value. Checks in order: 1 to 7, 9, 11, 13, 14. */
NFFS_ANSWERS nffs_read_answer nffs_read_at(const uint8_t *image, size_t image_length, const nffs_area *areas, size_t areas_count,
                              uint32_t id, uint32_t position, uint8_t *buffer, size_t buffer_length);

/* Creates an empty directory or file. Checks in order: 1 to 7, 8, then 9, 10 or 11 at the first step before the last name that fails,
   11 where the last name is asked for below a file, 12, 5 with the new inode counted in, 15. */
NFFS_ANSWERS nffs_create_answer nffs_create(uint8_t *image, size_t image_length, const nffs_area *areas, size_t areas_count,
                               const uint8_t *base, size_t base_length, const uint8_t *path, size_t path_length, uint32_t kind);

/* Appends data to a file, all of it or nothing; at most NFFS_APPEND_MOST bytes. It is stored in blocks, whose greatest size follows from
   the shortest file area: 2,048 bytes where that has 4,168 or more (docs/LINKING.md, "Plan the areas"). Checks in order: 1 to 7, 8, then
   9, 10 or 11 at the first step of the path that fails, 11 for a directory, 13, 5 with the new blocks counted in, 15. */
NFFS_ANSWERS uint32_t nffs_append(uint8_t *image, size_t image_length, const nffs_area *areas, size_t areas_count,
                     const uint8_t *base, size_t base_length, const uint8_t *path, size_t path_length,
                     const uint8_t *data, size_t data_length);

/* Writes data over what a file holds from offset on, all of it or nothing; at most NFFS_APPEND_MOST bytes, and within the file's size: it gets
   no longer. Every other byte stays, and so do its id, handles to it, and how many headers a read follows. Each block that holds a byte of the
   range is written anew, whole, in file order, where any new record goes. So it needs room for a copy of each such block, 24 bytes and the
   block's length, however few bytes change; the old versions keep their room until their areas are collected. 0 bytes write nothing.
   A range in one block is one record. One in several is several records: where only some of them come to the flash, or one is damaged
   or comes back stale, the file reads partly new and partly old, each block with a right check, and a report need not show it
   (docs/LINKING.md, "Rewrite in place"). Checks in order: 1 to 7, 8, then 9, 10 or 11 at the first step of the path that fails, 11 for a
   directory, 13, 14 where offset or end is past the size, 16 where a block of the range is at the greatest sequence, 15. */
NFFS_ANSWERS uint32_t nffs_overwrite(uint8_t *image, size_t image_length, const nffs_area *areas, size_t areas_count,
                        const uint8_t *base, size_t base_length, const uint8_t *path, size_t path_length,
                        uint32_t offset, const uint8_t *data, size_t data_length);

/* Deletes a file, or a directory with what lies below it. Checks in order: 1 to 7, 8, then 9, 10 or 11 at the first step of the path
   that fails, 16, 15. */
NFFS_ANSWERS uint32_t nffs_unlink(uint8_t *image, size_t image_length, const nffs_area *areas, size_t areas_count,
                     const uint8_t *base, size_t base_length, const uint8_t *path, size_t path_length);

/* Gives a file or a directory another name, another directory, or both; one base serves both paths. Its inode is written anew with the same
   id, so that a file keeps its contents, handles to it stay right, and what lies below a directory goes with it. What has the new name already
   is not replaced: 12. Where the new record is damaged, or comes back stale, the newest version that is left counts, whichever it is: an
   earlier name is back, or answers 10 where something else has it by now; where none is left, or it leads nowhere any more, the answer
   is 9. What is written while a record is lost can make the volume unmountable when it is read again: 6 (docs/LINKING.md, "Swap a table").
   What lies below a directory may get too deep for a base and a path of 1,024 bytes each: every call that is given its path answers 8 then.
   It stays live, and has a path again when a directory above it is renamed to a shorter one. Checks in order: 1 to 7, 8 of either path and
   for a new path "/", then 9, 10 or 11 at the first step of the old path that fails, then the same at the first step of the new path before
   its last name that fails, 11 where that name is asked for below a file, 12, 18, 16, 15. */
NFFS_ANSWERS uint32_t nffs_rename(uint8_t *image, size_t image_length, const nffs_area *areas, size_t areas_count,
                     const uint8_t *base, size_t base_length, const uint8_t *old_path, size_t old_length,
                     const uint8_t *new_path, size_t new_length);

/* Copies what counts in one file area into scratch and erases that area, which becomes scratch: superseded records leave room, deleted
   ones as soon as nothing else names them, and the damage of that area goes. One call collects one area: of the file areas as long as
   scratch the first that none of them precedes, by the counts in their headers, where 255 precedes 0; if there is none, the first
   (docs/LINKING.md, "Plan the areas"). Checks in order: 1 to 7, 17. */
NFFS_ANSWERS uint32_t nffs_collect(uint8_t *image, size_t image_length, const nffs_area *areas, size_t areas_count);

#ifdef __cplusplus
#define NFFS_HOLDS(what, words) static_assert(what, words)
#else
#define NFFS_HOLDS(what, words) _Static_assert(what, words)
#endif

NFFS_HOLDS(sizeof(nffs_area) == 8, "layout of nffs_area");
NFFS_HOLDS(sizeof(nffs_handle) == 8, "layout of nffs_handle");
NFFS_HOLDS(sizeof(nffs_report_answer) == 28, "layout of nffs_report_answer");
NFFS_HOLDS(sizeof(nffs_area_answer) == 40, "layout of nffs_area_answer");
NFFS_HOLDS(sizeof(nffs_lookup_answer) == 12, "layout of nffs_lookup_answer");
NFFS_HOLDS(sizeof(nffs_open_answer) == 12, "layout of nffs_open_answer");
NFFS_HOLDS(sizeof(nffs_read_answer) == 12, "layout of nffs_read_answer");
NFFS_HOLDS(sizeof(nffs_tree_answer) == 8, "layout of nffs_tree_answer");
NFFS_HOLDS(sizeof(nffs_create_answer) == 8, "layout of nffs_create_answer");

/* A number in words. */
static inline const char *nffs_meaning(uint32_t number) {
    switch (number) {
    case NFFS_OK: return "done";
    case NFFS_BAD_AREAS: return "image over 65,536 bytes, or areas not good (report of an area: or no such entry)";
    case NFFS_SAME_AREA_ID: return "two file areas have one id";
    case NFFS_NO_FILE_OR_SCRATCH: return "no file area, or not exactly one scratch area";
    case NFFS_SHORT_SCRATCH: return "scratch shorter than a file area";
    case NFFS_TOO_MANY_IDS: return "more than 256 inode ids or 1,024 block ids";
    case NFFS_CONFLICT: return "two records of one id, same sequence, different bytes";
    case NFFS_NO_ROOT: return "no record of the root";
    case NFFS_BAD_PATH: return "bad path or name, too much to append or overwrite, or creating or unlinking the root, or renaming to it";
    case NFFS_NOT_FOUND: return "no such child, or a handle's id is not live";
    case NFFS_AMBIGUOUS: return "two or more live children of that name";
    case NFFS_WRONG_KIND: return "a file where a directory is needed, or the reverse";
    case NFFS_EXISTS: return "the name is there already";
    case NFFS_BROKEN: return "the file is broken";
    case NFFS_PAST_END: return "read begins after the end, or overwrite begins or ends after it";
    case NFFS_NO_ROOM: return "a record fits in no clean file area";
    case NFFS_LAST_SEQUENCE: return "the sequence is at its greatest";
    case NFFS_NO_SOURCE: return "no file area is as long as the scratch area";
    case NFFS_INTO_ITSELF: return "renaming the root, or moving a directory below itself";
    default: return "a number that this version does not know";
    }
}

/* An image and its areas, as the functions below take them. A null pointer will do for what is empty. */
typedef struct nffs_volume {
    uint8_t *image;
    size_t image_length;
    const nffs_area *areas;
    size_t areas_count;
} nffs_volume;

/* A pointer that may be handed over: that of an empty slice must not be null, and is never followed. */
static inline const uint8_t *nffs_bytes(const void *bytes, size_t length) {
    return length == 0 ? (const uint8_t *)"" : (const uint8_t *)bytes;
}

static inline uint8_t *nffs_bytes_to_write(void *bytes, size_t length) {
    static uint8_t none;
    return length == 0 ? &none : (uint8_t *)bytes;
}

static inline const nffs_area *nffs_areas(const nffs_area *areas, size_t areas_count) {
    static const nffs_area none = {0, 0};
    return areas_count == 0 ? &none : areas;
}

static inline size_t nffs_text_length(const char *text) {
    return text == NULL ? 0 : strlen(text);
}

/* The four arguments that every call begins with, and the two of a C string. */
#define NFFS_IMAGE_(v) \
    nffs_bytes_to_write((v)->image, (v)->image_length), (v)->image_length, nffs_areas((v)->areas, (v)->areas_count), (v)->areas_count
#define NFFS_TEXT_(t) nffs_bytes(t, nffs_text_length(t)), nffs_text_length(t)

/* The calls on a volume. base and paths are C strings; a null base is an empty one. */

NFFS_ANSWERS static inline uint32_t nffs_volume_format(const nffs_volume *v) {
    return nffs_format(NFFS_IMAGE_(v));
}

NFFS_ANSWERS static inline nffs_report_answer nffs_volume_report(const nffs_volume *v) {
    return nffs_report(NFFS_IMAGE_(v));
}

NFFS_ANSWERS static inline nffs_area_answer nffs_volume_area_report(const nffs_volume *v, uint32_t index, uint32_t stretch) {
    return nffs_area_report(NFFS_IMAGE_(v), index, stretch);
}

NFFS_ANSWERS static inline nffs_tree_answer nffs_volume_tree(const nffs_volume *v, void *text, size_t length) {
    return nffs_tree(NFFS_IMAGE_(v), nffs_bytes_to_write(text, length), length);
}

NFFS_ANSWERS static inline nffs_lookup_answer nffs_volume_lookup(const nffs_volume *v, const char *base, const char *path) {
    return nffs_lookup(NFFS_IMAGE_(v), NFFS_TEXT_(base), NFFS_TEXT_(path));
}

/* Opens the file of a path; the handle is changed only where the answer is 0. */
NFFS_ANSWERS static inline uint32_t nffs_volume_open(const nffs_volume *v, const char *base, const char *path, nffs_handle *handle) {
    const nffs_open_answer opened = nffs_open(NFFS_IMAGE_(v), NFFS_TEXT_(base), NFFS_TEXT_(path));
    if (opened.number == NFFS_OK) {
        handle->id = opened.id;
        handle->position = opened.position;
    }
    return opened.number;
}

NFFS_ANSWERS static inline nffs_read_answer nffs_volume_read(const nffs_volume *v, nffs_handle *handle, void *buffer, size_t length) {
    return nffs_read(NFFS_IMAGE_(v), handle, nffs_bytes_to_write(buffer, length), length);
}

NFFS_ANSWERS static inline nffs_read_answer nffs_volume_read_at(const nffs_volume *v, uint32_t id, uint32_t position, void *buffer, size_t length) {
    return nffs_read_at(NFFS_IMAGE_(v), id, position, nffs_bytes_to_write(buffer, length), length);
}

NFFS_ANSWERS static inline nffs_create_answer nffs_volume_create(const nffs_volume *v, const char *base, const char *path, uint32_t kind) {
    return nffs_create(NFFS_IMAGE_(v), NFFS_TEXT_(base), NFFS_TEXT_(path), kind);
}

NFFS_ANSWERS static inline uint32_t nffs_volume_append(const nffs_volume *v, const char *base, const char *path, const void *data, size_t length) {
    return nffs_append(NFFS_IMAGE_(v), NFFS_TEXT_(base), NFFS_TEXT_(path), nffs_bytes(data, length), length);
}

NFFS_ANSWERS static inline uint32_t nffs_volume_overwrite(const nffs_volume *v, const char *base, const char *path, uint32_t offset,
                                                         const void *data, size_t length) {
    return nffs_overwrite(NFFS_IMAGE_(v), NFFS_TEXT_(base), NFFS_TEXT_(path), offset, nffs_bytes(data, length), length);
}

NFFS_ANSWERS static inline uint32_t nffs_volume_unlink(const nffs_volume *v, const char *base, const char *path) {
    return nffs_unlink(NFFS_IMAGE_(v), NFFS_TEXT_(base), NFFS_TEXT_(path));
}

NFFS_ANSWERS static inline uint32_t nffs_volume_rename(const nffs_volume *v, const char *base, const char *old_path, const char *new_path) {
    return nffs_rename(NFFS_IMAGE_(v), NFFS_TEXT_(base), NFFS_TEXT_(old_path), NFFS_TEXT_(new_path));
}

NFFS_ANSWERS static inline uint32_t nffs_volume_collect(const nffs_volume *v) {
    return nffs_collect(NFFS_IMAGE_(v));
}

#undef NFFS_IMAGE_
#undef NFFS_TEXT_
#undef NFFS_HOLDS
#undef NFFS_ANSWERS

#ifdef __cplusplus
}
#endif

#endif
