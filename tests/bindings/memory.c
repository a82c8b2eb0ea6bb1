/*
 * The calls where memory is tight: every slice ends at a page that cannot be touched, or begins behind one; slices at odd addresses; lengths
 * of 2^32 and more; four threads that read one image. A call that leaves its slices ends the program by a signal. Prints one line a
 * failure, then the count.
 */
#define _GNU_SOURCE
#include "nffs.h"

#include <pthread.h>
#include <stdio.h>
#include <stdlib.h>
#include <sys/mman.h>
#include <unistd.h>

enum { AREA = 4096, AREAS = 3, IMAGE = AREA * AREAS, DATA = 3000 };
static unsigned passed, failed;

static void check(const char *what, int holds) {
    if (holds) {
        passed++;
    } else {
        failed++;
        printf("FAILED: %s\n", what);
    }
}

/* Memory of so many bytes between two pages that cannot be touched: its end at the one behind, or its start at the one before. */
static void *guarded(size_t size, int at_end) {
    const size_t page = (size_t)sysconf(_SC_PAGESIZE);
    const size_t room = (size + page - 1) / page * page;
    uint8_t *const all = mmap(NULL, room + 2 * page, PROT_NONE, MAP_PRIVATE | MAP_ANONYMOUS, -1, 0);
    if (all == MAP_FAILED || mprotect(all + page, room, PROT_READ | PROT_WRITE) != 0) {
        perror("memory");
        exit(2);
    }
    return all + page + (at_end ? room - size : 0);
}

static void *copied(const void *bytes, size_t size, int at_end) {
    return memcpy(guarded(size, at_end), bytes, size);
}

/* Bytes from either end of the data are written over the second block, and it is restored; whether it reads so. */
static int overwritten(uint8_t *image, const nffs_area *areas, const uint8_t *path, const uint8_t *data, uint8_t *buffer, uint32_t id) {
    enum { PART = 500, AT = DATA - PART - 100 };
    static const uint8_t none[1];
    int good = 1;
    for (int end = 0; end < 2; end++) {
        const uint8_t *const part = end ? data + DATA - PART : data;
        good &= nffs_overwrite(image, IMAGE, areas, AREAS, none, 0, path, 2, AT, part, PART) == NFFS_OK;
        good &= nffs_read_at(image, IMAGE, areas, AREAS, id, 0, buffer, DATA).given == DATA && memcmp(buffer + AT, part, PART) == 0;
        good &= memcmp(buffer, data, AT) == 0 && memcmp(buffer + AT + PART, data + AT + PART, DATA - AT - PART) == 0;
        good &= nffs_overwrite(image, IMAGE, areas, AREAS, none, 0, path, 2, AT, data + AT, PART) == NFFS_OK;
    }
    return good;
}

/* The tree in the front and in the back of the buffer, whole and cut; whether it is as it should be. */
static int listed(const uint8_t *image, const nffs_area *areas, uint8_t *buffer) {
    static const char text[] = "/\n a 3000\n";
    enum { WHOLE = sizeof text - 1 };
    int good = 1;
    for (size_t given = 0; given <= WHOLE; given++) {
        for (int end = 0; end < 2; end++) {
            uint8_t *const part = end ? buffer + DATA - given : buffer;
            const nffs_tree_answer tree = nffs_tree(image, IMAGE, areas, AREAS, part, given);
            good &= tree.number == NFFS_OK && tree.length == WHOLE && memcmp(part, text, given) == 0;
        }
    }
    return good & (nffs_tree(image, IMAGE, areas, AREAS, buffer, DATA).length == WHOLE && memcmp(buffer, text, WHOLE) == 0);
}

/* Each call once over these slices; whether all is as it should be. The file is renamed to the second path. */
static int all_calls(uint8_t *image, const nffs_area *areas, const uint8_t *path, const uint8_t *second, const uint8_t *data, uint8_t *buffer,
                     nffs_handle *handle) {
    static const uint8_t none[1];
    int good = nffs_format(image, IMAGE, areas, AREAS) == NFFS_OK;
    good &= nffs_create(image, IMAGE, areas, AREAS, none, 0, path, 2, NFFS_FILE).number == NFFS_OK;
    good &= nffs_append(image, IMAGE, areas, AREAS, none, 0, path, 2, data, DATA) == NFFS_OK;
    good &= nffs_lookup(image, IMAGE, areas, AREAS, none, 0, path, 2).number == NFFS_OK;
    /* root, file and two blocks */
    for (uint32_t index = 0; index < AREAS; index++) {
        good &= nffs_area_report(image, IMAGE, areas, AREAS, index, 0).records == (index == 1 ? 4 : 0);
    }
    good &= nffs_area_report(image, IMAGE, areas, AREAS, AREAS, UINT32_MAX).number == NFFS_BAD_AREAS;
    good &= listed(image, areas, buffer);
    const nffs_open_answer opened = nffs_open(image, IMAGE, areas, AREAS, none, 0, path, 2);
    handle->id = opened.id;
    handle->position = opened.position;
    good &= overwritten(image, areas, path, data, buffer, opened.id);
    const nffs_read_answer read = nffs_read(image, IMAGE, areas, AREAS, handle, buffer, DATA);
    good &= read.number == NFFS_OK && read.given == DATA && memcmp(buffer, data, DATA) == 0 && handle->position == DATA;
    good &= nffs_read_at(image, IMAGE, areas, AREAS, opened.id, 1, buffer, DATA).given == DATA - 1;
    good &= nffs_rename(image, IMAGE, areas, AREAS, none, 0, path, 2, second, 2) == NFFS_OK;
    good &= nffs_collect(image, IMAGE, areas, AREAS) == NFFS_OK;
    good &= nffs_unlink(image, IMAGE, areas, AREAS, none, 0, second, 2) == NFFS_OK;
    return good & (nffs_report(image, IMAGE, areas, AREAS).live == 1);
}

static const nffs_area areas[AREAS] = {{0, AREA}, {AREA, AREA}, {2 * AREA, AREA}};
static uint8_t data[DATA];

static void guards(int at_end) {
    check(at_end ? "slices before a page that cannot be touched" : "slices behind a page that cannot be touched",
          all_calls(guarded(IMAGE, at_end), copied(areas, sizeof areas, at_end), copied("/a", 2, at_end), copied("/b", 2, at_end),
                    copied(data, DATA, at_end), guarded(DATA, at_end), guarded(sizeof(nffs_handle), at_end)));
}

/* Lists of few and of too many areas: nothing is looked at behind the last entry. */
static void lists(void) {
    enum { MOST = NFFS_MOST_AREAS + 4, LENGTH = 128 };
    static uint8_t image[MOST * LENGTH], text[1];
    nffs_area list[MOST];
    for (uint32_t i = 0; i < MOST; i++) {
        list[i] = (nffs_area){i * LENGTH, LENGTH};
    }
    for (size_t count = 2; count <= MOST; count++) {
        const nffs_area *const lent = copied(list, count * sizeof list[0], 1);
        const uint32_t number = count <= NFFS_MOST_AREAS ? NFFS_OK : NFFS_BAD_AREAS;
        check("a list before a page that cannot be touched", nffs_format(image, sizeof image, lent, count) == number &&
              nffs_collect(image, sizeof image, lent, count) == number && nffs_report(image, sizeof image, lent, count).number == number &&
              nffs_tree(image, sizeof image, lent, count, text, 1).number == number &&
              nffs_area_report(image, sizeof image, lent, count, (uint32_t)count - 1, 0).number == number &&
              nffs_area_report(image, sizeof image, lent, count, (uint32_t)count, 0).number == NFFS_BAD_AREAS);
    }
}

/* Slices of bytes may begin anywhere. */
static void odd_addresses(void) {
    for (size_t by = 1; by < 16; by++) {
        uint8_t *const image = malloc(IMAGE + by), *const text = malloc(DATA + by), *const buffer = malloc(DATA + by), paths[] = "................/a/b";
        nffs_handle handle;
        memcpy(text + by, data, DATA);
        memcpy(paths + by, "/a/b", 4);
        check("odd addresses", all_calls(image + by, areas, paths + by, paths + by + 2, text + by, buffer + by, &handle));
        free(image);
        free(text);
        free(buffer);
    }
}

/* Lengths are taken whole, not modulo 2^32: what is too long is refused, and a long buffer is filled in front. */
static void long_lengths(void) {
    const size_t huge = ((size_t)1 << 32) + IMAGE;
    uint8_t *const far = mmap(NULL, huge, PROT_READ | PROT_WRITE, MAP_PRIVATE | MAP_ANONYMOUS | MAP_NORESERVE, -1, 0);
    if (far == MAP_FAILED) {
        perror("memory");
        exit(2);
    }
    check("an image of 2^32 bytes more", nffs_format(far, huge, areas, AREAS) == NFFS_BAD_AREAS);
    check("an image of 2^32 bytes", nffs_report(far, (size_t)1 << 32, areas, AREAS).number == NFFS_BAD_AREAS);
    check("an area of it", nffs_area_report(far, (size_t)1 << 32, areas, AREAS, 0, 0).number == NFFS_BAD_AREAS);
    static uint8_t byte;
    check("its tree", nffs_tree(far, (size_t)1 << 32, areas, AREAS, &byte, 1).number == NFFS_BAD_AREAS && byte == 0);
    uint8_t *const image = malloc(IMAGE);
    static const uint8_t none[1], path[] = "/a";
    check("a volume", nffs_format(image, IMAGE, areas, AREAS) == NFFS_OK);
    check("a path of 2^32 bytes more", nffs_lookup(image, IMAGE, areas, AREAS, none, 0, far, ((size_t)1 << 32) + 1).number == NFFS_BAD_PATH);
    const uint32_t id = nffs_create(image, IMAGE, areas, AREAS, none, 0, path, 2, NFFS_FILE).id;
    check("data of 2^32 bytes", nffs_append(image, IMAGE, areas, AREAS, none, 0, path, 2, far, (size_t)1 << 32) == NFFS_BAD_PATH);
    check("data of 2^32 bytes to overwrite", nffs_overwrite(image, IMAGE, areas, AREAS, none, 0, path, 2, 0, far, (size_t)1 << 32) == NFFS_BAD_PATH);
    check("a new path of 2^32 bytes more", nffs_rename(image, IMAGE, areas, AREAS, none, 0, path, 2, far, ((size_t)1 << 32) + 1) == NFFS_BAD_PATH);
    check("an old path of 2^32 bytes more", nffs_rename(image, IMAGE, areas, AREAS, none, 0, far, ((size_t)1 << 32) + 1, path, 2) == NFFS_BAD_PATH);
    check("an append", nffs_append(image, IMAGE, areas, AREAS, none, 0, path, 2, data, DATA) == NFFS_OK);
    const nffs_read_answer read = nffs_read_at(image, IMAGE, areas, AREAS, id, 0, far, huge);
    check("a buffer of 2^32 bytes more", read.number == NFFS_OK && read.given == DATA && memcmp(far, data, DATA) == 0);
    check("nothing behind what was given", far[DATA] == 0);
    const nffs_tree_answer tree = nffs_tree(image, IMAGE, areas, AREAS, far, huge);
    check("a text of 2^32 bytes more", tree.number == NFFS_OK && tree.length == 10 && memcmp(far, "/\n a 3000\n", 10) == 0);
    check("nothing behind the text", memcmp(far + 10, data + 10, DATA - 10) == 0 && far[DATA] == 0);
    const nffs_area *const list = (const nffs_area *)(far + 2 * AREA);
    check("a list of 2^28 areas, of which the first ends it", nffs_report(image, IMAGE, list, (size_t)1 << 28).number == NFFS_BAD_AREAS);
    check("an entry behind its end", nffs_area_report(image, IMAGE, list, (size_t)1 << 28, 0, 0).number == NFFS_BAD_AREAS);
    free(image);
    munmap(far, huge);
}

/* Threads that read one image, each with its own handle and buffer. */
static uint8_t shared[IMAGE];
static uint32_t shared_id;

static void *reader(void *portion) {
    static const uint8_t none[1], path[] = "/a";
    for (int turn = 0; turn < 2000; turn++) {
        nffs_handle handle = {nffs_open(shared, IMAGE, areas, AREAS, none, 0, path, 2).id, 0};
        uint8_t all[DATA];
        uint32_t given = 1;
        while (given != 0 && handle.position < DATA) {
            const size_t left = DATA - handle.position, most = *(const size_t *)portion;
            given = nffs_read(shared, IMAGE, areas, AREAS, &handle, all + handle.position, left < most ? left : most).given;
        }
        if (handle.id != shared_id || handle.position != DATA || memcmp(all, data, DATA) != 0) {
            return NULL;
        }
    }
    return portion;
}

static void threads(void) {
    static const uint8_t none[1], path[] = "/a";
    static size_t portions[4] = {997, 1500, 2999, 3000};
    pthread_t started[4];
    int good = nffs_format(shared, IMAGE, areas, AREAS) == NFFS_OK;
    shared_id = nffs_create(shared, IMAGE, areas, AREAS, none, 0, path, 2, NFFS_FILE).id;
    good &= nffs_append(shared, IMAGE, areas, AREAS, none, 0, path, 2, data, DATA) == NFFS_OK;
    for (int i = 0; i < 4; i++) {
        good &= pthread_create(&started[i], NULL, reader, &portions[i]) == 0;
    }
    for (int i = 0; i < 4; i++) {
        void *answer = NULL;
        good &= pthread_join(started[i], &answer) == 0 && answer == &portions[i];
    }
    check("four threads that read one image", good);
}

int main(void) {
    for (size_t i = 0; i < DATA; i++) {
        data[i] = (uint8_t)(i * 7 + i / 256);
    }
    guards(1);
    guards(0);
    lists();
    odd_addresses();
    long_lengths();
    threads();
    printf("%u passed, %u failed\n", passed, failed);
    return failed != 0;
}
