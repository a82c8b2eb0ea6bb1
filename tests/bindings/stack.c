/* How much stack each call uses, its return address included: it runs on a stack of its own that was painted, and what changed below its
   entry is counted. Prints 'call bytes'. */
#define _XOPEN_SOURCE 700

/* Each call by way of a stub that keeps the stack pointer as the call finds it. */
#define nffs_format entered_nffs_format
#define nffs_report entered_nffs_report
#define nffs_area_report entered_nffs_area_report
#define nffs_tree entered_nffs_tree
#define nffs_lookup entered_nffs_lookup
#define nffs_open entered_nffs_open
#define nffs_read entered_nffs_read
#define nffs_read_at entered_nffs_read_at
#define nffs_create entered_nffs_create
#define nffs_append entered_nffs_append
#define nffs_overwrite entered_nffs_overwrite
#define nffs_unlink entered_nffs_unlink
#define nffs_rename entered_nffs_rename
#define nffs_collect entered_nffs_collect
#include "nffs.h"

#define STUB(call) __asm__(".text\nentered_" call ":\n mov %rsp, entry(%rip)\n jmp " call "\n")
STUB("nffs_format");
STUB("nffs_report");
STUB("nffs_area_report");
STUB("nffs_tree");
STUB("nffs_lookup");
STUB("nffs_open");
STUB("nffs_read");
STUB("nffs_read_at");
STUB("nffs_create");
STUB("nffs_append");
STUB("nffs_overwrite");
STUB("nffs_unlink");
STUB("nffs_rename");
STUB("nffs_collect");

#include <stdio.h>
#include <stdlib.h>
#include <string.h>
#include <ucontext.h>

enum { AREAS = NFFS_MOST_AREAS, SIZE = 4096, PAINT = 0xa5 };
static uint8_t image[AREAS * SIZE];
static nffs_area areas[AREAS];
static const nffs_volume flash = {image, sizeof image, areas, AREAS};
static uint8_t data[NFFS_APPEND_MOST];
static uint8_t text[NFFS_TREE_MOST];
static nffs_handle handle;
static uint8_t stack[1 << 20];
static ucontext_t here, there;
const uint8_t *entry; /* set by the stubs */

static uint32_t number;

/* A name of 24 bytes: every mount checks one slice so long, for which the check makes its tables on the stack. */
#define HOME "/with-twenty-four-letters"

/* And one so long for the name that a rename writes. */
#define RENAMED "twenty-four-letters-more"

static void format(void) { number = nffs_volume_format(&flash); }
static void report(void) { number = nffs_volume_report(&flash).number; }
static void area_report(void) { number = nffs_volume_area_report(&flash, 1, 0).number; }
static void tree(void) { number = nffs_volume_tree(&flash, text, sizeof text).number; }
static void lookup(void) { number = nffs_volume_lookup(&flash, HOME, "f").number; }
static void open(void) { number = nffs_volume_open(&flash, HOME, "f", &handle); }
static void read(void) { number = nffs_volume_read(&flash, &handle, data, sizeof data).number; }
static void read_at(void) { number = nffs_volume_read_at(&flash, handle.id, 0, data, sizeof data).number; }
static void create(void) { number = nffs_volume_create(&flash, HOME, "f", NFFS_FILE).number; }
static void append(void) { number = nffs_volume_append(&flash, HOME, "f", data, sizeof data); }
static void overwrite(void) { number = nffs_volume_overwrite(&flash, HOME, "f", 0, data, sizeof data); }
static void unlink_(void) { number = nffs_volume_unlink(&flash, HOME, RENAMED); }
static void rename_(void) { number = nffs_volume_rename(&flash, HOME, "f", RENAMED); }
static void collect(void) { number = nffs_volume_collect(&flash); }

/* A directory for the file of the calls below. */
static void directory(void) { number = nffs_volume_create(&flash, NULL, HOME, NFFS_DIRECTORY).number; }

/* What the tree needs the most stack for: a file of several blocks at the greatest depth that is shown, 64, and a directory there in which
   something lies. */
static void deep(void) {
    char path[2 * 64 + 3] = "";
    for (int depth = 1; depth <= 65 && number == NFFS_OK; depth++) {
        if (depth == 64) {
            strcat(path, "/f");
            number = nffs_volume_create(&flash, NULL, path, NFFS_FILE).number;
            number |= nffs_volume_append(&flash, NULL, path, data, 100) | nffs_volume_append(&flash, NULL, path, data, 100);
            path[strlen(path) - 2] = 0;
        }
        strcat(path, "/d");
        number |= nffs_volume_create(&flash, NULL, path, NFFS_DIRECTORY).number;
    }
}

/* The bytes of the painted stack from a call's return address down to the deepest that changed. */
static size_t used(void (*call)(void)) {
    memset(stack, PAINT, sizeof stack);
    if (getcontext(&there) != 0) {
        exit(2);
    }
    there.uc_stack.ss_sp = stack;
    there.uc_stack.ss_size = sizeof stack;
    there.uc_link = &here;
    makecontext(&there, call, 0);
    if (swapcontext(&here, &there) != 0) {
        exit(2);
    }
    size_t free = 0;
    while (free < sizeof stack && stack[free] == PAINT) {
        free++;
    }
    return (size_t)(entry + sizeof(void *) - (stack + free));
}

int main(void) {
    static const struct {
        const char *name;
        void (*call)(void);
    } calls[] = {
        {"nffs_format", format},   {"nffs_create", create}, {"nffs_append", append},
        {"nffs_lookup", lookup},   {"nffs_open", open},     {"nffs_read", read},
        {"nffs_read_at", read_at}, {"nffs_area_report", area_report}, {"nffs_overwrite", overwrite},
        {"nffs_rename", rename_},  {"nffs_unlink", unlink_}, {"nffs_collect", collect},
        {"nffs_report", report},   {"nffs_tree", tree},
    };
    for (uint32_t i = 0; i < AREAS; i++) {
        areas[i].offset = i * SIZE;
        areas[i].length = SIZE;
    }
    /* each call once, format first, and each accepted */
    for (size_t i = 0; i < sizeof calls / sizeof calls[0]; i++) {
        if (calls[i].call == tree) {
            deep();
        }
        printf("%s %zu\n", calls[i].name, used(calls[i].call));
        if (number != NFFS_OK) {
            return 1;
        }
        if (calls[i].call == format) {
            directory();
        }
    }
    return 0;
}
