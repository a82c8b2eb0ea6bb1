/* What the tests in C count their cases by. */
#ifndef CASES_H
#define CASES_H

#include <stdio.h>

static unsigned passed, failed;

static void check(int holds, const char *what, int line) {
    if (holds) {
        passed++;
    } else {
        failed++;
        printf("FAILED: line %d: %s\n", line, what);
    }
}

#define CHECK(what) check(what, #what, __LINE__)
/* what a case stands on; counted only where it does not hold */
#define NEED(what) ((what) ? (void)0 : check(0, #what, __LINE__))

/* Prints the count, and gives the status. */
static int counted(void) {
    printf("%u passed, %u failed\n", passed, failed);
    return failed != 0;
}

#endif
