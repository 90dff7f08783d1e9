/* Expectations are counted. One that fails is printed with its line. */

#ifndef EXPECT_H
#define EXPECT_H

#include <stdio.h>

static unsigned passed, failed;

static void count(int holds, int line, const char *what)
{
    if (holds) {
        passed++;
    } else {
        failed++;
        printf("line %d: %s\n", line, what);
    }
}

#define HOLDS(what) count((what), __LINE__, "does not hold: " #what)

/* Prints the counts. Returns the exit status. */
static int counted(void)
{
    printf("%u passed, %u failed\n", passed, failed);
    return failed > 0;
}

#endif
