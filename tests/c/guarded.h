/*
 * Memory for a module, followed by memory for an output. Each is followed by a
 * page that can be neither read nor written. The test defines _DEFAULT_SOURCE,
 * for MAP_ANONYMOUS.
 */

#ifndef GUARDED_H
#define GUARDED_H

#include <stddef.h>
#include <stdint.h>
#include <stdio.h>
#include <string.h>
#include <sys/mman.h>

enum { PAGE = 4096, MODULE = 8 * PAGE, OUT = 8 * PAGE };
static uint8_t *memory, *out_memory;

static int make_memory(void)
{
    memory = mmap(NULL, MODULE + PAGE + OUT + PAGE, PROT_READ | PROT_WRITE,
                  MAP_PRIVATE | MAP_ANONYMOUS, -1, 0);
    if (memory == MAP_FAILED)
        return 0;
    out_memory = memory + MODULE + PAGE;
    return mprotect(memory + MODULE, PAGE, PROT_NONE) == 0
        && mprotect(out_memory + OUT, PAGE, PROT_NONE) == 0;
}

/* Called before the first expectation: makes the output line-buffered and allocates the memory. */
static int ready(void)
{
    setvbuf(stdout, NULL, _IOLBF, 0);
    if (make_memory())
        return 1;
    printf("there is no memory for the tests\n");
    return 0;
}

/* The module that is passed to a call. It ends at the end of its memory. */
static uint8_t *module;
static size_t length;

static void load_module(const char *bytes, size_t bytes_length)
{
    module = memory + MODULE - bytes_length;
    length = bytes_length;
    memcpy(module, bytes, bytes_length);
}

/* An output of `room` bytes at the end of its memory. The whole memory is filled with one byte. */
#define FILL 0xAA

static uint8_t *output(size_t room)
{
    memset(out_memory, FILL, OUT);
    return out_memory + OUT - room;
}

/* In the memory of an output of `room` bytes only the first `written` bytes are changed. */
static int rest_is_filled(size_t room, size_t written)
{
    size_t at;
    for (at = 0; at < OUT; at++)
        if ((at < OUT - room || at >= OUT - room + written) && out_memory[at] != FILL)
            return 0;
    return 1;
}

#endif
