/*
 * Tests for a call that computes bytes from a module and writes them into an
 * output, both in the memory of guarded.h. The test defines WRITING_CALL, the name
 * of the call. A call with further arguments is wrapped in a function without
 * them. The test also defines ENOUGH(length), the length of an output that is
 * always enough for a module of this length, and CHANGED_ROOMS, the lengths of
 * the outputs for a refused module.
 */

#ifndef WRITING_H
#define WRITING_H

#include "dbm0.h"
#include "expect.h"
#include "guarded.h"

#include <stdio.h>
#include <string.h>

#define LOAD(bytes) load_module((bytes), sizeof(bytes) - 1)

/* With an output of `room` bytes these bytes are written, and all bytes around them are unchanged. */
static void written(const char *bytes, size_t needed, size_t room, int line)
{
    uint8_t *out = output(room);
    dbm0_length_answer answer = WRITING_CALL(module, length, out, room);

    count(answer.number == 0 && answer.place == 0, line, "it is refused");
    count(answer.length == needed, line, "another length");
    count(memcmp(out, bytes, needed) == 0, line, "other bytes");
    count(rest_is_filled(room, needed), line, "bytes after or before it are changed");
}

/* With an output of `room` bytes the call is refused, and nothing is written. */
static void refused(uint64_t number, uint64_t place, size_t room, int line)
{
    dbm0_length_answer answer = WRITING_CALL(module, length, output(room), room);

    count(answer.number == number && answer.place == place, line, "another refusal");
    count(answer.length == 0, line, "a length with a refusal");
    count(rest_is_filled(room, 0), line, "a refusal changes the output");
}

/* For this module these bytes are written, with outputs from empty to longer than always enough. The module is unchanged. */
static void writes(
    const char *given, size_t given_length, const char *bytes, size_t needed, int line)
{
    size_t room;

    load_module(given, given_length);
    for (room = 0; room < needed; room++)
        refused(DBM0_MODULE_ROOM, needed, room, line);
    for (room = needed; room < ENOUGH(given_length) + 3; room++)
        written(bytes, needed, room, line);
    count(memcmp(module, given, given_length) == 0, line, "the module is changed");
}

#define WRITES(given, bytes) writes((given), sizeof(given) - 1, (bytes), sizeof(bytes) - 1, __LINE__)

/* One byte of the module is changed: this refusal, for outputs of all lengths. The byte is restored. */
static void changed(size_t at, uint8_t byte, uint64_t number, uint64_t place, int line)
{
    static const size_t rooms[] = CHANGED_ROOMS;
    uint8_t stored = module[at];
    size_t k;

    module[at] = byte;
    for (k = 0; k < sizeof rooms / sizeof *rooms; k++)
        refused(number, place, rooms[k], line);
    module[at] = stored;
}

#define CHANGED(at, byte, number, place) changed((at), (byte), (number), (place), __LINE__)

/* NULL with length 0: for both; for the output, with this module, which needs `needed` bytes; and for the module. */
static void nothing(const char *given, size_t given_length, size_t needed)
{
    dbm0_length_answer answer = WRITING_CALL(NULL, 0, NULL, 0);

    HOLDS(answer.number == 2 && answer.place == 0 && answer.length == 0);
    load_module(given, given_length);
    answer = WRITING_CALL(module, length, NULL, 0);
    HOLDS(answer.number == 17 && answer.place == needed && answer.length == 0);
    module = NULL, length = 0;
    refused(DBM0_MODULE_NOT_DBM0, 0, 10, __LINE__);
}

#define NOTHING(given, needed) nothing((given), sizeof(given) - 1, (needed))

#endif
