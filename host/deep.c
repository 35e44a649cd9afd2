/* Tables that take the most stack: a class at depth 8, inside structures, arrays, optionals and variants in any order, in any root. */
#include "deep.h"

#include <string.h>

enum { PREAMBLE = 1, TRACE_CLASS, STREAM_CLASS = 4, EVENT_CLASS, ROOT };
enum { BOOLEAN = 17, UNSIGNED, STRUCTURE = 28, STATIC_ARRAY, DYNAMIC_ARRAY, OPTIONAL, VARIANT, RANGE, OPTION };
enum { PAYLOAD = 5, NO_SLOT = 255, NO_CLOCK = 255 };

/* Of a wide table: its fragments of kinds 4 and 5, and the members of the payloads that fill it. */
enum { FRAGMENTS = 512, MEMBERS = 17 };

static void put(struct deep *deep, size_t bytes, const uint8_t *from)
{
    memcpy(deep->table + deep->table_bytes, from, bytes);
    deep->table_bytes += bytes;
}

#define PUT(deep, ...) put(deep, sizeof((const uint8_t[]){__VA_ARGS__}), (const uint8_t[]){__VA_ARGS__})

/* One element, present, the first option. */
static void put_around(struct deep *deep, unsigned digit, uint8_t flag, uint8_t count)
{
    switch (digit) {
    case 0: PUT(deep, STRUCTURE, 1, 0); break;
    case 1: PUT(deep, STATIC_ARRAY, 1, 0, 0); break;
    case 2: PUT(deep, DYNAMIC_ARRAY, count, 0); break;
    case 3: PUT(deep, OPTIONAL, flag, 0); break;
    default:
        PUT(deep, VARIANT, count, 1, OPTION, 1);
        PUT(deep, RANGE, 0, 0, 0, 0, 0, 0, 0, 0, 0, 1, 0, 0, 0, 0, 0, 0, 0);
    }
}

/* The deepest class: of one byte, but a float of four and a structure of none. What can set a slot does, and the arrays around it forget
 * that slot. */
static size_t put_leaf(struct deep *deep, unsigned leaf, uint8_t count)
{
    uint8_t own = count + 1;
    switch (leaf) {
    case 16: PUT(deep, 16, 8, 0, 0); return 1;
    case 17: PUT(deep, 17, 8, 0, 0, own); return 1;
    case 18: PUT(deep, 18, 8, 0, 0, own, 0); return 1;
    case 19: PUT(deep, 19, 8, 0, 0, own); return 1;
    case 20: PUT(deep, 20, 32, 0, 0); return 4;
    case 21: PUT(deep, 21, own, 0); return 1;
    case 22: PUT(deep, 22, own); return 1;
    case 23: PUT(deep, 23); return 1;
    case 24: PUT(deep, 24, 1, 0); return 1;
    case 25: PUT(deep, 25, 1, 0, 0); return 1;
    case 26: PUT(deep, 26, count); return 1;
    case 27: PUT(deep, 27, count); return 1;
    default: PUT(deep, STRUCTURE, 0, 0); return 0;
    }
}

/* The root: a flag and a count, both 1, which the classes around the deepest one go by; and these. */
static void put_root(struct deep *deep, unsigned root, unsigned row, unsigned around, unsigned leaf)
{
    uint8_t flag = root < 2 ? 0 : 16;
    uint8_t count = flag + 1;
    PUT(deep, ROOT, root, STRUCTURE, 3, 0, BOOLEAN, 8, 0, 0, flag, UNSIGNED, 8, 0, 0, count, 0);
    for (; around > 0; around--, row /= DEEP_KINDS) put_around(deep, row % DEEP_KINDS, flag, count);
    deep->stream_bytes = 2 + put_leaf(deep, leaf, count);
}

static void put_filling(struct deep *deep)
{
    for (unsigned id = 1; id < FRAGMENTS - 1; id++) {
        PUT(deep, EVENT_CLASS, 0, 0, 0, 0, 0, 0, 0, 0, id % 256, id / 256, 0, 0, 0, 0, 0, 0);
        PUT(deep, ROOT, PAYLOAD, STRUCTURE, MEMBERS, 0);
        for (unsigned i = 0; i < MEMBERS; i++) PUT(deep, UNSIGNED, 32, 0, 0, NO_SLOT, 0);
    }
}

void deep_make(struct deep *deep, unsigned root, unsigned row, unsigned around, unsigned leaf, int wide)
{
    static const uint8_t stream[sizeof deep->stream] = {1, 1};
    memcpy(deep->stream, stream, sizeof stream);
    deep->table_bytes = 0;
    PUT(deep, PREAMBLE, 2);
    PUT(deep, TRACE_CLASS, 0, 0, 0, 0, 0, 0, 0, 0, 0, 0, 0, 0, 0, 0, 0, 0, 0);
    if (root == 0) put_root(deep, root, row, around, leaf);
    PUT(deep, STREAM_CLASS, 0, 0, 0, 0, 0, 0, 0, 0, NO_CLOCK);
    if (root > 0 && root < 4) put_root(deep, root, row, around, leaf);
    PUT(deep, EVENT_CLASS, 0, 0, 0, 0, 0, 0, 0, 0, 0, 0, 0, 0, 0, 0, 0, 0);
    if (root >= 4) put_root(deep, root, row, around, leaf);
    if (wide) put_filling(deep);
}

unsigned deep_same(unsigned digit)
{
    unsigned row = 0;
    for (int i = 0; i < DEEP_AROUND; i++) row = row * DEEP_KINDS + digit;
    return row;
}
