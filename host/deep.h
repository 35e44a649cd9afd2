#ifndef DEEP_H
#define DEEP_H

#include <stddef.h>
#include <stdint.h>

/* How many classes stand around the deepest one, below the root's structure; of how many kinds they are; and how many rows there are. */
enum { DEEP_AROUND = 6, DEEP_KINDS = 5, DEEP_ROWS = 15625 };

/* The kinds that the deepest class may have. */
enum { DEEP_FIRST = 16, DEEP_LAST = 28 };

enum { DEEP_ROOTS = 6 };

/* A table in whose root the deepest class stands at depth 8, and a stream that is read to its last bit by it. */
struct deep {
    uint8_t table[65536];
    size_t table_bytes;
    uint8_t stream[8];
    size_t stream_bytes;
};

/* Makes one. The row tells the kinds around the deepest class, one digit to the base of DEEP_KINDS each, `around` of them. A wide table has
 * 512 fragments. */
void deep_make(struct deep *deep, unsigned root, unsigned row, unsigned around, unsigned leaf, int wide);

/* The row in which every digit is the same. */
unsigned deep_same(unsigned digit);

#endif
