#ifndef LENT_H
#define LENT_H

/* Words that are lent, and what they are due to hold afterwards. */
#include <stddef.h>
#include <stdint.h>

/* Words behind what is lent, which are to stay. */
enum { BEHIND = 8 };

/* Words from one on up to another hold what they hold before a call: each another number. */
void fill(uint64_t *words, size_t from, size_t count);

/* What `all` words are due to hold where so many are written into so much room. */
void due_words(uint64_t *due, const uint64_t *words, size_t count, size_t room, size_t all);

#endif
