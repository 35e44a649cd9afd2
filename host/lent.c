/* Words that are lent, and what they are due to hold afterwards. */
#include "lent.h"

#include <string.h>

static uint64_t came(size_t i)
{
    return UINT64_C(0x9E3779B97F4A7C15) * (i + 1);
}

void fill(uint64_t *words, size_t from, size_t count)
{
    for (size_t i = from; i < count; i++) words[i] = came(i);
}

void due_words(uint64_t *due, const uint64_t *words, size_t count, size_t room, size_t all)
{
    size_t written = room < count ? room : count;
    memcpy(due, words, written * sizeof *due);
    fill(due, written, all);
}
