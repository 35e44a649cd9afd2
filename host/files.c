/* Files of cases and of their answers. */
#include "files.h"

#include <stdio.h>
#include <stdlib.h>
#include <string.h>

void fail(const char *name, const char *what)
{
    fprintf(stderr, "%s: %s\n", name, what);
    exit(2);
}

void *room_for(size_t count, size_t size)
{
    void *room = calloc(count, size);
    if (room == NULL) fail("cases", "no memory");
    return room;
}

char *read_file(const char *name, size_t *bytes)
{
    FILE *file = fopen(name, "rb");
    if (file == NULL || fseek(file, 0, SEEK_END) != 0) fail(name, "cannot be read");
    long end = ftell(file);
    if (end < 0 || fseek(file, 0, SEEK_SET) != 0) fail(name, "cannot be read");
    char *text = room_for((size_t)end + 1, 1);
    if (fread(text, 1, (size_t)end, file) != (size_t)end) fail(name, "cannot be read");
    fclose(file);
    *bytes = (size_t)end;
    return text;
}

size_t number_at(const uint8_t *from)
{
    return from[0] | (size_t)from[1] << 8 | (size_t)from[2] << 16 | (size_t)from[3] << 24;
}

const uint8_t *own_room(const uint8_t *from, size_t bytes)
{
    if (bytes == 0) return NULL;
    return memcpy(room_for(bytes, 1), from, bytes);
}

void take_numbers(const char *name, const char **text, uint64_t *into, size_t count)
{
    for (size_t i = 0; i < count; i++) {
        char *end;
        into[i] = strtoull(*text, &end, 10);
        if (end == *text || *end != (i + 1 < count ? ' ' : '\n')) fail(name, "is no file of answers");
        *text = end + 1;
    }
}
