#ifndef FILES_H
#define FILES_H

/* Files of cases and of their answers. What cannot be read, or is of another form, ends the program with a line and status 2. */
#include <stddef.h>
#include <stdint.h>

void fail(const char *name, const char *what);

/* Memory that is 0 throughout. */
void *room_for(size_t count, size_t size);

/* A whole file, with a zero byte behind it. */
char *read_file(const char *name, size_t *bytes);

/* A little-endian number of 32 bits. */
size_t number_at(const uint8_t *from);

/* Bytes in a room of just their length; none at all have no room. */
const uint8_t *own_room(const uint8_t *from, size_t bytes);

/* Takes a line of so many numbers. */
void take_numbers(const char *name, const char **text, uint64_t *into, size_t count);

#endif
