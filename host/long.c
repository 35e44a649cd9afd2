/* Streams as long as they may be. Each is a file without blocks but for the bytes that are written here, and is mapped as a host maps a
 * long trace: a try takes some pages of memory and of disk, and not half a gigabyte. No place reaches 2 to the 32, but sums on the way to
 * 22 do. */
#define _POSIX_C_SOURCE 200809L
#include "long.h"
#include "records.h"
#include "trevoskel.h"

#include <inttypes.h>
#include <stdio.h>
#include <stdlib.h>
#include <string.h>
#include <sys/mman.h>
#include <sys/resource.h>
#include <unistd.h>

enum { LIMIT = 536870911, OLD_LIMIT = 16777216 };
#define BITS(bytes) (8 * (uint64_t)(bytes))

/* Events of one BLOB each. */
#define BLOBS(bytes) UNTIMED, EVENT_CLASS(0, 0), PAYLOAD(1), BLOB(bytes)

/* Events that lead up to the last bytes of the longest stream: 8,192 of 65,535 bytes, one that leaves so many bytes, and the one whose
 * payload comes behind this. Each has its id in its first byte. */
enum { LONG_EVENT, FILLER = 2, LAST_EVENT, LONG_BYTES = 65535, LONG_EVENTS = LIMIT / LONG_BYTES, FILLER_AT = LONG_EVENTS * LONG_BYTES };
#define UP_TO_LAST(bytes) \
    UNTIMED, EVENT_HEADER(1), WITH_ROLE(8, EVENT_CLASS_ID), EVENT_CLASS(0, LONG_EVENT), PAYLOAD(1), BLOB(LONG_BYTES - 1), \
    EVENT_CLASS(0, FILLER), PAYLOAD(1), BLOB(LIMIT - FILLER_AT - 1 - (bytes)), EVENT_CLASS(0, LAST_EVENT)

/* Entries 1 to 3, six of each of these events, and the last one's up to its entry 5. */
enum { TO_LAST = 3 + 6 * (LONG_EVENTS + 1) + 4 };

/* Two packets, the second one behind bit 2 to the 31: total and content in their context, one event, and padding. */
#define PACKETS UNTIMED, CONTEXT(2), WITH_ROLE(64, TOTAL), WITH_ROLE(64, CONTENT), EVENT_CLASS(0, 0), PAYLOAD(1), NUMBER(8)
enum { SECOND_AT = LIMIT / 16 * 9, PACKET_CONTENT = 17 };
#define PACKET(bytes, value) BYTES(EIGHT_BYTES(BITS(bytes)), EIGHT_BYTES(BITS(PACKET_CONTENT)), value)

#define RESULT(number, entries, place) \
    {[TREVOSKEL_RESULT_NUMBER] = number, [TREVOSKEL_RESULT_ENTRIES] = entries, [TREVOSKEL_RESULT_PLACE] = place}

/* What is read: a table, the stream's bytes and what is written into it; the result that is due, and the list's last entry. */
static const struct try {
    const char *what;
    struct bytes table;
    size_t stream_bytes;
    struct {
        size_t at;
        struct bytes bytes;
    } written[2];
    uint64_t result[TREVOSKEL_RESULT_WORDS];
    uint64_t last[TREVOSKEL_ENTRY_WORDS];
} TRIES[] = {
    {"a byte more than the limit", BYTES(BLOBS(1)), (size_t)LIMIT + 1, {{0, NONE}}, RESULT(TREVOSKEL_STREAM_SIZE, 0, 0), {0}},
    {"a byte more than the limit before request 4, 673 events", BYTES(BLOBS(24929)), OLD_LIMIT + 1, {{0, NONE}},
     RESULT(TREVOSKEL_ACCEPTED, 2696, BITS(OLD_LIMIT + 1)), ENTRY(TREVOSKEL_PACKET_ENDS, BITS(OLD_LIMIT + 1), 0, 673)},
    {"the limit, 256,999 events", BYTES(BLOBS(2089)), LIMIT, {{0, NONE}},
     RESULT(TREVOSKEL_ACCEPTED, 1028000, BITS(LIMIT)), ENTRY(TREVOSKEL_PACKET_ENDS, BITS(LIMIT), 0, 256999)},
    {"a byte less, so that the last BLOB is cut", BYTES(BLOBS(2089)), LIMIT - 1, {{0, NONE}},
     RESULT(TREVOSKEL_PAST_BOUND, 1027998, BITS(LIMIT - 1)), FIELD(STRUCTURE_FIELD, BITS(LIMIT - 2089), 0, 1, 2)},
    {"a BLOB that would end above 2 to the 32", BYTES(BLOBS(LONG_BYTES)), LIMIT, {{0, NONE}},
     RESULT(TREVOSKEL_PAST_BOUND, 32774, BITS(LIMIT)), FIELD(STRUCTURE_FIELD, BITS(FILLER_AT), 0, 1, 2)},
    {"a number that would end above 2 to the 32", BYTES(UP_TO_LAST(5), PAYLOAD(1), NUMBER(64)), LIMIT,
     {{FILLER_AT, BYTES(FILLER)}, {LIMIT - 5, BYTES(LAST_EVENT)}},
     RESULT(TREVOSKEL_PAST_BOUND, TO_LAST + 1, BITS(LIMIT)), FIELD(STRUCTURE_FIELD, BITS(LIMIT - 4), 0, 1, 2)},
    {"an alignment to 2 to the 32 itself", BYTES(UP_TO_LAST(1), 6, 5, ALIGNED(0, 6)), LIMIT,
     {{FILLER_AT, BYTES(FILLER)}, {LIMIT - 1, BYTES(LAST_EVENT)}},
     RESULT(TREVOSKEL_PAST_BOUND, TO_LAST, BITS(LIMIT)), ENTRY(TREVOSKEL_EVENT_CLASS_FOUND, BITS(LIMIT), 0, LAST_EVENT)},
    {"a LEB128 number whose tenth byte is the last", BYTES(UP_TO_LAST(11), PAYLOAD(1), LEB128), LIMIT,
     {{FILLER_AT, BYTES(FILLER)}, {LIMIT - 11, BYTES(LAST_EVENT, 128, 128, 128, 128, 128, 128, 128, 128, 128, 2)}},
     RESULT(TREVOSKEL_LEB128_TOO_LARGE, TO_LAST + 1, BITS(LIMIT - 1)), FIELD(STRUCTURE_FIELD, BITS(LIMIT - 10), 0, 1, 2)},
    {"text and a number in the last bytes", BYTES(UP_TO_LAST(8), PAYLOAD(3), STRING, BIG_ENDIAN(32), NUMBER(8)), LIMIT,
     {{FILLER_AT, BYTES(FILLER)}, {LIMIT - 8, BYTES(LAST_EVENT, 0xC3, 0xA9, 0, 1, 2, 3, 4)}},
     RESULT(TREVOSKEL_PAST_BOUND, TO_LAST + 3, BITS(LIMIT)), FIELD(UNSIGNED_FIELD, BITS(LIMIT - 4), 32, 0x01020304, 4)},
    {"two packets", BYTES(PACKETS), LIMIT, {{0, PACKET(SECOND_AT, 42)}, {SECOND_AT, PACKET(LIMIT - SECOND_AT, 43)}},
     RESULT(TREVOSKEL_ACCEPTED, 22, BITS(LIMIT)),
     ENTRY(TREVOSKEL_PACKET_ENDS, BITS(LIMIT), BITS(LIMIT - SECOND_AT - PACKET_CONTENT), 1)},
    {"two packets, the second a byte too long", BYTES(PACKETS), LIMIT,
     {{0, PACKET(SECOND_AT, 42)}, {SECOND_AT, PACKET(LIMIT - SECOND_AT + 1, 43)}},
     RESULT(TREVOSKEL_LENGTHS_CONTRADICT, 16, BITS(SECOND_AT + 16)),
     FIELD(UNSIGNED_FIELD, BITS(SECOND_AT + 8), 64, BITS(PACKET_CONTENT), 4)},
};

/* Entries that are enough for the longest of these lists. */
enum { LIST_ENTRIES = 1028000 };

static void fail(const char *what)
{
    fprintf(stderr, "long: %s\n", what);
    exit(2);
}

/* With no reading ahead, so that no page is there but those that are asked for. */
static uint8_t *map(size_t bytes)
{
    FILE *file = tmpfile();
    if (file == NULL || ftruncate(fileno(file), (off_t)bytes) != 0) fail("no file of that length");
    void *at = mmap(NULL, bytes, PROT_READ | PROT_WRITE, MAP_PRIVATE, fileno(file), 0);
    if (at == MAP_FAILED || posix_madvise(at, bytes, POSIX_MADV_RANDOM) != 0) fail("a file cannot be mapped");
    fclose(file);
    return at;
}

static int same(const struct try *try, const char *of, const uint64_t *words, const uint64_t *due, size_t count)
{
    for (size_t i = 0; i < count; i++)
        if (words[i] != due[i]) {
            printf("%zu bytes, %s: word %zu of the %s is %" PRIu64 ", and %" PRIu64 " is due\n", try->stream_bytes, try->what, i, of,
                   words[i], due[i]);
            return 0;
        }
    return 1;
}

static int try_holds(const struct try *try, uint64_t *list)
{
    uint64_t result[TREVOSKEL_RESULT_WORDS];
    uint8_t *stream = map(try->stream_bytes);
    for (size_t i = 0; i < sizeof try->written / sizeof *try->written; i++)
        if (try->written[i].bytes.count != 0)
            memcpy(stream + try->written[i].at, try->written[i].bytes.from, try->written[i].bytes.count);
    trevoskel_read(try->table.from, try->table.count, stream, try->stream_bytes, list, (size_t)LIST_ENTRIES * TREVOSKEL_ENTRY_WORDS,
                   result, TREVOSKEL_RESULT_WORDS);
    munmap(stream, try->stream_bytes);
    uint64_t entries = try->result[TREVOSKEL_RESULT_ENTRIES];
    return same(try, "result", result, try->result, TREVOSKEL_RESULT_WORDS) &&
           (entries == 0 || same(try, "last entry", list + (entries - 1) * TREVOSKEL_ENTRY_WORDS, try->last, TREVOSKEL_ENTRY_WORDS));
}

static int memory_holds(void)
{
    struct rusage taken;
    if (getrusage(RUSAGE_SELF, &taken) != 0) fail("nobody says how much memory was taken");
    if (taken.ru_maxrss < LONG_MEMORY_MIB * 1024L) return 1;
    printf("long streams were read in %ld KiB of memory\n", taken.ru_maxrss);
    return 0;
}

int long_hold(void)
{
    int hold = 1;
    uint64_t *list = calloc((size_t)LIST_ENTRIES * TREVOSKEL_ENTRY_WORDS, sizeof *list);
    if (list == NULL) fail("no memory for a list");
    for (size_t i = 0; i < sizeof TRIES / sizeof *TRIES; i++) hold &= try_holds(&TRIES[i], list);
    free(list);
    return hold & memory_holds();
}
