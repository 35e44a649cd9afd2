/* The names of trevoskel.h by examples: what a name is said of, as small as it can be, and the library's answer to that. */
#include "names.h"
#include "records.h"
#include "trevoskel.h"

#include <inttypes.h>
#include <stdio.h>
#include <string.h>

/* A table that is checked, or a stream that is read, for each number but 15, which takes a long table, 40, which is of the list, and those of
 * bundles. */
static const struct {
    uint32_t number;
    struct bytes table;
} TABLES[] = {
    {TREVOSKEL_ACCEPTED, BYTES(PREAMBLE)},
    {TREVOSKEL_BAD_SIZE, NONE},
    {TREVOSKEL_UNKNOWN_KIND, BYTES(PREAMBLE, NO_RECORD)},
    {TREVOSKEL_CUT_SHORT, BYTES(PREAMBLE, 4)},
    {TREVOSKEL_PREAMBLE_MISPLACED, BYTES(PREAMBLE, PREAMBLE)},
    {TREVOSKEL_WRONG_VERSION, BYTES(1, 3)},
    {TREVOSKEL_TRACE_CLASS_MISPLACED, BYTES(UNTIMED, TRACE_CLASS)},
    {TREVOSKEL_ID_USED, BYTES(PREAMBLE, CLOCK_CLASS, CLOCK_CLASS)},
    {TREVOSKEL_ID_UNKNOWN, BYTES(UNTIMED, EVENT_CLASS(1, 0))},
    {TREVOSKEL_KIND_NOT_ALLOWED, BYTES(UNTIMED, STRING)},
    {TREVOSKEL_NUMBER_OUT_OF_RANGE, BYTES(UNTIMED, CONTEXT(1), NUMBER(65))},
    {TREVOSKEL_SLOT_NOT_ALLOWED, BYTES(UNTIMED, CONTEXT(1), IN_SLOT(8, 16))},
    {TREVOSKEL_SLOT_NOT_ALLOWED, BYTES(UNTIMED, CONTEXT(2), IN_SLOT(8, 0), STATIC_ARRAY(1), IN_SLOT(8, 0))},
    {TREVOSKEL_ROLE_NOT_ALLOWED, BYTES(UNTIMED, CONTEXT(1), WITH_ROLE(8, EVENT_CLASS_ID))},
    {TREVOSKEL_RANGES_CONTRADICT, BYTES(UNTIMED, CONTEXT(1), OPTIONAL(0, 1), RANGE(2, 1), STRING)},
    {TREVOSKEL_TOO_DEEP, BYTES(UNTIMED, CONTEXT(1), STRUCTURE(1), STRUCTURE(1), STRUCTURE(1), STRUCTURE(1), STRUCTURE(1), STRUCTURE(1),
                               STRUCTURE(1), STRUCTURE(0))},
};

static const struct {
    uint32_t number;
    struct bytes table;
    struct bytes stream;
} STREAMS[] = {
    {TREVOSKEL_ACCEPTED, BYTES(UNTIMED, CONTEXT(1), NUMBER(8)), BYTES(0)},
    {TREVOSKEL_TABLE_REFUSED, NONE, BYTES(0)},
    {TREVOSKEL_STREAM_SIZE, BYTES(PREAMBLE), NONE},
    {TREVOSKEL_PAST_BOUND, BYTES(UNTIMED, CONTEXT(1), NUMBER(9)), BYTES(0)},
    {TREVOSKEL_ORDER_CHANGED, BYTES(UNTIMED, CONTEXT(2), NUMBER(4), BIG_ENDIAN(4)), BYTES(0)},
    {TREVOSKEL_LEB128_TOO_LARGE, BYTES(UNTIMED, CONTEXT(1), LEB128), BYTES(128, 128, 128, 128, 128, 128, 128, 128, 128, 2)},
    {TREVOSKEL_NO_ZERO_BYTE, BYTES(UNTIMED, CONTEXT(1), STRING), BYTES('a', 'b')},
    {TREVOSKEL_SLOT_UNSET, BYTES(UNTIMED, CONTEXT(1), DYNAMIC_STRING(0)), BYTES(0)},
    {TREVOSKEL_SLOT_UNSET, BYTES(UNTIMED, CONTEXT(2), STATIC_ARRAY(1), IN_SLOT(8, 0), DYNAMIC_STRING(0)), BYTES(1, 'a')},
    {TREVOSKEL_SLOT_OF_WRONG_SORT, BYTES(UNTIMED, CONTEXT(2), BOOLEAN(0), DYNAMIC_STRING(0)), BYTES(1, 'a')},
    {TREVOSKEL_LENGTH_TOO_LARGE, BYTES(UNTIMED, CONTEXT(2), IN_SLOT(24, 0), DYNAMIC_STRING(0)), BYTES(0, 0, 1)},
    {TREVOSKEL_SELECTOR_IN_NO_OPTION,
     BYTES(UNTIMED, CONTEXT(2), IN_SLOT(8, 0), VARIANT(0, 1), OPTION(1), RANGE(1, 2), STRING), BYTES(3, 0)},
    {TREVOSKEL_WRONG_MAGIC, BYTES(PREAMBLE, TRACE_CLASS, HEADER(1), WITH_ROLE(32, IS_MAGIC)), BYTES(1, 2, 3, 4)},
    {TREVOSKEL_WRONG_UUID, BYTES(PREAMBLE, TRACE_CLASS, HEADER(1), UUID), BYTES(WIDE(0), WIDE(1))},
    {TREVOSKEL_STREAM_CLASS_CHANGED,
     BYTES(PREAMBLE, TRACE_CLASS, HEADER(1), WITH_ROLE(8, STREAM_CLASS_ID), STREAM_CLASS(0, NO_CLOCK), CONTEXT(1), WITH_ROLE(8, TOTAL),
           STREAM_CLASS(1, NO_CLOCK)),
     BYTES(0, 16, 1, 16)},
    {TREVOSKEL_STREAM_CLASS_UNKNOWN, BYTES(PREAMBLE, STREAM_CLASS(1, NO_CLOCK)), BYTES(0)},
    {TREVOSKEL_LENGTHS_CONTRADICT, BYTES(UNTIMED, CONTEXT(1), WITH_ROLE(8, TOTAL)), BYTES(16)},
    {TREVOSKEL_CLOCKS_CONTRADICT, BYTES(TIMED, CONTEXT(2), WITH_ROLE(8, STAMP), WITH_ROLE(8, END_STAMP)), BYTES(2, 1)},
    {TREVOSKEL_CLOCK_TOO_LARGE, BYTES(TIMED, CONTEXT(2), WITH_ROLE(64, STAMP), WITH_ROLE(8, STAMP)),
     BYTES(255, 255, 255, 255, 255, 255, 255, 255, 0)},
    {TREVOSKEL_EVENT_CLASS_UNKNOWN, BYTES(UNTIMED, EVENT_CLASS(0, 1)), BYTES(0)},
    {TREVOSKEL_EVENT_TOOK_NO_BITS, BYTES(UNTIMED, EVENT_CLASS(0, 0)), BYTES(0)},
    {TREVOSKEL_CLOCK_WENT_BACK,
     BYTES(TIMED, CONTEXT(1), WITH_ROLE(8, TOTAL), EVENT_HEADER(1), WITH_ROLE(8, STAMP), EVENT_CLASS(0, 0)), BYTES(16, 2, 16, 1)},
    {TREVOSKEL_NOT_TEXT, BYTES(UNTIMED, CONTEXT(1), STRING), BYTES('a', 0xED, 0xA0, 0x80, 0)},
};

/* A table whose last record is the event class of a stream with one event and a byte of padding; and what stands in front of its stream and
 * event class. */
enum { STREAM = 7, EVENT = 9, EVENT_CLASS_BYTES = 17 };
static const uint8_t FRONT[] = {PREAMBLE, TRACE_CLASS, HEADER(1), WITH_ROLE(8, STREAM_CLASS_ID), CLOCK_CLASS};
static const uint8_t TABLE[] = {
    PREAMBLE, TRACE_CLASS, HEADER(1), WITH_ROLE(8, STREAM_CLASS_ID), CLOCK_CLASS, STREAM_CLASS(STREAM, 0),
    CONTEXT(2), WITH_ROLE(8, TOTAL), WITH_ROLE(8, CONTENT), EVENT_HEADER(2), WITH_ROLE(8, EVENT_CLASS_ID), WITH_ROLE(8, STAMP),
    EVENT_CLASS(STREAM, EVENT),
};
static const uint8_t ONE_EVENT[] = {STREAM, 48, 40, EVENT, 5, 0};

/* What is listed of it, each kind of entry among it. */
static const uint64_t LISTED[][TREVOSKEL_ENTRY_WORDS] = {
    ENTRY(TREVOSKEL_PACKET_STARTS, 0, 0, 0),
    FIELD(STRUCTURE_FIELD, 0, 0, 1, 2),
    FIELD(UNSIGNED_FIELD, 0, 8, STREAM, 3),
    ENTRY(TREVOSKEL_STREAM_CLASS_FOUND, 8, 0, STREAM),
    FIELD(STRUCTURE_FIELD, 8, 0, 2, 2),
    FIELD(UNSIGNED_FIELD, 8, 8, 48, 3),
    FIELD(UNSIGNED_FIELD, 16, 8, 40, 4),
    ENTRY(TREVOSKEL_LENGTHS_SETTLED, 24, 48, 40),
    ENTRY(TREVOSKEL_EVENT_STARTS, 24, 0, 0),
    FIELD(STRUCTURE_FIELD, 24, 0, 2, 6),
    FIELD(UNSIGNED_FIELD, 24, 8, EVENT, 7),
    FIELD(UNSIGNED_FIELD, 32, 8, 5, 8),
    ENTRY(TREVOSKEL_CLOCK_ADVANCED, 40, 8, 5),
    ENTRY(TREVOSKEL_EVENT_CLASS_FOUND, 40, 0, EVENT),
    ENTRY(TREVOSKEL_PACKET_ENDS, 48, 8, 1),
};

/* Words that are lent, more than any of these calls writes, and what they hold before it. */
enum { ROOM = 128 };
static const uint64_t CAME = 0xA5A55A5AC3C33C3C;

static void fill(uint64_t *words)
{
    for (size_t i = 0; i < ROOM; i++) words[i] = CAME;
}

static int same_number(const char *of, uint32_t number, uint32_t due)
{
    if (number == due) return 1;
    printf("%s got %" PRIu32 ", and by the header's name %" PRIu32 " is due\n", of, number, due);
    return 0;
}

/* Holds words to those that are due, and the rest of the room to what was there. */
static int same_words(const char *of, const uint64_t *words, const uint64_t *due, size_t count)
{
    uint64_t all[ROOM];
    fill(all);
    memcpy(all, due, count * sizeof *due);
    for (size_t i = 0; i < ROOM; i++)
        if (words[i] != all[i]) {
            printf("%s: word %zu is %" PRIu64 ", and by the header's names %" PRIu64 " is due\n", of, i, words[i], all[i]);
            return 0;
        }
    return 1;
}

static int tables_hold(void)
{
    int hold = 1;
    for (size_t i = 0; i < sizeof TABLES / sizeof *TABLES; i++) {
        uint32_t number = trevoskel_check(TABLES[i].table.from, TABLES[i].table.count, NULL, 0);
        hold &= same_number("a table", number, TABLES[i].number);
    }
    return hold;
}

static int streams_hold(void)
{
    uint64_t list[ROOM];
    int hold = 1;
    for (size_t i = 0; i < sizeof STREAMS / sizeof *STREAMS; i++) {
        struct bytes table = STREAMS[i].table, stream = STREAMS[i].stream;
        uint32_t number = trevoskel_read(table.from, table.count, stream.from, stream.count, list, ROOM, NULL, 0);
        hold &= same_number("a stream", number, STREAMS[i].number);
    }
    return hold;
}

/* 513 stream classes. */
static int fragments_hold(void)
{
    enum { FRAGMENTS = 513, PREAMBLE_BYTES = 2, CLASS_BYTES = 10 };
    uint8_t table[PREAMBLE_BYTES + FRAGMENTS * CLASS_BYTES] = {PREAMBLE};
    for (unsigned id = 0; id < FRAGMENTS; id++) {
        const uint8_t class[CLASS_BYTES] = {4, id % 256, id / 256, 0, 0, 0, 0, 0, 0, NO_CLOCK};
        memcpy(table + PREAMBLE_BYTES + id * CLASS_BYTES, class, CLASS_BYTES);
    }
    return same_number("a table of 513 fragments", trevoskel_check(table, sizeof table, NULL, 0), TREVOSKEL_TOO_MANY_FRAGMENTS);
}

static int checked_words_hold(void)
{
    static const uint8_t table[] = {UNTIMED, EVENT_CLASS(1, 0)};
    const uint64_t due[TREVOSKEL_CHECKED_WORDS] = {[TREVOSKEL_CHECKED_NUMBER] = TREVOSKEL_ID_UNKNOWN, [TREVOSKEL_CHECKED_BYTE] = 12};
    uint64_t result[ROOM];
    fill(result);
    trevoskel_check(table, sizeof table, result, ROOM);
    return same_words("a check's result", result, due, TREVOSKEL_CHECKED_WORDS);
}

/* Reads that stream by as much of the table, and into as much of a list, as is said: the result that is due, and so many of the entries. */
static int reading_holds(size_t table_bytes, size_t list_words, const uint64_t *due)
{
    uint64_t list[ROOM], result[ROOM];
    fill(list);
    fill(result);
    uint32_t number = trevoskel_read(TABLE, table_bytes, ONE_EVENT, sizeof ONE_EVENT, list, list_words, result, ROOM);
    return same_number("a reading", number, (uint32_t)due[TREVOSKEL_RESULT_NUMBER]) &
           same_words("a reading's result", result, due, TREVOSKEL_RESULT_WORDS) &
           same_words("a list", list, LISTED[0], due[TREVOSKEL_RESULT_ENTRIES] * TREVOSKEL_ENTRY_WORDS);
}

static int readings_hold(void)
{
    const uint64_t accepted[TREVOSKEL_RESULT_WORDS] = {
        [TREVOSKEL_RESULT_NUMBER] = TREVOSKEL_ACCEPTED,
        [TREVOSKEL_RESULT_ENTRIES] = sizeof LISTED / sizeof *LISTED,
        [TREVOSKEL_RESULT_PLACE] = 8 * sizeof ONE_EVENT,
    };
    const uint64_t class_missing[TREVOSKEL_RESULT_WORDS] = {
        [TREVOSKEL_RESULT_NUMBER] = TREVOSKEL_EVENT_CLASS_UNKNOWN,
        [TREVOSKEL_RESULT_ENTRIES] = 13,
        [TREVOSKEL_RESULT_PLACE] = 40,
        [TREVOSKEL_RESULT_FIRST_ID] = STREAM,
        [TREVOSKEL_RESULT_SECOND_ID] = EVENT,
    };
    const uint64_t list_full[TREVOSKEL_RESULT_WORDS] = {
        [TREVOSKEL_RESULT_NUMBER] = TREVOSKEL_LIST_FULL,
        [TREVOSKEL_RESULT_ENTRIES] = 1,
    };
    return reading_holds(sizeof TABLE, ROOM, accepted) &
           reading_holds(sizeof TABLE - EVENT_CLASS_BYTES, ROOM, class_missing) &
           reading_holds(sizeof TABLE, 2 * TREVOSKEL_ENTRY_WORDS - 1, list_full);
}

/* Cuts a table to that stream, into a buffer of so many bytes: the result that is due, and so many bytes of the table and entries. */
static int bundle_holds(struct bytes table, size_t streams, size_t buffer, const uint64_t *due, size_t written, size_t listed)
{
    enum { STREAMS = 17, HELD = 0xEE };
    const uint64_t lengths[STREAMS] = {sizeof ONE_EVENT}, rooms[] = {ROOM};
    uint64_t list[ROOM], result[ROOM];
    uint8_t out[256], due_out[sizeof out];
    fill(list);
    fill(result);
    memset(out, HELD, sizeof out);
    memset(due_out, HELD, sizeof due_out);
    memcpy(due_out, table.from, written);
    uint32_t number = trevoskel_bundle(table.from, table.count, ONE_EVENT, sizeof ONE_EVENT, lengths, streams, rooms, 1, list, ROOM, out,
                                       buffer, result, ROOM);
    if (memcmp(out, due_out, sizeof out) != 0) {
        printf("a bundle's bytes are not those of the table's that are due\n");
        return 0;
    }
    return same_number("a bundle", number, (uint32_t)due[TREVOSKEL_BUNDLED_NUMBER]) &
           same_words("a bundle's result", result, due, TREVOSKEL_BUNDLED_WORDS) &
           same_words("a bundle's list", list, LISTED[0], listed * TREVOSKEL_ENTRY_WORDS);
}

static int bundles_hold(void)
{
    enum { ENTRIES = sizeof LISTED / sizeof *LISTED };
    const struct bytes table = {TABLE, sizeof TABLE}, unsound = BYTES(UNTIMED, EVENT_CLASS(1, 0));
    const uint64_t all[TREVOSKEL_BUNDLED_WORDS] = {
        [TREVOSKEL_BUNDLED_NUMBER] = TREVOSKEL_ACCEPTED,
        [TREVOSKEL_BUNDLED_LENGTH] = sizeof TABLE,
    };
    const uint64_t no_class[TREVOSKEL_BUNDLED_WORDS] = {
        [TREVOSKEL_BUNDLED_NUMBER] = TREVOSKEL_ACCEPTED,
        [TREVOSKEL_BUNDLED_LENGTH] = sizeof FRONT,
    };
    const uint64_t refused[TREVOSKEL_BUNDLED_WORDS] = {
        [TREVOSKEL_BUNDLED_NUMBER] = TREVOSKEL_TABLE_REFUSED,
        [TREVOSKEL_BUNDLED_LENGTH] = 12,
        [TREVOSKEL_BUNDLED_ID] = TREVOSKEL_ID_UNKNOWN,
    };
    const uint64_t too_many[TREVOSKEL_BUNDLED_WORDS] = {[TREVOSKEL_BUNDLED_NUMBER] = TREVOSKEL_TOO_MANY_STREAMS};
    const uint64_t short_buffer[TREVOSKEL_BUNDLED_WORDS] = {
        [TREVOSKEL_BUNDLED_NUMBER] = TREVOSKEL_SHORT_BUFFER,
        [TREVOSKEL_BUNDLED_LENGTH] = sizeof TABLE,
    };
    return bundle_holds(table, 1, sizeof TABLE, all, sizeof TABLE, ENTRIES) &
           bundle_holds(table, 0, sizeof TABLE, no_class, sizeof FRONT, 0) &
           bundle_holds(unsound, 17, 0, refused, 0, 0) &
           bundle_holds(table, 17, 0, too_many, 0, 0) &
           bundle_holds(table, 16, sizeof TABLE - 1, short_buffer, 0, ENTRIES);
}

int names_hold(void)
{
    return tables_hold() & fragments_hold() & streams_hold() & checked_words_hold() & readings_hold() & bundles_hold();
}
