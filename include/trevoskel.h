/* trevoskel.h: a checker of class tables, a reader of Common Trace Format 2 streams by such a table, and a cutter that makes the table as
 * short as some streams let it be. For C99 and C++.
 *
 * All three functions answer every table, every stream and every length of what is lent, and their answers are proved: the contracts are in
 * crates/trevoskel/src/lib.rt, and what they cite, in the words of document 01, is in crates/rules/specs. That this header says the same
 * is not proved: tools/header holds each name to the rules' own, and host/run tries it on the shared cases and each name on an example.
 *
 * What is lent. Each slice is a pointer and then the number of its elements: bytes of a table, a stream or a buffer, 64-bit words of a
 * list, a result, lengths or rooms. The caller sees to it that
 *   - the pointer leads to at least as many elements, of one object; with the number 0 it is not followed, and may be NULL;
 *   - words are aligned as uint64_t is;
 *   - what is written (list, buffer, result) shares no byte with anything else that is lent; what is only read may share its own;
 *   - until the call returns, nobody else writes to any of them, and nobody else reads what is written. A file that is mapped must not be
 *     changed or cut meanwhile.
 * Nothing of this can be told from within, so a caller that fails in it gets no promise.
 *
 * What is written. The list, the buffer and the result, and nothing else: all the rest is only read. Words of a list behind the entries,
 * bytes of the buffer behind the table, and words of the result behind those named below, are as they came. A result that is shorter gets
 * as many of the words as it has room for.
 *
 * Nothing is kept: there is no state between calls, nothing is allocated, no lock is taken and no system call is made. So any number of
 * threads may call at once, with the same table and stream. The archive calls nothing but the C library's memcpy, memset and their like.
 *
 * A reading takes up to 498 KiB of stack beside what is lent, a check up to 98 KiB and a bundle up to 962 KiB (at -O3 on x86-64). host/run
 * measures them over the shared cases and the deepest tables, and fails at 1 MiB.
 *
 * The archive is for Linux on x86-64; size_t has 64 bits. */
#ifndef TREVOSKEL_H
#define TREVOSKEL_H

#include <stddef.h>
#include <stdint.h>

#ifdef __cplusplus
extern "C" {
#endif

/* The numbers of document 01. Each function returns one, and writes it as its result's first word. */
enum trevoskel_number {
    TREVOSKEL_ACCEPTED = 0,

    /* "Refusing a table": of trevoskel_check, and the first id of 20 */
    TREVOSKEL_BAD_SIZE = 1,               /* empty, or over 65,536 bytes */
    TREVOSKEL_UNKNOWN_KIND = 2,
    TREVOSKEL_CUT_SHORT = 3,              /* the bytes end inside a record, or before what it announces */
    TREVOSKEL_PREAMBLE_MISPLACED = 4,     /* the first record is no preamble, or a later one is */
    TREVOSKEL_WRONG_VERSION = 5,
    TREVOSKEL_TRACE_CLASS_MISPLACED = 6,  /* after a stream class, or a second one */
    TREVOSKEL_ID_USED = 7,                /* a clock id, stream class id or pair of event ids was used before */
    TREVOSKEL_ID_UNKNOWN = 8,             /* the clock or stream class that is named does not stand earlier */
    TREVOSKEL_KIND_NOT_ALLOWED = 9,       /* this kind here; or a root that is foreign, repeated or out of turn */
    TREVOSKEL_NUMBER_OUT_OF_RANGE = 10,
    TREVOSKEL_SLOT_NOT_ALLOWED = 11,      /* here; or it is set both inside an array element and outside it */
    TREVOSKEL_ROLE_NOT_ALLOWED = 12,
    TREVOSKEL_RANGES_CONTRADICT = 13,     /* low above high, signs mixed, or ranges of two options meet */
    TREVOSKEL_TOO_DEEP = 14,
    TREVOSKEL_TOO_MANY_FRAGMENTS = 15,    /* over 512 clock, stream and event classes */

    /* "Refusing a stream": of trevoskel_read; 20 of trevoskel_bundle too */
    TREVOSKEL_TABLE_REFUSED = 20,         /* first id: the table's number; place: its byte */
    TREVOSKEL_STREAM_SIZE = 21,           /* empty, or over 536,870,911 bytes */
    TREVOSKEL_PAST_BOUND = 22,            /* alignment, bits or bytes past the bound */
    TREVOSKEL_ORDER_CHANGED = 23,         /* the byte order changed off a byte boundary */
    TREVOSKEL_LEB128_TOO_LARGE = 24,      /* or too long */
    TREVOSKEL_NO_ZERO_BYTE = 25,
    TREVOSKEL_SLOT_UNSET = 26,            /* no field has set it, or only one in an array element that is over */
    TREVOSKEL_SLOT_OF_WRONG_SORT = 27,
    TREVOSKEL_LENGTH_TOO_LARGE = 28,      /* above 65,535 */
    TREVOSKEL_SELECTOR_IN_NO_OPTION = 29,
    TREVOSKEL_WRONG_MAGIC = 30,
    TREVOSKEL_WRONG_UUID = 31,
    TREVOSKEL_STREAM_CLASS_CHANGED = 32,
    TREVOSKEL_STREAM_CLASS_UNKNOWN = 33,  /* first id: the stream class's */
    TREVOSKEL_LENGTHS_CONTRADICT = 34,
    TREVOSKEL_CLOCKS_CONTRADICT = 35,
    TREVOSKEL_CLOCK_TOO_LARGE = 36,       /* above 64 bits */
    TREVOSKEL_EVENT_CLASS_UNKNOWN = 37,   /* first id: the stream class's; second id: the event class's */
    TREVOSKEL_EVENT_TOOK_NO_BITS = 38,
    TREVOSKEL_CLOCK_WENT_BACK = 39,
    TREVOSKEL_LIST_FULL = 40,             /* under five words left where an entry is due */
    TREVOSKEL_NOT_TEXT = 41,              /* bytes of a string before its first zero byte that are no UTF-8 (RFC 3629) */

    /* Of trevoskel_bundle, in this order behind 20 */
    TREVOSKEL_TOO_MANY_STREAMS = 44,      /* over 16 */
    TREVOSKEL_SHORT_BUFFER = 45           /* length: how many bytes it takes */
};

/* The words of trevoskel_check's result, and how many there are. */
enum trevoskel_checked {
    TREVOSKEL_CHECKED_NUMBER,
    TREVOSKEL_CHECKED_BYTE,               /* the table's length; or, refused, where the record at fault begins */
    TREVOSKEL_CHECKED_WORDS
};

/* The words of trevoskel_read's result, and how many there are. Ids are 0 where none is named above. */
enum trevoskel_result {
    TREVOSKEL_RESULT_NUMBER,
    TREVOSKEL_RESULT_ENTRIES,             /* how many stand in the list */
    TREVOSKEL_RESULT_PLACE,               /* in bits: 8 times the stream's bytes; or, refused, where the failing step began, but of 22 the
                                             bound and of 24 the first bit of the number's tenth byte. Of 20 a byte of the table */
    TREVOSKEL_RESULT_FIRST_ID,
    TREVOSKEL_RESULT_SECOND_ID,
    TREVOSKEL_RESULT_WORDS
};

/* The words of trevoskel_bundle's result, and how many there are. */
enum trevoskel_bundled {
    TREVOSKEL_BUNDLED_NUMBER,
    TREVOSKEL_BUNDLED_LENGTH,             /* the bundle's bytes; of 20 the byte of the table; of 44 0; of 45 the bytes that are needed */
    TREVOSKEL_BUNDLED_ID,                 /* of 20 the table's number; else 0 */
    TREVOSKEL_BUNDLED_WORDS
};

/* The words of an entry in the list, and how many there are. */
enum trevoskel_entry {
    TREVOSKEL_ENTRY_KIND,                 /* 1 to 7 below; of a field its class's kind, 16 to 32 */
    TREVOSKEL_ENTRY_PLACE,                /* in bits from the stream's start */
    TREVOSKEL_ENTRY_BITS,
    TREVOSKEL_ENTRY_VALUE,                /* of a signed field in two's complement; of a float its bits */
    TREVOSKEL_ENTRY_NUMBER,               /* of a field the number of its class's record in its fragment, from 0 at the record that
                                             opens it; 0 for the kinds below */
    TREVOSKEL_ENTRY_WORDS
};

/* The kinds of entries that stand for no field. Bits are 0 and the value is the number or the id, where nothing else is said. */
enum trevoskel_entry_kind {
    TREVOSKEL_PACKET_STARTS = 1,          /* its number from 0 */
    TREVOSKEL_STREAM_CLASS_FOUND = 2,     /* its id */
    TREVOSKEL_LENGTHS_SETTLED = 3,        /* bits: the total length; value: the content's */
    TREVOSKEL_EVENT_STARTS = 4,           /* its number in the packet, from 0 */
    TREVOSKEL_EVENT_CLASS_FOUND = 5,      /* its id */
    TREVOSKEL_CLOCK_ADVANCED = 6,         /* bits: the stamp's; value: the clock */
    TREVOSKEL_PACKET_ENDS = 7             /* bits: of padding; value: the number of its events */
};

/* Whether a class table is sound: TREVOSKEL_ACCEPTED, or the number 1 to 15 that refuses it. The result gets TREVOSKEL_CHECKED_WORDS
 * words. */
uint32_t trevoskel_check(const uint8_t *table, size_t table_bytes, uint64_t *result, size_t result_words);

/* Reads a stream by a class table, which it checks itself: TREVOSKEL_ACCEPTED, or the number 20 to 41 that refuses table or stream. The
 * list gets the entries, TREVOSKEL_ENTRY_WORDS words each, those before a refusal too. The result gets TREVOSKEL_RESULT_WORDS words. */
uint32_t trevoskel_read(const uint8_t *table, size_t table_bytes, const uint8_t *stream, size_t stream_bytes, uint64_t *list,
                        size_t list_words, uint64_t *result, size_t result_words);

/* Cuts a class table, which it checks itself, to what up to 16 streams need: TREVOSKEL_ACCEPTED, or 20, 44 or 45, in that order.
 *
 * The streams stand one behind another in `streams`, as long as `lengths` says, and so do their lists in `list`, as long as `rooms` says.
 * Where a length or a room says more than is left, it is what is left; a stream without a room has a list of no words, and a list without
 * a stream, and what no length or room takes, is left alone. Each stream is read into its list as by trevoskel_read. The buffer gets the
 * table without those stream and event classes whose finding (entries 2 and 5) no list has: every stream reads by it as it did, list and
 * result, with the same room. A list that is full (40) names no class behind its end: lend each stream as much room as its readings will have.
 *
 * By 20 and 44 neither lists nor buffer are written, by 45 the lists are. The bundle is never longer than the table. The result gets
 * TREVOSKEL_BUNDLED_WORDS words. */
uint32_t trevoskel_bundle(const uint8_t *table, size_t table_bytes, const uint8_t *streams, size_t stream_bytes, const uint64_t *lengths,
                          size_t length_words, const uint64_t *rooms, size_t room_words, uint64_t *list, size_t list_words, uint8_t *out,
                          size_t out_bytes, uint64_t *result, size_t result_words);

#ifdef __cplusplus
}
#endif

#endif
