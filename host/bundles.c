/* A file of bundle cases, asked of the library. */
#include "bundles.h"
#include "files.h"
#include "lent.h"
#include "trevoskel.h"

#include <inttypes.h>
#include <stdio.h>
#include <stdlib.h>
#include <string.h>

enum { HELD = 0xEE };

/* Rooms that a result is tried with: from no word to two words more than there are. */
enum { ROOMS = TREVOSKEL_BUNDLED_WORDS + 3 };

/* What is lent to one call, and what is due of it. Buffer and list have some bytes and words behind them that are not lent. */
struct bundle {
    const uint8_t *table;
    size_t table_bytes;
    const uint8_t *streams;
    size_t stream_bytes;
    uint64_t *lengths;
    size_t length_count;
    uint64_t *rooms;
    size_t room_count;
    uint64_t *list;
    size_t list_words;
    uint8_t *buffer;
    size_t buffer_bytes;
    uint64_t due_result[TREVOSKEL_BUNDLED_WORDS];
    uint64_t *due_list;
    uint8_t *due_buffer;
};

struct bundles {
    struct bundle *of;
    size_t count;
    size_t differing;
};

static size_t least(uint64_t a, size_t b)
{
    return a < b ? (size_t)a : b;
}

static unsigned digit(const char *name, char c)
{
    if (c >= '0' && c <= '9') return c - '0';
    if (c >= 'a' && c <= 'f') return c - 'a' + 10;
    fail(name, "is no file of answers");
    return 0;
}

static void take_buffer(const char *name, const char **text, uint8_t *into, size_t bytes)
{
    for (size_t i = 0; i < bytes; i++, *text += 2) into[i] = digit(name, (*text)[0]) * 16 + digit(name, (*text)[1]);
    if (**text != '\n') fail(name, "is no file of answers");
    ++*text;
}

/* The lists that are due: those of each stream's reading by itself. Where `text` has lines, each is the result that is due. */
static void read_alone(struct bundle *one, const char *name, const char **text)
{
    const uint8_t *from = one->streams;
    size_t left = one->stream_bytes, words = one->list_words;
    uint64_t *list = one->due_list;
    for (size_t i = 0; i < one->length_count; i++) {
        size_t bytes = least(one->lengths[i], left), room = i < one->room_count ? least(one->rooms[i], words) : 0;
        uint64_t result[TREVOSKEL_RESULT_WORDS], due[TREVOSKEL_RESULT_WORDS];
        trevoskel_read(one->table, one->table_bytes, bytes == 0 ? NULL : from, bytes, list, room, result, TREVOSKEL_RESULT_WORDS);
        if (text != NULL) {
            take_numbers(name, text, due, TREVOSKEL_RESULT_WORDS);
            if (memcmp(result, due, sizeof due) != 0) fail(name, "has another result than trevoskel_read");
        }
        if (bytes > 0) from += bytes;
        left -= bytes;
        list += room;
        words -= room;
    }
}

static void lend(struct bundle *one)
{
    one->list = room_for(one->list_words + BEHIND, sizeof *one->list);
    one->due_list = room_for(one->list_words + BEHIND, sizeof *one->due_list);
    one->buffer = room_for(one->buffer_bytes + BEHIND, 1);
    one->due_buffer = room_for(one->buffer_bytes + BEHIND, 1);
    fill(one->due_list, 0, one->list_words + BEHIND);
    memset(one->due_buffer, HELD, one->buffer_bytes + BEHIND);
}

static int is_read(const struct bundle *one)
{
    uint64_t number = one->due_result[TREVOSKEL_BUNDLED_NUMBER];
    return number == TREVOSKEL_ACCEPTED || number == TREVOSKEL_SHORT_BUFFER;
}

struct bundles *bundles_read(const char *name, const char *answers_name)
{
    struct bundles *bundles = room_for(1, sizeof *bundles);
    size_t bytes, answers_bytes, at = 0;
    const uint8_t *data = (uint8_t *)read_file(name, &bytes);
    const char *text = read_file(answers_name, &answers_bytes);
    while (at < bytes) {
        bundles->of = realloc(bundles->of, (bundles->count + 1) * sizeof *bundles->of);
        if (bundles->of == NULL) fail("cases", "no memory");
        struct bundle *one = memset(&bundles->of[bundles->count++], 0, sizeof *one);
        if (bytes - at < 12) fail(name, "ends inside a case");
        one->table_bytes = number_at(data + at);
        one->length_count = one->room_count = number_at(data + at + 4);
        one->buffer_bytes = number_at(data + at + 8);
        at += 12;
        if ((bytes - at) / 8 < one->length_count) fail(name, "ends inside a case");
        one->lengths = room_for(one->length_count + 1, sizeof *one->lengths);
        one->rooms = room_for(one->room_count + 1, sizeof *one->rooms);
        for (size_t i = 0; i < one->length_count; i++, at += 8) {
            one->stream_bytes += one->lengths[i] = number_at(data + at);
            one->list_words += one->rooms[i] = number_at(data + at + 4);
        }
        if (bytes - at < one->table_bytes + one->stream_bytes) fail(name, "ends inside a case");
        one->table = own_room(data + at, one->table_bytes);
        at += one->table_bytes;
        one->streams = own_room(data + at, one->stream_bytes);
        at += one->stream_bytes;
        lend(one);
        take_numbers(answers_name, &text, one->due_result, TREVOSKEL_BUNDLED_WORDS);
        take_buffer(answers_name, &text, one->due_buffer, one->buffer_bytes);
        if (is_read(one)) read_alone(one, answers_name, &text);
        if (*text != '\n') fail(answers_name, "is no file of answers");
        text++;
    }
    if (*text != 0) fail(answers_name, "has more answers than there are cases");
    return bundles;
}

/* One call, with a result of so many words. */
static uint32_t ask(const struct bundle *one, uint64_t *result, size_t room)
{
    fill(one->list, 0, one->list_words + BEHIND);
    memset(one->buffer, HELD, one->buffer_bytes + BEHIND);
    return trevoskel_bundle(one->table, one->table_bytes, one->streams, one->stream_bytes, one->length_count == 0 ? NULL : one->lengths,
                            one->length_count, one->room_count == 0 ? NULL : one->rooms, one->room_count,
                            one->list_words == 0 ? NULL : one->list, one->list_words, one->buffer_bytes == 0 ? NULL : one->buffer,
                            one->buffer_bytes, room == 0 ? NULL : result, room);
}

/* What of a call is not what is due; NULL where all is. */
static const char *differs(const struct bundle *one, size_t room)
{
    uint64_t result[ROOMS + BEHIND], due[ROOMS + BEHIND];
    fill(result, 0, ROOMS + BEHIND);
    due_words(due, one->due_result, TREVOSKEL_BUNDLED_WORDS, room, ROOMS + BEHIND);
    if (ask(one, result, room) != one->due_result[TREVOSKEL_BUNDLED_NUMBER]) return "number";
    if (memcmp(result, due, sizeof due) != 0) return "result";
    if (memcmp(one->list, one->due_list, (one->list_words + BEHIND) * sizeof *one->list) != 0) return "list";
    return memcmp(one->buffer, one->due_buffer, one->buffer_bytes + BEHIND) != 0 ? "buffer" : NULL;
}

static int holds(const struct bundle *one, size_t number, const char *how)
{
    for (size_t room = 0; room < ROOMS; room++) {
        const char *what = differs(one, room);
        if (what == NULL) continue;
        printf("bundle %zu%s, with a result of %zu words: its %s is not what is due\n", number, how, room, what);
        return 0;
    }
    return 1;
}

/* The last length and the last room promise all that a number can: they take what is left, so that nothing changes. */
static int holds_promised(const struct bundle *one, size_t number)
{
    if (one->length_count == 0) return 1;
    uint64_t *length = &one->lengths[one->length_count - 1], *room = &one->rooms[one->room_count - 1];
    const uint64_t length_was = *length, room_was = *room;
    *length = *room = UINT64_MAX;
    int hold = holds(one, number, ", whose last length and room promise more");
    *length = length_was;
    *room = room_was;
    return hold;
}

/* A room that is not said is one of no words: the bundle is what it is with that room. */
static int holds_unsaid(const struct bundle *as, size_t number)
{
    if (as->room_count == 0) return 1;
    struct bundle one = *as;
    uint64_t *room = &one.rooms[one.room_count - 1];
    const uint64_t room_was = *room;
    *room = 0;
    lend(&one);
    if (is_read(&one)) read_alone(&one, NULL, NULL);
    ask(&one, one.due_result, TREVOSKEL_BUNDLED_WORDS);
    memcpy(one.due_buffer, one.buffer, one.buffer_bytes);
    one.room_count--;
    int hold = holds(&one, number, ", whose last room is not said");
    *room = room_was;
    return hold;
}

void bundles_ask(void *given)
{
    struct bundles *bundles = given;
    for (size_t i = 0; i < bundles->count; i++) {
        const struct bundle *one = &bundles->of[i];
        if (!(holds(one, i, "") && holds_promised(one, i) && holds_unsaid(one, i))) bundles->differing++;
    }
}

int bundles_say(const struct bundles *bundles)
{
    printf("%zu of %zu bundles agree, each with results of 0 to %d words\n", bundles->count - bundles->differing, bundles->count, ROOMS - 1);
    return bundles->differing == 0;
}
