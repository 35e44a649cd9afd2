/* cases CASES ANSWERS BUNDLES ANSWERS: a host of the library. It asks the library each case of a case file and each of a file of bundles
 * (bundles.h), holds every word and byte to the answers and the names of trevoskel.h to what they say, reads streams as long as they may
 * be, and measures the stack that the library takes. The last five lines say what was found. Status 0: all agree, and memory and stack are
 * below their limits; 1: not so; 2: a file could not be read.
 *
 * A case is three little-endian numbers of 32 bits, the table's bytes, the stream's bytes and the list's words, and then table and stream.
 * Its answer is a line NUMBER BYTE, a line NUMBER ENTRIES PLACE ID ID, a line KIND PLACE BITS VALUE RECORD an entry, and an empty line. */
#include "bundles.h"
#include "deep.h"
#include "files.h"
#include "lent.h"
#include "long.h"
#include "names.h"
#include "stack.h"
#include "trevoskel.h"

#include <inttypes.h>
#include <stdio.h>
#include <stdlib.h>
#include <string.h>

/* Rooms that a result is tried with: from no word to two words more than there are. */
enum { ROOMS = TREVOSKEL_RESULT_WORDS + 3 };

enum { STACK_LIMIT = 1024 * 1024 };

/* Words that are enough for the deepest tables' readings. */
enum { DEEP_LIST = 128 };

enum { DIFFERENCES_SHOWN = 10 };

struct answered {
    const uint8_t *table;
    size_t table_bytes;
    const uint8_t *stream;
    size_t stream_bytes;
    size_t list_words;
    uint64_t checked[TREVOSKEL_CHECKED_WORDS];
    uint64_t result[TREVOSKEL_RESULT_WORDS];
    uint64_t *entries;
    int differs;
};

struct cases {
    struct answered *of;
    size_t count;
    uint64_t *list;
    uint64_t *due;
    size_t longest_list;
    size_t differing;
};

static void take_answer(const char *name, const char **text, struct answered *answered)
{
    take_numbers(name, text, answered->checked, TREVOSKEL_CHECKED_WORDS);
    take_numbers(name, text, answered->result, TREVOSKEL_RESULT_WORDS);
    uint64_t entries = answered->result[TREVOSKEL_RESULT_ENTRIES];
    if (entries > answered->list_words / TREVOSKEL_ENTRY_WORDS) fail(name, "has more entries than the list has room for");
    answered->entries = room_for(entries + 1, TREVOSKEL_ENTRY_WORDS * sizeof *answered->entries);
    for (uint64_t i = 0; i < entries; i++)
        take_numbers(name, text, answered->entries + i * TREVOSKEL_ENTRY_WORDS, TREVOSKEL_ENTRY_WORDS);
    if (**text != '\n') fail(name, "is no file of answers");
    ++*text;
}

static struct cases read_cases(const char *name, const char *answers_name)
{
    struct cases cases = {NULL, 0, NULL, NULL, 0, 0};
    size_t bytes, answers_bytes, at = 0, room = 0;
    uint8_t *data = (uint8_t *)read_file(name, &bytes);
    char *answers = read_file(answers_name, &answers_bytes);
    const char *text = answers;
    while (at < bytes) {
        if (cases.count == room) {
            room = 2 * room + 1024;
            cases.of = realloc(cases.of, room * sizeof *cases.of);
            if (cases.of == NULL) fail("cases", "no memory");
        }
        struct answered *one = &cases.of[cases.count++];
        if (bytes - at < 12) fail(name, "ends inside a case");
        one->table_bytes = number_at(data + at);
        one->stream_bytes = number_at(data + at + 4);
        one->list_words = number_at(data + at + 8);
        one->differs = 0;
        at += 12;
        if (bytes - at < one->table_bytes + one->stream_bytes) fail(name, "ends inside a case");
        one->table = own_room(data + at, one->table_bytes);
        at += one->table_bytes;
        one->stream = own_room(data + at, one->stream_bytes);
        at += one->stream_bytes;
        take_answer(answers_name, &text, one);
        if (cases.longest_list < one->list_words) cases.longest_list = one->list_words;
    }
    if (*text != 0) fail(answers_name, "has more answers than there are cases");
    cases.list = room_for(cases.longest_list + BEHIND, sizeof *cases.list);
    cases.due = room_for(cases.longest_list + BEHIND, sizeof *cases.due);
    free(data);
    free(answers);
    return cases;
}

/* Holds words to what is due. Of a case that differs, counted from 0, the first word that does so is shown. */
static void hold(struct cases *cases, size_t number, const char *what, size_t room, const uint64_t *got, const uint64_t *due, size_t count)
{
    if (cases->of[number].differs || memcmp(got, due, count * sizeof *got) == 0) return;
    size_t i = 0;
    while (got[i] == due[i]) i++;
    if (cases->differing < DIFFERENCES_SHOWN)
        printf("case %zu, %s of %zu words: word %zu is %" PRIu64 ", and %" PRIu64 " is due\n", number, what, room, i, got[i], due[i]);
    cases->of[number].differs = 1;
    cases->differing++;
}

static void check_all(void *given)
{
    struct cases *cases = given;
    uint64_t result[ROOMS + BEHIND], due[ROOMS + BEHIND];
    for (size_t i = 0; i < cases->count; i++)
        for (size_t room = 0; room < ROOMS; room++) {
            const struct answered *one = &cases->of[i];
            fill(result, 0, ROOMS + BEHIND);
            uint64_t number = trevoskel_check(one->table, one->table_bytes, room == 0 ? NULL : result, room);
            due_words(due, one->checked, TREVOSKEL_CHECKED_WORDS, room, ROOMS + BEHIND);
            hold(cases, i, "the number of a check with a result", room, &number, one->checked, 1);
            hold(cases, i, "a check's result", room, result, due, ROOMS + BEHIND);
        }
}

static void read_all(void *given)
{
    struct cases *cases = given;
    uint64_t result[ROOMS + BEHIND], due[ROOMS + BEHIND];
    for (size_t i = 0; i < cases->count; i++) {
        const struct answered *one = &cases->of[i];
        size_t listed = one->result[TREVOSKEL_RESULT_ENTRIES] * TREVOSKEL_ENTRY_WORDS;
        memcpy(cases->due, one->entries, listed * sizeof *cases->due);
        fill(cases->due, listed, one->list_words + BEHIND);
        for (size_t room = 0; room < ROOMS; room++) {
            fill(result, 0, ROOMS + BEHIND);
            fill(cases->list, 0, one->list_words + BEHIND);
            uint64_t number = trevoskel_read(one->table, one->table_bytes, one->stream, one->stream_bytes,
                                             one->list_words == 0 ? NULL : cases->list, one->list_words, room == 0 ? NULL : result, room);
            due_words(due, one->result, TREVOSKEL_RESULT_WORDS, room, ROOMS + BEHIND);
            hold(cases, i, "the number of a reading with a result", room, &number, one->result, 1);
            hold(cases, i, "a reading's result", room, result, due, ROOMS + BEHIND);
            hold(cases, i, "a list", one->list_words, cases->list, cases->due, one->list_words + BEHIND);
        }
    }
}

/* What the deepest tables are asked for. */
enum asked { CHECK, READ, BUNDLE };

static uint32_t answer_deep(const struct deep *deep, enum asked asked)
{
    static uint64_t list[DEEP_LIST], result[TREVOSKEL_RESULT_WORDS];
    static uint8_t out[sizeof deep->table];
    const uint64_t length = deep->stream_bytes, room = DEEP_LIST;
    switch (asked) {
    case CHECK: return trevoskel_check(deep->table, deep->table_bytes, result, TREVOSKEL_CHECKED_WORDS);
    case READ:
        return trevoskel_read(deep->table, deep->table_bytes, deep->stream, deep->stream_bytes, list, DEEP_LIST, result,
                              TREVOSKEL_RESULT_WORDS);
    default:
        return trevoskel_bundle(deep->table, deep->table_bytes, deep->stream, deep->stream_bytes, &length, 1, &room, 1, list, DEEP_LIST, out,
                                sizeof out, result, TREVOSKEL_BUNDLED_WORDS);
    }
}

/* What they are made for is that they are accepted, so any other answer ends the program. */
static void ask_deep(const struct deep *deep, enum asked asked, uint32_t due)
{
    uint32_t number = answer_deep(deep, asked);
    if (number == due) return;
    printf("a table of depth 8 got %" PRIu32 ", and %" PRIu32 " is due\n", number, due);
    exit(1);
}

static void ask_all_deep(void *given)
{
    static struct deep deep;
    enum asked asked = *(enum asked *)given;
    for (unsigned row = 0; row < DEEP_ROWS; row++) {
        deep_make(&deep, 5, row, DEEP_AROUND, 18, 0);
        ask_deep(&deep, asked, TREVOSKEL_ACCEPTED);
    }
    for (unsigned root = 0; root < DEEP_ROOTS; root++)
        for (unsigned digit = 0; digit < DEEP_KINDS; digit++) {
            for (unsigned leaf = DEEP_FIRST; leaf <= DEEP_LAST; leaf++) {
                deep_make(&deep, root, deep_same(digit), DEEP_AROUND, leaf, 0);
                ask_deep(&deep, asked, TREVOSKEL_ACCEPTED);
            }
            deep_make(&deep, root, deep_same(digit), DEEP_AROUND, 18, 1);
            ask_deep(&deep, asked, TREVOSKEL_ACCEPTED);
        }
    deep_make(&deep, 5, 0, DEEP_AROUND + 1, 18, 0);
    ask_deep(&deep, asked, asked == CHECK ? TREVOSKEL_TOO_DEEP : TREVOSKEL_TABLE_REFUSED);
}

static size_t larger(size_t a, size_t b)
{
    return a < b ? b : a;
}

/* The stack that a piece of work takes, or the deepest tables where they take more. */
static size_t stack_of(void (*work)(void *), void *with, enum asked asked)
{
    return larger(stack_taken(work, with), stack_taken(ask_all_deep, &asked));
}

int main(int argc, char **argv)
{
    if (argc != 5) fail("usage", "cases CASES ANSWERS BUNDLES ANSWERS");
    struct cases cases = read_cases(argv[1], argv[2]);
    struct bundles *bundles = bundles_read(argv[3], argv[4]);
    int named = names_hold();
    int lengths = long_hold();
    size_t check = stack_of(check_all, &cases, CHECK);
    size_t reading = stack_of(read_all, &cases, READ);
    size_t bundle = stack_of(bundles_ask, bundles, BUNDLE);
    int within = larger(check, larger(reading, bundle)) < STACK_LIMIT;
    printf("%zu of %zu cases agree, each with results of 0 to %d words\n", cases.count - cases.differing, cases.count, ROOMS - 1);
    int cut = bundles_say(bundles);
    printf("the names of trevoskel.h %s what they say\n", named ? "stand for" : "DO NOT STAND FOR");
    printf("streams of up to 536,870,911 bytes %s their answers, in less than %d MiB of memory\n", lengths ? "get" : "DO NOT GET",
           LONG_MEMORY_MIB);
    printf("stack: a check takes up to %zu bytes, a reading up to %zu, a bundle up to %zu, %s\n", check, reading, bundle,
           within ? "below 1 MiB" : "NOT BELOW 1 MiB");
    return cases.differing == 0 && cut && named && lengths && within ? 0 : 1;
}
