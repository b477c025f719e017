/* Calls every function of the C interface. What is expected was worked out by hand from documents 01 and 02, on tables with R 4 and L 8.
 * Prints 'capi: N checks passed', or each check that failed, and then the exit status is 1.
 */
#include <inttypes.h>
#include <stdbool.h>
#include <stdio.h>
#include <string.h>

#include "zamgyorud.h"

#define R 4
#define L 8

/* The layout: words of the header, of a resource and of a lock, bytes of a slot; where some of these words stand. */
#define HEADER_WORDS 8
#define RESOURCE_WORDS 12
#define LOCK_WORDS 10
#define SLOT_BYTES 96
#define WORD_BYTES 4
#define HEADER_NOTICE 6
#define RESOURCE_COUNTS 6
#define LOCK_NOTICE 2
#define LOCK_RESOURCE 3
#define LOCK_CLIENT 4
#define LOCK_STATE 5
#define LOCK_HELD 6
#define LOCK_COMPLETION 8
#define LOCK_MARK 9

#define MODES 6

/* One more than document 01 allows. */
#define TOO_MANY_RESOURCES 257
#define TOO_MANY_LOCKS 1025
#define TOO_HIGH_CLIENT 256

#define WORDS ZAMGYORUD_WORDS_LEN(R, L)
#define SLOTS ZAMGYORUD_SLOTS_LEN(R, L)
#define IMAGE ZAMGYORUD_IMAGE_LEN(R, L)
#define MEMORY ZAMGYORUD_MEMORY_LEN(R, L)

/* A number; bytes; an accepted answer, with all its bits; one of poll; one of purge; a refused one; holder's two answers; how many locks hold NL to
 * EX on a resource. */
#define IS(actual, expected) check(__LINE__, #actual, (actual), (expected))
#define SAME(a, b, bytes) check(__LINE__, #a " as " #b, memcmp((a), (b), (bytes)) == 0, 1)
#define GIVES(answer, result, lock) accepted(__LINE__, #answer, (answer), (result), (lock), 0)
#define TELLS(client, completion, lock, mark) \
    accepted(__LINE__, "poll of client " #client, zamgyorud_tables_poll(&tables, (client)), (completion), (lock), (mark))
#define PURGES(client, count, blocked, unread) \
    purged(__LINE__, "purge of client " #client, zamgyorud_tables_purge(&tables, (client)), (count), (blocked), (unread))
#define REFUSES(answer, refusal) refused(__LINE__, #answer, (answer), (refusal))
#define HOLDS(answer, refusal, client) holds(__LINE__, #answer, (answer), (refusal), (client))
#define COUNTS(resource, ...) counts(__LINE__, (resource), (const uint32_t[MODES]){__VA_ARGS__})

static unsigned passed;
static unsigned failed;

static void check(int line, const char *what, uint64_t actual, uint64_t expected)
{
    if (actual == expected) {
        passed++;
        return;
    }
    failed++;
    printf("capi: line %d: %s is %" PRIu64 ", not %" PRIu64 "\n", line, what, actual, expected);
}

static void accepted(int line, const char *what, struct zamgyorud_answer answer, uint32_t result, uint32_t lock, uint32_t mark)
{
    check(line, what, answer.bits, (uint64_t)mark << 32 | (uint64_t)lock << 16 | result);
    check(line, what, zamgyorud_refusal(answer), 0);
    check(line, what, zamgyorud_result(answer), result);
    check(line, what, zamgyorud_lock(answer), lock);
    check(line, what, zamgyorud_mark(answer), mark);
}

static void purged(int line, const char *what, struct zamgyorud_answer answer, uint32_t count, uint32_t blocked, uint32_t unread)
{
    check(line, what, answer.bits, (uint64_t)unread << 32 | (uint64_t)blocked << 16 | count);
    check(line, what, zamgyorud_refusal(answer), 0);
    check(line, what, zamgyorud_result(answer), count);
    check(line, what, zamgyorud_purged_blocked(answer), blocked);
    check(line, what, zamgyorud_purged_unread(answer), unread);
}

static void refused(int line, const char *what, struct zamgyorud_answer answer, uint32_t refusal)
{
    check(line, what, answer.bits, UINT64_C(1) << 63 | refusal);
    check(line, what, zamgyorud_refusal(answer), refusal);
    check(line, what, zamgyorud_result(answer), 0);
    check(line, what, zamgyorud_lock(answer), 0);
    check(line, what, zamgyorud_mark(answer), 0);
    check(line, what, zamgyorud_purged_blocked(answer), 0);
    check(line, what, zamgyorud_purged_unread(answer), 0);
}

static void holds(int line, const char *what, struct zamgyorud_held held, uint32_t refusal, uint32_t client)
{
    check(line, what, held.bits, refusal != 0 ? 256 + refusal : client);
    check(line, what, zamgyorud_holder_refusal(held), refusal);
    check(line, what, zamgyorud_holder_client(held), client);
}

/* The lent tables, and a second pair to compare with or to load into. */
static uint32_t memory[MEMORY];
static uint32_t other_memory[MEMORY];
static struct zamgyorud_tables tables;
static struct zamgyorud_tables other;
static uint8_t area[IMAGE];

static void start_afresh(void)
{
    memset(memory, 0xff, sizeof memory);
    GIVES(zamgyorud_tables_start(&tables, R, L), 0, 0);
}

static void keep(void)
{
    memcpy(other_memory, memory, sizeof memory);
}

static void unchanged(void)
{
    SAME(memory, other_memory, sizeof memory);
}

static struct zamgyorud_answer request(uint32_t client, uint32_t mode, uint32_t flags, const char *name)
{
    return zamgyorud_tables_request(&tables, client, mode, flags, (const uint8_t *)name, strlen(name));
}

static struct zamgyorud_answer convert(uint32_t client, uint32_t lock, uint32_t mode)
{
    return zamgyorud_tables_convert(&tables, client, lock, mode, 0, NULL, 0);
}

static struct zamgyorud_answer release(uint32_t client, uint32_t lock, uint32_t flags)
{
    return zamgyorud_tables_release(&tables, client, lock, flags, NULL, 0);
}

/* A word of a lock's record. */
static uint32_t *lock_word(uint32_t lock, size_t field)
{
    return tables.words + HEADER_WORDS + RESOURCE_WORDS * R + LOCK_WORDS * (lock - 1) + field;
}

/* The words of a resource's record that count the locks which hold NL to EX. */
static uint32_t *count_words(uint32_t resource)
{
    return tables.words + HEADER_WORDS + RESOURCE_WORDS * (resource - 1) + RESOURCE_COUNTS;
}

static void counts(int line, uint32_t resource, const uint32_t *expected)
{
    static const char *const names[MODES] = {"NL", "CR", "CW", "PR", "PW", "EX"};

    for (unsigned mode = 0; mode < MODES; mode++)
        check(line, names[mode], count_words(resource)[mode], expected[mode]);
}

/* Fresh tables, where locks 1 and 2 hold PR on A. The first asks for EX, the second for a mode that PR is in the way of too: both wait. */
static void both_convert(uint32_t mode)
{
    start_afresh();
    GIVES(request(1, ZAMGYORUD_MODE_PR, 0, "A"), 1, 1);
    GIVES(request(2, ZAMGYORUD_MODE_PR, 0, "A"), 1, 2);
    GIVES(convert(1, 1, ZAMGYORUD_MODE_EX), 2, 0);
    GIVES(convert(2, 2, mode), 2, 0);
}

/* Answers taken apart, also ones that no call gives: each part is 16 bits, and of a refusal nothing but its number is told. */
static void test_answers(void)
{
    const struct zamgyorud_answer full = {UINT64_C(0x7fff333322221111)};
    const struct zamgyorud_answer refusal = {UINT64_MAX};

    IS(zamgyorud_refusal(full), 0);
    IS(zamgyorud_result(full), 0x1111);
    IS(zamgyorud_lock(full), 0x2222);
    IS(zamgyorud_mark(full), 0x3333);
    IS(zamgyorud_purged_blocked(full), 0x2222);
    IS(zamgyorud_purged_unread(full), 0x3333);
    IS(zamgyorud_refusal(refusal), UINT32_MAX);
    IS(zamgyorud_result(refusal), 0);
    IS(zamgyorud_lock(refusal), 0);
    IS(zamgyorud_mark(refusal), 0);
    IS(zamgyorud_purged_blocked(refusal), 0);
    IS(zamgyorud_purged_unread(refusal), 0);
}

/* Lengths, and tables in memory. Constants and functions say the same; where there are no tables, the functions say 0. */
static void test_lengths(void)
{
    static const uint32_t wrong[][2] = {{0, L}, {R, 0}, {TOO_MANY_RESOURCES, L}, {R, TOO_MANY_LOCKS}, {UINT32_MAX, L}, {R, UINT32_MAX}, {0, 0}};
    struct zamgyorud_tables none;

    IS(WORDS, HEADER_WORDS + RESOURCE_WORDS * R + LOCK_WORDS * L);
    IS(SLOTS, SLOT_BYTES * R);
    IS(IMAGE, WORD_BYTES * WORDS + SLOTS);
    IS(MEMORY, WORDS + SLOTS / WORD_BYTES);
    IS(zamgyorud_words_len(R, L), WORDS);
    IS(zamgyorud_slots_len(R, L), SLOTS);
    IS(zamgyorud_image_len(R, L), IMAGE);
    IS(zamgyorud_memory_len(R, L), MEMORY);
    IS(zamgyorud_image_len(1, 1), 216);
    IS(zamgyorud_image_len(ZAMGYORUD_MOST_RESOURCES, ZAMGYORUD_MOST_LOCKS), 77856);
    for (size_t i = 0; i < sizeof wrong / sizeof *wrong; i++) {
        IS(zamgyorud_words_len(wrong[i][0], wrong[i][1]), 0);
        IS(zamgyorud_slots_len(wrong[i][0], wrong[i][1]), 0);
        IS(zamgyorud_image_len(wrong[i][0], wrong[i][1]), 0);
        IS(zamgyorud_memory_len(wrong[i][0], wrong[i][1]), 0);
        none = zamgyorud_tables_in(memory, MEMORY, wrong[i][0], wrong[i][1]);
        IS(none.words == NULL && none.words_len == 0 && none.slots == NULL && none.slots_len == 0, 1);
    }
    none = zamgyorud_tables_in(memory, MEMORY - 1, R, L);
    IS(none.words == NULL && none.words_len == 0 && none.slots == NULL && none.slots_len == 0, 1);
    REFUSES(zamgyorud_tables_start(&none, R, L), 2);
    IS(zamgyorud_tables_sound(&none), 0);

    /* the words, and right behind them the slots */
    tables = zamgyorud_tables_in(memory, MEMORY, R, L);
    other = zamgyorud_tables_in(other_memory, MEMORY + 1, R, L);
    IS(tables.words == memory && tables.words_len == WORDS, 1);
    IS(tables.slots == (uint8_t *)memory + 4 * WORDS && tables.slots_len == SLOTS, 1);
    IS(other.words == other_memory && other.words_len == WORDS && other.slots_len == SLOTS, 1);
}

/* Started tables: all records free, chained upward. */
static void test_start(void)
{
    static const uint32_t header[HEADER_WORDS] = {R, L, 1, 1, 0, 0, 0, 0};
    uint32_t expected[MEMORY] = {0};

    start_afresh();
    memcpy(expected, header, sizeof header);
    for (uint32_t r = 1; r < R; r++)
        expected[HEADER_WORDS + RESOURCE_WORDS * (r - 1)] = r + 1;
    for (uint32_t k = 1; k < L; k++)
        expected[HEADER_WORDS + RESOURCE_WORDS * R + LOCK_WORDS * (k - 1)] = k + 1;
    SAME(memory, expected, sizeof memory);
    IS(zamgyorud_tables_sound(&tables), 1);

    keep();
    REFUSES(zamgyorud_tables_start(&tables, 0, L), ZAMGYORUD_REFUSAL_SIZES);
    REFUSES(zamgyorud_tables_start(&tables, R, TOO_MANY_LOCKS), 2);
    REFUSES(zamgyorud_start(tables.words, WORDS - 1, tables.slots, SLOTS, R, L), 2);
    REFUSES(zamgyorud_start(tables.words, WORDS, tables.slots, SLOTS - 1, R, L), 2);
    unchanged();
}

/* The lines that document 01 gives for lockplay. */
static void test_takeover(void)
{
    start_afresh();
    GIVES(request(1, ZAMGYORUD_MODE_EX, 0, "vip-7"), ZAMGYORUD_RESULT_GRANTED, 1);
    GIVES(request(2, ZAMGYORUD_MODE_EX, 0, "vip-7"), ZAMGYORUD_RESULT_WAITING, 2);
    keep();
    REFUSES(request(2, ZAMGYORUD_MODE_EX, ZAMGYORUD_FLAG_NO_QUEUE, "vip-7"), ZAMGYORUD_REFUSAL_BLOCKS);
    unchanged();
    PURGES(1, 1, 0, 0);
    TELLS(2, ZAMGYORUD_COMPLETION_GRANTED, 2, 0);
    TELLS(2, ZAMGYORUD_COMPLETION_NONE, 0, 0);
    TELLS(1, 0, 0, 0); /* the purge took its mark too */
}

/* What is turned down before anything else is looked at, and tables that are full. */
static void test_refusals(void)
{
    char name[66];

    start_afresh();
    keep();
    memset(name, 'n', sizeof name);
    name[65] = 0;
    REFUSES(request(0, ZAMGYORUD_MODE_NL, 0, "a"), ZAMGYORUD_REFUSAL_CLIENT);
    REFUSES(request(TOO_HIGH_CLIENT, ZAMGYORUD_MODE_NL, 0, "a"), 3);
    REFUSES(request(1, 6, 0, "a"), ZAMGYORUD_REFUSAL_MODE);
    REFUSES(request(1, ZAMGYORUD_MODE_EX, ZAMGYORUD_FLAG_STORE_VALUE, "a"), ZAMGYORUD_REFUSAL_FLAGS);
    REFUSES(request(1, ZAMGYORUD_MODE_EX, 0, ""), ZAMGYORUD_REFUSAL_NAME);
    REFUSES(request(1, ZAMGYORUD_MODE_EX, 0, name), 6);
    REFUSES(zamgyorud_tables_purge(&tables, 0), 3);
    REFUSES(zamgyorud_tables_poll(&tables, TOO_HIGH_CLIENT), 3);
    unchanged();
    name[ZAMGYORUD_NAME_BYTES] = 0;
    GIVES(request(ZAMGYORUD_MOST_CLIENT, ZAMGYORUD_MODE_EX, 0, name), 1, 1);
    GIVES(request(1, ZAMGYORUD_MODE_NL, 0, "b"), 1, 2);
    GIVES(request(1, ZAMGYORUD_MODE_NL, 0, "c"), 1, 3);
    GIVES(request(1, ZAMGYORUD_MODE_NL, 0, "d"), 1, 4);
    REFUSES(request(1, ZAMGYORUD_MODE_NL, 0, "e"), ZAMGYORUD_REFUSAL_NO_RESOURCE);
    for (uint32_t k = 5; k <= L; k++)
        GIVES(request(1, ZAMGYORUD_MODE_NL, 0, "d"), 1, k);
    REFUSES(request(1, ZAMGYORUD_MODE_NL, 0, "d"), ZAMGYORUD_REFUSAL_NO_LOCK);
}

/* Values, after test_takeover: client 2 holds EX on vip-7 with lock 2. */
static void test_values(void)
{
    uint8_t stored[ZAMGYORUD_VALUE_BYTES], value[40], sevens[40];

    memset(sevens, 7, sizeof sevens);
    for (uint8_t i = 0; i < sizeof stored; i++)
        stored[i] = (uint8_t)(200 + i);
    keep();
    REFUSES(zamgyorud_tables_convert(&tables, 2, 2, ZAMGYORUD_MODE_PR, ZAMGYORUD_FLAG_STORE_VALUE, stored, 31), ZAMGYORUD_REFUSAL_VALUE);
    REFUSES(zamgyorud_tables_convert(&tables, 2, 2, ZAMGYORUD_MODE_PR, 3, stored, 32), 5);
    unchanged();
    GIVES(zamgyorud_tables_convert(&tables, 2, 2, ZAMGYORUD_MODE_PR, ZAMGYORUD_FLAG_STORE_VALUE, stored, 32), ZAMGYORUD_RESULT_GRANTED, 0);

    /* all of it, its first ten bytes, none of it, more room than it needs */
    memset(value, 7, sizeof value);
    GIVES(zamgyorud_tables_read(&tables, 2, 2, value, 32), 1, 0);
    SAME(value, stored, 32);
    IS(value[32], 7);
    memset(value, 7, sizeof value);
    GIVES(zamgyorud_tables_read(&tables, 2, 2, value, 10), 1, 0);
    SAME(value, stored, 10);
    IS(value[10], 7);
    GIVES(zamgyorud_tables_read(&tables, 2, 2, value, 0), 1, 0);
    GIVES(zamgyorud_tables_read(&tables, 2, 2, NULL, 0), 1, 0);
    GIVES(zamgyorud_tables_read(&tables, 2, 2, value, 40), 1, 0);
    SAME(value, stored, 32);
    IS(value[32], 7);
    IS(value[39], 7);

    /* another's lock: the area stays */
    memset(value, 7, sizeof value);
    REFUSES(zamgyorud_tables_read(&tables, 3, 2, value, 32), ZAMGYORUD_REFUSAL_LOCK);
    SAME(value, sevens, sizeof value);

    /* the lock that the purge freed is taken first. EX goes with the other's NL; down to PW it makes the value not valid. */
    GIVES(request(3, ZAMGYORUD_MODE_NL, 0, "vip-7"), 1, 1);
    GIVES(convert(2, 2, ZAMGYORUD_MODE_EX), 1, 0);
    GIVES(zamgyorud_tables_convert(&tables, 2, 2, ZAMGYORUD_MODE_PW, ZAMGYORUD_FLAG_INVALIDATE_VALUE, NULL, 0), 1, 0);
    GIVES(zamgyorud_tables_read(&tables, 3, 1, value, 32), 0, 0);
    SAME(value, stored, 32);
}

/* A list, after test_values: PW and NL are held. CR goes with both; EX waits; NL to EX joins the convert queue. */
static void test_list(void)
{
    static const struct zamgyorud_entry expected[4] = {
        {2, 2, ZAMGYORUD_STATE_GRANTED, ZAMGYORUD_MODE_PW, 0},
        {3, 4, ZAMGYORUD_STATE_GRANTED, ZAMGYORUD_MODE_CR, 0},
        {1, 3, ZAMGYORUD_STATE_CONVERTING, ZAMGYORUD_MODE_NL, ZAMGYORUD_MODE_EX},
        {4, 5, ZAMGYORUD_STATE_WAITING, 0, ZAMGYORUD_MODE_EX},
    };
    struct zamgyorud_entry entries[5], sevens[5];

    IS(sizeof *entries, 20);
    memset(entries, 7, sizeof entries);
    memset(sevens, 7, sizeof sevens);
    GIVES(request(4, ZAMGYORUD_MODE_CR, 0, "vip-7"), 1, 3);
    GIVES(request(5, ZAMGYORUD_MODE_EX, 0, "vip-7"), 2, 4);
    GIVES(convert(3, 1, ZAMGYORUD_MODE_EX), ZAMGYORUD_RESULT_WAITING, 0);
    GIVES(zamgyorud_tables_list(&tables, 2, 2, entries, 2), 4, 0);
    SAME(entries, expected, 2 * sizeof *entries);
    SAME(entries + 2, sevens, 3 * sizeof *entries);
    GIVES(zamgyorud_tables_list(&tables, 3, 1, entries, 5), 4, 0);
    SAME(entries, expected, sizeof expected);
    SAME(entries + 4, sevens, sizeof *entries);
    GIVES(zamgyorud_tables_list(&tables, 2, 2, NULL, 0), 4, 0);
    memcpy(entries, sevens, sizeof entries);
    REFUSES(zamgyorud_tables_list(&tables, 5, 4, entries, 5), ZAMGYORUD_REFUSAL_STATE);
    REFUSES(zamgyorud_tables_list(&tables, 5, 2, entries, 5), 8);
    SAME(entries, sevens, sizeof entries);
}

/* Cancels and releases, after test_list. */
static void test_cancel_and_release(void)
{
    static const struct zamgyorud_entry expected[3] = {
        {2, 2, ZAMGYORUD_STATE_GRANTED, ZAMGYORUD_MODE_PW, 0},
        {3, 4, ZAMGYORUD_STATE_GRANTED, ZAMGYORUD_MODE_CR, 0},
        {1, 3, ZAMGYORUD_STATE_GRANTED, ZAMGYORUD_MODE_NL, 0},
    };
    struct zamgyorud_entry entries[3];

    REFUSES(zamgyorud_tables_cancel(&tables, 2, 2), 10);
    GIVES(zamgyorud_tables_cancel(&tables, 5, 4), ZAMGYORUD_CANCELLED_REQUEST, 0);
    GIVES(zamgyorud_tables_cancel(&tables, 3, 1), ZAMGYORUD_CANCELLED_CONVERSION, 0);
    GIVES(zamgyorud_tables_list(&tables, 4, 3, entries, 3), 3, 0);
    SAME(entries, expected, sizeof expected);
    keep();
    REFUSES(release(4, 3, ZAMGYORUD_FLAG_NO_QUEUE), 5);
    REFUSES(release(4, 9, 0), 8);
    unchanged();
    GIVES(release(4, 3, 0), 0, 0);
    REFUSES(release(4, 3, 0), 8);
}

/* Images, after test_takeover: client 2 holds EX on vip-7. */
static void test_images(void)
{
    static const uint8_t front[12] = {R, 0, 0, 0, L, 0, 0, 0, 2, 0, 0, 0}; /* R, L, the first free resource */
    static const uint8_t any[8] = {1, 2, 3, 0xf4, 5, 6, 7, 0xf8};
    const uint8_t *name = (const uint8_t *)"vip-7";

    memset(area, 9, sizeof area);
    REFUSES(zamgyorud_tables_image(&tables, area, IMAGE - 1), ZAMGYORUD_REFUSAL_LENGTHS);
    IS(area[0], 9);
    GIVES(zamgyorud_tables_image(&tables, area, IMAGE), 0, 0);
    SAME(area, front, sizeof front);
    SAME(area + 4 * WORDS, tables.slots, SLOTS);

    HOLDS(zamgyorud_holder(area, IMAGE, name, 5), 0, 2);
    HOLDS(zamgyorud_holder(area, IMAGE, name, 4), 0, 0);
    HOLDS(zamgyorud_holder(area, IMAGE, NULL, 0), ZAMGYORUD_REFUSAL_NAME, UINT32_MAX);
    HOLDS(zamgyorud_holder(area, IMAGE - 1, name, 5), ZAMGYORUD_REFUSAL_UNSOUND, UINT32_MAX);
    HOLDS(zamgyorud_holder(NULL, 0, NULL, 0), 1, UINT32_MAX);

    /* R and L, also of what is no image */
    IS(zamgyorud_image_resources(area, IMAGE), R);
    IS(zamgyorud_image_locks(area, IMAGE), L);
    IS(zamgyorud_image_resources(any, 8), 0xf4030201);
    IS(zamgyorud_image_locks(any, 8), 0xf8070605);
    IS(zamgyorud_image_resources(area, 7), 0);
    IS(zamgyorud_image_locks(area, 7), 0);
    IS(zamgyorud_image_resources(NULL, 0), 0);
    IS(zamgyorud_image_locks(NULL, 0), 0);

    memset(other_memory, 0xaa, sizeof other_memory);
    REFUSES(zamgyorud_load(area, IMAGE, other.words, WORDS - 1, other.slots, SLOTS), 14);
    area[28] = 1; /* the word of the header that is zero */
    REFUSES(zamgyorud_tables_load(&other, area, IMAGE), 1);
    IS(other.words[0], 0xaaaaaaaa);
    IS(other.slots[0], 0xaa);
    area[28] = 0;
    GIVES(zamgyorud_tables_load(&other, area, IMAGE), 0, 0);
    SAME(memory, other_memory, sizeof memory);
}

/* "1 holds A, 2 holds B (EX), 1 requests B, 2 requests A: break answers 3, then 0." Then a deadlock of two conversions. */
static void test_deadlocks(void)
{
    start_afresh();
    GIVES(zamgyorud_tables_break(&tables), 0, 0);
    GIVES(request(1, ZAMGYORUD_MODE_EX, 0, "A"), 1, 1);
    GIVES(request(2, ZAMGYORUD_MODE_EX, 0, "B"), 1, 2);
    GIVES(request(1, ZAMGYORUD_MODE_EX, 0, "B"), 2, 3);
    GIVES(request(2, ZAMGYORUD_MODE_EX, 0, "A"), 2, 4);
    GIVES(zamgyorud_tables_break(&tables), 3, 3);
    REFUSES(zamgyorud_tables_cancel(&tables, 1, 3), ZAMGYORUD_REFUSAL_UNREAD);
    TELLS(1, 0, 1, ZAMGYORUD_MODE_EX);
    TELLS(1, ZAMGYORUD_COMPLETION_REQUEST_DENIED, 3, 0);
    TELLS(1, 0, 0, 0);
    GIVES(zamgyorud_tables_break(&tables), 0, 0);

    both_convert(ZAMGYORUD_MODE_EX);
    GIVES(zamgyorud_tables_break(&tables), 1, 1);
    TELLS(2, 0, 2, ZAMGYORUD_MODE_EX);
    TELLS(1, ZAMGYORUD_COMPLETION_CONVERSION_DENIED, 1, ZAMGYORUD_MODE_EX);
    GIVES(release(1, 1, 0), 0, 0);
    TELLS(2, ZAMGYORUD_COMPLETION_GRANTED, 2, 0);
}

/* Marks. Lock 1 holds CR, lock 2 PW and lock 3 NL. PR and CW have to wait for PW; of the two PR has the larger number. EX has to wait for all but NL. */
static void test_marks(void)
{
    start_afresh();
    GIVES(request(1, ZAMGYORUD_MODE_CR, 0, "A"), 1, 1);
    GIVES(request(2, ZAMGYORUD_MODE_PW, 0, "A"), 1, 2);
    GIVES(request(3, ZAMGYORUD_MODE_NL, 0, "A"), 1, 3);
    keep();
    REFUSES(request(4, ZAMGYORUD_MODE_EX, ZAMGYORUD_FLAG_NO_QUEUE, "A"), 13);
    unchanged();

    /* set, not lowered, raised; the lock that is marked later stands behind the one that is raised */
    GIVES(request(4, ZAMGYORUD_MODE_PR, 0, "A"), 2, 4);
    IS(*lock_word(2, LOCK_MARK), ZAMGYORUD_MODE_PR);
    GIVES(request(5, ZAMGYORUD_MODE_CW, 0, "A"), 2, 5);
    IS(*lock_word(2, LOCK_MARK), ZAMGYORUD_MODE_PR);
    IS(*lock_word(1, LOCK_MARK), 0);
    GIVES(request(6, ZAMGYORUD_MODE_EX, 0, "A"), 2, 6);
    IS(*lock_word(1, LOCK_MARK), ZAMGYORUD_MODE_EX);
    IS(*lock_word(2, LOCK_MARK), ZAMGYORUD_MODE_EX);
    IS(*lock_word(3, LOCK_MARK), 0);
    IS(tables.words[HEADER_NOTICE], 2);
    IS(*lock_word(2, LOCK_NOTICE), 1);
    IS(*lock_word(1, LOCK_NOTICE), 0);

    /* polled alone, and gone with that; the mode stays */
    TELLS(2, ZAMGYORUD_COMPLETION_NONE, 2, ZAMGYORUD_MODE_EX);
    TELLS(2, ZAMGYORUD_COMPLETION_NONE, 0, 0);
    TELLS(3, 0, 0, 0);
    TELLS(4, 0, 0, 0);

    /* a mark stops no conversion, and stays though its lock is no longer in the way */
    GIVES(convert(1, 1, ZAMGYORUD_MODE_NL), 1, 0);
    TELLS(1, 0, 1, ZAMGYORUD_MODE_EX);

    /* behind a conversion that waits for lock 2 alone, NL is queued: nobody is in its way */
    GIVES(convert(3, 3, ZAMGYORUD_MODE_CW), 2, 0);
    GIVES(request(7, ZAMGYORUD_MODE_NL, 0, "A"), 2, 7);
    IS(*lock_word(1, LOCK_MARK), 0);
    IS(*lock_word(3, LOCK_MARK), 0);
    IS(*lock_word(2, LOCK_MARK), ZAMGYORUD_MODE_CW);

    /* nor a release: it goes with its lock. The sweep grants CW, and then no head: PR doesn't fit CW. */
    GIVES(release(2, 2, 0), 0, 0);
    TELLS(2, 0, 0, 0);
    TELLS(3, ZAMGYORUD_COMPLETION_GRANTED, 3, 0);
    TELLS(4, 0, 0, 0);
}

/* Two locks hold PR, and each asks for more: both are marked while they are converting. */
static void test_converting_marks(void)
{
    both_convert(ZAMGYORUD_MODE_PW);

    /* a mark stops no cancel and stays; granted, the other lock has both */
    GIVES(zamgyorud_tables_cancel(&tables, 2, 2), ZAMGYORUD_CANCELLED_CONVERSION, 0);
    TELLS(2, 0, 2, ZAMGYORUD_MODE_EX);
    GIVES(release(2, 2, 0), 0, 0);
    REFUSES(release(1, 1, 0), ZAMGYORUD_REFUSAL_UNREAD);
    TELLS(1, ZAMGYORUD_COMPLETION_GRANTED, 1, ZAMGYORUD_MODE_PW);
    TELLS(1, 0, 0, 0);
    GIVES(release(1, 1, 0), 0, 0);
}

/* Marks in sound tables: at most EX, on the notice chain, and none on a waiting or a free lock. An image has them. */
static void test_sound_marks(void)
{
    start_afresh();
    GIVES(request(1, ZAMGYORUD_MODE_EX, 0, "A"), 1, 1);
    GIVES(request(2, ZAMGYORUD_MODE_EX, 0, "A"), 2, 2);
    for (uint32_t mark = 0; mark <= 6; mark++) {
        *lock_word(1, LOCK_MARK) = mark;
        IS(zamgyorud_tables_sound(&tables), 1 <= mark && mark <= ZAMGYORUD_MODE_EX);
    }
    *lock_word(1, LOCK_MARK) = ZAMGYORUD_MODE_EX;
    for (uint32_t lock = 2; lock <= 3; lock++) {
        *lock_word(lock, LOCK_MARK) = ZAMGYORUD_MODE_EX;
        IS(zamgyorud_tables_sound(&tables), 0);
        *lock_word(lock, LOCK_MARK) = 0;
    }
    GIVES(zamgyorud_tables_image(&tables, area, IMAGE), 0, 0);
    GIVES(zamgyorud_tables_load(&other, area, IMAGE), 0, 0);
    SAME(memory, other_memory, sizeof memory);
}

/* Conversions pass the request that waits: lock 1 holds PR, lock 2 NL, and lock 3 waits for EX. */
static void test_conversions_first(void)
{
    start_afresh();
    GIVES(request(1, ZAMGYORUD_MODE_PR, 0, "A"), 1, 1);
    GIVES(request(2, ZAMGYORUD_MODE_NL, 0, "A"), 1, 2);
    GIVES(request(3, ZAMGYORUD_MODE_EX, 0, "A"), 2, 3);
    GIVES(zamgyorud_tables_convert(&tables, 2, 2, ZAMGYORUD_MODE_PR, ZAMGYORUD_FLAG_NO_QUEUE, NULL, 0), 1, 0);

    /* one that has to wait goes before it too */
    GIVES(convert(2, 2, ZAMGYORUD_MODE_EX), 2, 0);
    GIVES(release(1, 1, 0), 0, 0);
    TELLS(2, ZAMGYORUD_COMPLETION_GRANTED, 2, 0);
    TELLS(3, 0, 0, 0);
    PURGES(2, 1, 0, 0);
    TELLS(3, ZAMGYORUD_COMPLETION_GRANTED, 3, 0);
}

/* A request is in the way of new ones. Lock 1 holds CR, which goes with all modes but EX, and lock 2 waits for EX: so the wait chain alone keeps the
 * others out. */
static void test_behind_a_request(void)
{
    start_afresh();
    GIVES(request(1, ZAMGYORUD_MODE_CR, 0, "A"), 1, 1);
    GIVES(request(2, ZAMGYORUD_MODE_EX, 0, "A"), 2, 2);
    TELLS(1, 0, 1, ZAMGYORUD_MODE_EX);
    keep();
    for (uint32_t client = 1; client <= 3; client++) /* the holder, the one that waits, another */
        for (uint32_t mode = ZAMGYORUD_MODE_CR; mode <= ZAMGYORUD_MODE_PW; mode++)
            REFUSES(request(client, mode, ZAMGYORUD_FLAG_NO_QUEUE, "A"), 13);
    unchanged();

    /* NL passes, with flag 4 and without */
    GIVES(request(3, ZAMGYORUD_MODE_NL, ZAMGYORUD_FLAG_NO_QUEUE, "A"), 1, 3);
    GIVES(release(3, 3, 0), 0, 0);
    GIVES(request(3, ZAMGYORUD_MODE_NL, 0, "A"), 1, 3);

    /* another name has queues of its own */
    GIVES(request(3, ZAMGYORUD_MODE_PR, 0, "B"), 1, 4);
    GIVES(request(4, ZAMGYORUD_MODE_PR, ZAMGYORUD_FLAG_NO_QUEUE, "B"), 1, 5);

    /* PR, PW and PR queue up, and mark nobody: no held mode is in their way */
    GIVES(request(4, ZAMGYORUD_MODE_PR, 0, "A"), 2, 6);
    GIVES(request(5, ZAMGYORUD_MODE_PW, 0, "A"), 2, 7);
    GIVES(request(6, ZAMGYORUD_MODE_PR, 0, "A"), 2, 8);
    TELLS(1, 0, 0, 0);

    /* granted in turn: EX; then PR, and not the other PR, which fits but stands behind PW; then that, after PW has left the queue */
    GIVES(release(1, 1, 0), 0, 0);
    TELLS(2, ZAMGYORUD_COMPLETION_GRANTED, 2, 0);
    TELLS(4, 0, 0, 0);
    GIVES(release(2, 2, 0), 0, 0);
    TELLS(4, ZAMGYORUD_COMPLETION_GRANTED, 6, 0);
    TELLS(5, 0, 0, 0);
    TELLS(6, 0, 0, 0);
    REFUSES(request(7, ZAMGYORUD_MODE_PR, ZAMGYORUD_FLAG_NO_QUEUE, "A"), 13);
    REFUSES(request(7, ZAMGYORUD_MODE_CR, ZAMGYORUD_FLAG_NO_QUEUE, "A"), 13); /* it would go with the one that waits too */
    GIVES(zamgyorud_tables_cancel(&tables, 5, 7), ZAMGYORUD_CANCELLED_REQUEST, 0);
    TELLS(6, ZAMGYORUD_COMPLETION_GRANTED, 8, 0);

    /* nobody waits any more */
    GIVES(request(7, ZAMGYORUD_MODE_PR, ZAMGYORUD_FLAG_NO_QUEUE, "A"), 1, 7);
}

/* A conversion is in the way of all new requests, NL too. No request waits, and NL and CR fit the two PR that are held: so the convert chain alone
 * keeps them out. */
static void test_behind_a_conversion(void)
{
    start_afresh();
    GIVES(request(1, ZAMGYORUD_MODE_PR, 0, "A"), 1, 1);
    GIVES(request(2, ZAMGYORUD_MODE_PR, 0, "A"), 1, 2);
    GIVES(convert(1, 1, ZAMGYORUD_MODE_EX), 2, 0);
    keep();
    REFUSES(request(3, ZAMGYORUD_MODE_NL, ZAMGYORUD_FLAG_NO_QUEUE, "A"), 13);
    REFUSES(request(3, ZAMGYORUD_MODE_CR, ZAMGYORUD_FLAG_NO_QUEUE, "A"), 13);
    unchanged();
    GIVES(request(3, ZAMGYORUD_MODE_NL, 0, "A"), 2, 3);
    GIVES(request(4, ZAMGYORUD_MODE_CR, 0, "A"), 2, 4);
    GIVES(zamgyorud_tables_cancel(&tables, 1, 1), ZAMGYORUD_CANCELLED_CONVERSION, 0);
    TELLS(3, ZAMGYORUD_COMPLETION_GRANTED, 3, 0);
    TELLS(4, ZAMGYORUD_COMPLETION_GRANTED, 4, 0);
}

/* A client that holds PR asks for PR once more, behind a request that waits for its first lock: each of the two that wait leads to the other. */
static void test_deadlock_behind_a_request(void)
{
    start_afresh();
    GIVES(request(1, ZAMGYORUD_MODE_PR, 0, "A"), 1, 1);
    GIVES(request(2, ZAMGYORUD_MODE_EX, 0, "A"), 2, 2);
    GIVES(zamgyorud_tables_break(&tables), 0, 0);
    GIVES(request(1, ZAMGYORUD_MODE_PR, 0, "A"), 2, 3);
    GIVES(zamgyorud_tables_break(&tables), 2, 2);
    TELLS(2, ZAMGYORUD_COMPLETION_REQUEST_DENIED, 2, 0);
    TELLS(1, 0, 1, ZAMGYORUD_MODE_EX);
    TELLS(1, ZAMGYORUD_COMPLETION_GRANTED, 3, 0);
}

/* What a purge counts of a request: waiting, granted and unread, granted and read. Locks of others don't count, nor those that its sweep grants. */
static void test_purged_requests(void)
{
    start_afresh();
    GIVES(request(1, ZAMGYORUD_MODE_EX, 0, "A"), 1, 1);
    for (uint32_t client = 2; client <= 4; client++)
        GIVES(request(client, ZAMGYORUD_MODE_EX, 0, "A"), 2, client);
    keep();
    PURGES(5, 0, 0, 0); /* it has no lock; others wait */
    unchanged();
    PURGES(4, 1, 1, 0);
    IS(*lock_word(1, LOCK_MARK), ZAMGYORUD_MODE_EX);
    PURGES(1, 1, 0, 0); /* a mark alone */
    keep();
    PURGES(1, 0, 0, 0); /* it has no lock any more; another has a completion unread */
    unchanged();
    PURGES(2, 1, 0, 1);
    TELLS(3, ZAMGYORUD_COMPLETION_GRANTED, 3, 0);
    PURGES(3, 1, 0, 0);

    /* denied; the lock in its way has a mark alone */
    start_afresh();
    GIVES(request(1, ZAMGYORUD_MODE_EX, 0, "A"), 1, 1);
    GIVES(request(1, ZAMGYORUD_MODE_EX, 0, "A"), 2, 2);
    GIVES(zamgyorud_tables_break(&tables), 2, 2);
    PURGES(1, 2, 0, 1);

    /* waiting for a lock of its own: nothing is swept before all locks are freed, so it is never granted */
    start_afresh();
    GIVES(request(1, ZAMGYORUD_MODE_EX, 0, "A"), 1, 1);
    GIVES(request(1, ZAMGYORUD_MODE_EX, 0, "A"), 2, 2);
    PURGES(1, 2, 1, 0);
    TELLS(1, 0, 0, 0);
}

/* What a purge counts of a conversion: converting, granted and unread, denied and unread, and the last two with a mark beside. */
static void test_purged_conversions(void)
{
    for (unsigned denied = 0; denied <= 1; denied++) {
        both_convert(ZAMGYORUD_MODE_EX);
        IS(*lock_word(1, LOCK_MARK), ZAMGYORUD_MODE_EX);
        IS(*lock_word(2, LOCK_MARK), ZAMGYORUD_MODE_EX);
        if (denied) {
            GIVES(zamgyorud_tables_break(&tables), 1, 1);
            PURGES(1, 1, 0, 1); /* lock 1 is denied */
            TELLS(2, ZAMGYORUD_COMPLETION_GRANTED, 2, ZAMGYORUD_MODE_EX);
            PURGES(2, 1, 0, 0);
        } else {
            PURGES(2, 1, 1, 0); /* converting, with a mark: counted once */
            PURGES(1, 1, 0, 1); /* so lock 1 is granted */
        }
    }

    /* converting, without a mark; and cancelled, which is heard of already */
    start_afresh();
    GIVES(request(1, ZAMGYORUD_MODE_PR, 0, "A"), 1, 1);
    GIVES(request(2, ZAMGYORUD_MODE_PR, 0, "A"), 1, 2);
    GIVES(convert(1, 1, ZAMGYORUD_MODE_EX), 2, 0);
    PURGES(1, 1, 1, 0);
    GIVES(request(1, ZAMGYORUD_MODE_PR, 0, "A"), 1, 1);
    GIVES(convert(1, 1, ZAMGYORUD_MODE_EX), 2, 0);
    GIVES(zamgyorud_tables_cancel(&tables, 1, 1), ZAMGYORUD_CANCELLED_CONVERSION, 0);
    PURGES(1, 1, 0, 0);
}

/* All kinds together. Client 1 has on B a mark alone and a request denied, on D a conversion denied and a mark alone, on C a request granted, on A a
 * conversion that waits for client 2's lock, and a request behind it. */
static void test_purged_together(void)
{
    start_afresh();
    GIVES(request(1, ZAMGYORUD_MODE_EX, 0, "B"), 1, 1);
    GIVES(request(1, ZAMGYORUD_MODE_EX, 0, "B"), 2, 2);
    GIVES(zamgyorud_tables_break(&tables), 2, 2);
    GIVES(request(1, ZAMGYORUD_MODE_PR, 0, "D"), 1, 3);
    GIVES(request(1, ZAMGYORUD_MODE_PR, 0, "D"), 1, 4);
    GIVES(convert(1, 3, ZAMGYORUD_MODE_EX), 2, 0);
    GIVES(zamgyorud_tables_break(&tables), 3, 3);
    GIVES(request(2, ZAMGYORUD_MODE_EX, 0, "C"), 1, 5);
    GIVES(request(1, ZAMGYORUD_MODE_EX, 0, "C"), 2, 6);
    GIVES(release(2, 5, 0), 0, 0);
    GIVES(request(2, ZAMGYORUD_MODE_PR, 0, "A"), 1, 5);
    GIVES(request(1, ZAMGYORUD_MODE_PR, 0, "A"), 1, 7);
    GIVES(convert(1, 7, ZAMGYORUD_MODE_EX), 2, 0);
    GIVES(request(1, ZAMGYORUD_MODE_NL, 0, "A"), 2, 8);
    keep();
    REFUSES(zamgyorud_tables_purge(&tables, 0), ZAMGYORUD_REFUSAL_CLIENT);
    REFUSES(zamgyorud_tables_purge(&tables, TOO_HIGH_CLIENT), 3);
    REFUSES(zamgyorud_purge(tables.words, WORDS - 1, tables.slots, SLOTS, 1), 1);
    unchanged();
    PURGES(1, 7, 2, 3);
    PURGES(1, 0, 0, 0);
    TELLS(1, 0, 0, 0);
    TELLS(2, 0, 5, ZAMGYORUD_MODE_EX);
    PURGES(2, 1, 0, 0);
}

/* How many locks hold NL to EX on a name, through every call that changes what is held. */
static void test_counts(void)
{
    start_afresh();
    for (uint32_t resource = 1; resource <= R; resource++)
        COUNTS(resource, 0, 0, 0, 0, 0, 0);
    GIVES(request(1, ZAMGYORUD_MODE_CR, 0, "A"), 1, 1);
    COUNTS(1, 0, 1, 0, 0, 0, 0);
    GIVES(request(2, ZAMGYORUD_MODE_CR, 0, "A"), 1, 2);
    GIVES(request(3, ZAMGYORUD_MODE_PW, 0, "A"), 1, 3);
    GIVES(request(4, ZAMGYORUD_MODE_NL, 0, "A"), 1, 4);
    COUNTS(1, 1, 2, 0, 0, 1, 0);

    /* a waiting lock holds nothing, not even NL; a converting one is counted by what it holds, also after a cancel */
    GIVES(request(5, ZAMGYORUD_MODE_EX, 0, "A"), 2, 5);
    GIVES(convert(4, 4, ZAMGYORUD_MODE_CW), 2, 0);
    COUNTS(1, 1, 2, 0, 0, 1, 0);
    GIVES(zamgyorud_tables_cancel(&tables, 4, 4), ZAMGYORUD_CANCELLED_CONVERSION, 0);
    GIVES(convert(4, 4, ZAMGYORUD_MODE_CW), 2, 0);
    COUNTS(1, 1, 2, 0, 0, 1, 0);

    /* another name has counts of its own */
    GIVES(request(6, ZAMGYORUD_MODE_PR, 0, "B"), 1, 6);
    COUNTS(1, 1, 2, 0, 0, 1, 0);
    COUNTS(2, 0, 0, 0, 1, 0, 0);

    /* down in place; a release whose sweep grants the conversion; purges, the second of which grants the request */
    GIVES(convert(2, 2, ZAMGYORUD_MODE_NL), 1, 0);
    COUNTS(1, 2, 1, 0, 0, 1, 0);
    GIVES(release(3, 3, 0), 0, 0);
    COUNTS(1, 1, 1, 1, 0, 0, 0);
    PURGES(1, 1, 0, 0);
    COUNTS(1, 1, 0, 1, 0, 0, 0);
    PURGES(4, 1, 0, 1);
    COUNTS(1, 1, 0, 0, 0, 0, 1);

    /* in an image too; a freed resource counts nothing */
    GIVES(zamgyorud_tables_image(&tables, area, IMAGE), 0, 0);
    IS(area[WORD_BYTES * (HEADER_WORDS + RESOURCE_COUNTS + ZAMGYORUD_MODE_NL)], 1);
    IS(area[WORD_BYTES * (HEADER_WORDS + RESOURCE_COUNTS + ZAMGYORUD_MODE_EX)], 1);
    PURGES(5, 1, 0, 1);
    COUNTS(1, 1, 0, 0, 0, 0, 0);
    GIVES(release(2, 2, 0), 0, 0);
    COUNTS(1, 0, 0, 0, 0, 0, 0);
    COUNTS(2, 0, 0, 0, 1, 0, 0);
}

/* What break denies held nothing or keeps what it holds; and all locks there are hold one mode on one name. */
static void test_counts_after_break(void)
{
    both_convert(ZAMGYORUD_MODE_EX);
    GIVES(zamgyorud_tables_break(&tables), 1, 1);
    COUNTS(1, 0, 0, 0, 2, 0, 0);
    PURGES(1, 1, 0, 1);
    COUNTS(1, 0, 0, 0, 0, 0, 1);
    TELLS(2, ZAMGYORUD_COMPLETION_GRANTED, 2, ZAMGYORUD_MODE_EX);
    GIVES(request(2, ZAMGYORUD_MODE_CW, 0, "A"), 2, 1);
    GIVES(zamgyorud_tables_break(&tables), 1, 1);
    COUNTS(1, 0, 0, 0, 0, 0, 1);

    start_afresh();
    for (uint32_t lock = 1; lock <= L; lock++)
        GIVES(request(lock, ZAMGYORUD_MODE_CW, 0, "A"), 1, lock);
    COUNTS(1, 0, 0, L, 0, 0, 0);
}

/* A count that isn't true, by one or by much, and any on a free resource: refused with 1, and nothing changes. An image is refused too. */
static void test_unsound_counts(void)
{
    static const uint32_t more[] = {1, UINT32_MAX, 0x10000, 0x80000000};

    start_afresh();
    GIVES(request(1, ZAMGYORUD_MODE_CR, 0, "A"), 1, 1);
    GIVES(request(2, ZAMGYORUD_MODE_PR, 0, "A"), 1, 2);
    GIVES(request(3, ZAMGYORUD_MODE_EX, 0, "A"), 2, 3);
    for (uint32_t resource = 1; resource <= 2; resource++)
        for (unsigned mode = 0; mode < MODES; mode++)
            for (size_t i = 0; i < sizeof more / sizeof *more; i++) {
                count_words(resource)[mode] += more[i];
                keep();
                IS(zamgyorud_tables_sound(&tables), 0);
                REFUSES(request(4, ZAMGYORUD_MODE_NL, 0, "A"), ZAMGYORUD_REFUSAL_UNSOUND);
                REFUSES(convert(1, 1, ZAMGYORUD_MODE_NL), 1);
                REFUSES(release(2, 2, 0), 1);
                REFUSES(zamgyorud_tables_purge(&tables, 1), 1);
                unchanged();
                count_words(resource)[mode] -= more[i];
            }

    /* true in sum and not by mode: CR counted as PR, and the two exchanged with NL and EX */
    count_words(1)[ZAMGYORUD_MODE_CR]--;
    count_words(1)[ZAMGYORUD_MODE_PR]++;
    IS(zamgyorud_tables_sound(&tables), 0);
    count_words(1)[ZAMGYORUD_MODE_PR] = 0;
    count_words(1)[ZAMGYORUD_MODE_NL] = count_words(1)[ZAMGYORUD_MODE_EX] = 1;
    IS(zamgyorud_tables_sound(&tables), 0);
    count_words(1)[ZAMGYORUD_MODE_NL] = count_words(1)[ZAMGYORUD_MODE_EX] = 0;
    count_words(1)[ZAMGYORUD_MODE_CR] = count_words(1)[ZAMGYORUD_MODE_PR] = 1;
    IS(zamgyorud_tables_sound(&tables), 1);

    GIVES(zamgyorud_tables_image(&tables, area, IMAGE), 0, 0);
    memset(other_memory, 0xaa, sizeof other_memory);
    area[WORD_BYTES * (HEADER_WORDS + RESOURCE_COUNTS + ZAMGYORUD_MODE_CW)] = 1;
    REFUSES(zamgyorud_tables_load(&other, area, IMAGE), 1);
    IS(other.words[0], 0xaaaaaaaa);
    HOLDS(zamgyorud_holder(area, IMAGE, (const uint8_t *)"A", 1), 1, UINT32_MAX);
}

/* The sum of document 02, R-3: the first of these numbers is the sum of the others. They are kept for each client, of its own calls and locks, and
 * under 0 for all together. Beside them: how many calls were refused because their client can't be. */
enum { ANSWERS_2, NOW_BLOCKED, NOW_UNREAD, POLLS, CANCELS, PURGED_BLOCKED, PURGED_UNREAD, NUMBERS };

#define CLIENTS 3
#define CALLS 4000

static uint32_t numbers[CLIENTS + 1][NUMBERS];
static unsigned refusals;

static void add(uint32_t client, int number, uint32_t more)
{
    numbers[client][number] += more;
    numbers[0][number] += more;
}

/* A number below most. They are the same in every run. */
static uint32_t chosen(uint32_t most)
{
    static uint32_t state = 1;

    state = state * UINT32_C(1664525) + UINT32_C(1013904223);
    return (state >> 16) % most;
}

enum call { REQUEST, CONVERT, RELEASE, CANCEL, PURGE, BREAK, POLL };

static struct zamgyorud_answer make(enum call call, uint32_t client, uint32_t lock)
{
    static const char *const names[] = {"A", "B", "C"};
    const char *const name = names[chosen(3)];
    const uint32_t mode = chosen(6), flags = chosen(8) == 0 ? ZAMGYORUD_FLAG_NO_QUEUE : 0;

    switch (call) {
    case REQUEST:
        return request(client, mode, flags, name);
    case CONVERT:
        return zamgyorud_tables_convert(&tables, client, lock, mode, flags, NULL, 0);
    case RELEASE:
        return release(client, lock, 0);
    case CANCEL:
        return zamgyorud_tables_cancel(&tables, client, lock);
    case PURGE:
        return zamgyorud_tables_purge(&tables, client);
    case BREAK:
        return zamgyorud_tables_break(&tables);
    default:
        return zamgyorud_tables_poll(&tables, client);
    }
}

static bool counted(uint32_t client)
{
    return client >= 1 && client <= CLIENTS;
}

/* Makes a call that is chosen, and adds what it answers. The client is mostly the lock's, and now and then one that can't be. Many other calls are
 * refused too: the lock is another's, or free, or not in a state for it. */
static void make_a_call(void)
{
    static const enum call often[] = {REQUEST, REQUEST, REQUEST, REQUEST, REQUEST, CONVERT, CONVERT, CONVERT, CONVERT, CONVERT,
                                      CONVERT, RELEASE, RELEASE, CANCEL,  CANCEL,  PURGE,   BREAK,   POLL,    POLL,    POLL};
    const enum call call = often[chosen(sizeof often / sizeof often[0])];
    const uint32_t lock = 1 + chosen(L), owner = *lock_word(lock, LOCK_CLIENT);
    const uint32_t usual = counted(owner) && chosen(4) != 0 ? owner : 1 + chosen(CLIENTS);
    const uint32_t client = chosen(30) != 0 ? usual : chosen(2) != 0 ? TOO_HIGH_CLIENT : 0;
    struct zamgyorud_answer answer;

    keep();
    answer = make(call, client, lock);
    if (call == BREAK)
        return;
    if (!counted(client)) {
        REFUSES(answer, ZAMGYORUD_REFUSAL_CLIENT);
        unchanged();
        refusals++;
        return;
    }
    if (call == REQUEST || call == CONVERT)
        add(client, ANSWERS_2, zamgyorud_result(answer) == ZAMGYORUD_RESULT_WAITING);
    if (call == CANCEL)
        add(client, CANCELS, zamgyorud_refusal(answer) == 0);
    if (call == PURGE) {
        add(client, PURGED_BLOCKED, zamgyorud_purged_blocked(answer));
        add(client, PURGED_UNREAD, zamgyorud_purged_unread(answer));
    }
    if (call == POLL)
        add(client, POLLS, zamgyorud_result(answer) != ZAMGYORUD_COMPLETION_NONE);
}

/* Counts the locks that are blocked now, and the completions that are unread now. Whose they are, the library wrote: that is checked before it is
 * counted by. */
static void count_locks(void)
{
    for (uint32_t client = 0; client <= CLIENTS; client++)
        numbers[client][NOW_BLOCKED] = numbers[client][NOW_UNREAD] = 0;
    for (uint32_t lock = 1; lock <= L; lock++) {
        const uint32_t state = *lock_word(lock, LOCK_STATE), client = *lock_word(lock, LOCK_CLIENT);

        if (state == 0)
            continue;
        IS(counted(client), 1);
        if (counted(client)) {
            add(client, NOW_BLOCKED, state == ZAMGYORUD_STATE_CONVERTING || state == ZAMGYORUD_STATE_WAITING);
            add(client, NOW_UNREAD, *lock_word(lock, LOCK_COMPLETION) != ZAMGYORUD_COMPLETION_NONE);
        }
    }
}

/* Whether each resource counts the locks that hold each mode there: those that are granted or converting. */
static bool counts_are_true(void)
{
    uint32_t held[R + 1][MODES] = {{0}};

    for (uint32_t lock = 1; lock <= L; lock++) {
        const uint32_t state = *lock_word(lock, LOCK_STATE), resource = *lock_word(lock, LOCK_RESOURCE), mode = *lock_word(lock, LOCK_HELD);

        if ((state == ZAMGYORUD_STATE_GRANTED || state == ZAMGYORUD_STATE_CONVERTING) && resource <= R && mode < MODES)
            held[resource][mode]++;
    }
    for (uint32_t resource = 1; resource <= R; resource++)
        if (memcmp(count_words(resource), held[resource], sizeof held[resource]) != 0)
            return false;
    return true;
}

/* After each of many calls the sum holds, for each client and for all, and the counts of held modes are true. The walk ends where it isn't so. */
static void test_heard_once(void)
{
    const unsigned failed_before = failed;
    char what[80];

    start_afresh();
    for (unsigned call = 1; call <= CALLS && failed == failed_before; call++) {
        make_a_call();
        snprintf(what, sizeof what, "whether counts are true after call %u", call);
        check(__LINE__, what, counts_are_true(), true);
        count_locks();
        for (uint32_t client = 0; client <= CLIENTS; client++) {
            uint32_t sum = 0;

            for (int number = ANSWERS_2 + 1; number < NUMBERS; number++)
                sum += numbers[client][number];
            snprintf(what, sizeof what, "what is heard of the waits of client %" PRIu32 " (0: all) after call %u", client, call);
            check(__LINE__, what, sum, numbers[client][ANSWERS_2]);
        }
    }

    /* each of them occurred, if the walk went to its end; the locks of the last moment are chance */
    if (failed != failed_before)
        return;
    for (uint32_t client = 1; client <= CLIENTS; client++)
        for (int number = POLLS; number < NUMBERS; number++)
            IS(numbers[client][number] > 0, 1);
    IS(refusals > 0, 1);
}

/* Tables that aren't sound: each call but start and load is refused with 1, and nothing changes. */
static void test_unsound(void)
{
    uint8_t value[32];
    struct zamgyorud_entry entries[1] = {{7, 7, 7, 7, 7}};

    start_afresh();
    GIVES(request(1, ZAMGYORUD_MODE_EX, 0, "A"), 1, 1);
    tables.words[7] = 1;
    keep();
    memset(value, 7, sizeof value);
    memset(area, 9, sizeof area);
    IS(zamgyorud_tables_sound(&tables), 0);
    REFUSES(request(2, ZAMGYORUD_MODE_NL, 0, "A"), 1);
    REFUSES(convert(1, 1, ZAMGYORUD_MODE_NL), 1);
    REFUSES(release(1, 1, 0), 1);
    REFUSES(zamgyorud_tables_cancel(&tables, 1, 1), 1);
    REFUSES(zamgyorud_tables_purge(&tables, 1), 1);
    REFUSES(zamgyorud_tables_break(&tables), 1);
    REFUSES(zamgyorud_tables_poll(&tables, 1), 1);
    REFUSES(zamgyorud_tables_read(&tables, 1, 1, value, 32), 1);
    IS(value[0], 7);
    REFUSES(zamgyorud_tables_list(&tables, 1, 1, entries, 1), 1);
    IS(entries[0].number, 7);
    REFUSES(zamgyorud_tables_image(&tables, area, IMAGE), 1);
    IS(area[0], 9);
    unchanged();
    tables.words[7] = 0;
    IS(zamgyorud_tables_sound(&tables), 1);
    IS(zamgyorud_sound(tables.words, WORDS, tables.slots, SLOTS - 1), 0);
}

/* Null pointers of length 0. */
static void test_nothing_lent(void)
{
    start_afresh();
    keep();
    REFUSES(zamgyorud_start(NULL, 0, NULL, 0, 1, 1), 2);
    IS(zamgyorud_sound(NULL, 0, NULL, 0), 0);
    REFUSES(zamgyorud_request(NULL, 0, NULL, 0, 1, ZAMGYORUD_MODE_NL, 0, NULL, 0), 1);
    REFUSES(zamgyorud_tables_request(&tables, 1, ZAMGYORUD_MODE_NL, 0, NULL, 0), 6);
    REFUSES(zamgyorud_break(NULL, 0, NULL, 0), 1);
    REFUSES(zamgyorud_image(NULL, 0, NULL, 0, NULL, 0), 1);
    REFUSES(zamgyorud_tables_load(&tables, NULL, 0), 1);
    unchanged();
}

int main(void)
{
    test_answers();
    test_lengths();
    test_start();
    test_refusals();
    test_takeover();
    test_images();
    test_values();
    test_list();
    test_cancel_and_release();
    test_deadlocks();
    test_marks();
    test_converting_marks();
    test_sound_marks();
    test_conversions_first();
    test_behind_a_request();
    test_behind_a_conversion();
    test_deadlock_behind_a_request();
    test_purged_requests();
    test_purged_conversions();
    test_purged_together();
    test_counts();
    test_counts_after_break();
    test_unsound_counts();
    test_heard_once();
    test_unsound();
    test_nothing_lent();
    if (failed != 0) {
        printf("capi: %u of %u checks failed\n", failed, passed + failed);
        return 1;
    }
    printf("capi: %u checks passed\n", passed);
    return 0;
}
