/* Zamgyorud: a proved lock manager over lent tables. C interface.
 *
 * Tables. A program owns the tables and lends them to every call. They have R resource records (1 to 256) and L lock records (1 to 1,024). All
 * that a call knows stands in them: there is no hidden state, nothing is allocated, and no pointer is kept. So calls on separate tables need no
 * locking, and one pair of tables has one caller at a time.
 *
 * What may be lent. Tables of any content, and numbers, names and values of any kind: what isn't right is refused, and a refused call changes
 * nothing that is lent. Areas that are lent are valid and aligned for their length and do not overlap; a pointer may be null where its length is 0.
 *
 * Modes. Two locks may be held on one name at the same time if their modes are compatible:
 *
 *           NL   CR   CW   PR   PW   EX
 *      NL   yes  yes  yes  yes  yes  yes
 *      CR   yes  yes  yes  yes  yes  no
 *      CW   yes  yes  yes  no   no   no
 *      PR   yes  yes  no   yes  no   no
 *      PW   yes  yes  no   no   no   no
 *      EX   yes  no   no   no   no   no
 *
 * So modes can't be compared by their numbers: PR has a larger one than CW, and the two exclude each other.
 *
 * Order. A new request is granted at once only if no conversion and no request waits on its name and its mode is compatible with every mode held
 * there. NL, which is compatible with every mode, passes waiting requests: it has to wait only where a conversion does. Requests that wait on one
 * name are granted in the order in which they came, so readers that keep coming can't keep a writer waiting. Conversions go before all of them.
 *
 * Waiting. A request or conversion that has to wait says so and returns. Convert, release, cancel, purge and break can grant it later, whoever
 * makes them, and break can deny it because of a deadlock. Poll tells how the wait has ended: its completion. A completion is polled before its
 * lock is used again: until then convert, release and cancel of this lock are refused with ZAMGYORUD_REFUSAL_UNREAD.
 *
 * Counting. Each request or conversion that says that it waits is open until it is heard of, once: by a poll of its completion, by its cancel, or in
 * one of the two counts of a purge of its client, as a lock that was blocked (its wait hadn't ended) or as one with a completion unread. So a client
 * that counts up at each such answer, and down at each poll with a completion and at each accepted cancel, knows how many of its calls are still open.
 * That a wait ever ends, nobody promises.
 *
 * Marks. Poll also tells a client that one of its locks is in somebody's way. When a request or conversion has to wait, each other lock on that name
 * that holds a mode incompatible with the asked one gets a mark: the asked mode, or the mark that it has, if that has the larger number. A lock that
 * gets its mode later is not marked for this wait. A mark stops no call, and lasts until it is polled or its lock is freed. So a client that keeps a
 * lock for long polls now and then, and at a mark it releases the lock or converts it down as soon as it can. Whoever asked may wait no longer, and
 * others may wait too: list tells who does.
 *
 * Answers. Each call but sound and holder gives a struct zamgyorud_answer. zamgyorud_refusal and zamgyorud_result are for the answers of every call,
 * zamgyorud_lock and zamgyorud_mark for those of every call but purge. zamgyorud_purged_blocked and zamgyorud_purged_unread are for those of purge
 * alone, whose two further counts stand where other answers have the lock and the mark. Of a refused call all but the refusal are 0. Holder gives a
 * struct of its own, with functions of its own. So an answer can't be taken for a number, nor one of the two for the other: it doesn't compile.
 *
 * Two forms. zamgyorud_tables_request(&tables, ..) and its like take a struct zamgyorud_tables. zamgyorud_request(words, words_len, slots, slots_len,
 * ..) and its like are the functions of the library. A program that uses the first form, and zamgyorud_tables_in to make the struct, stays as it is
 * when a later version lends one more area.
 *
 * Stack. How many bytes each call needs at most is below, under ZAMGYORUD_STACK_.
 *
 * Time. Each call but start first checks the whole tables, or the whole image. This is linear in R and L, but for the comparison of names: names
 * that are made to look alike to the check are compared each with each, at most R(R - 1) / 2 pairs. What comes on top is, at worst:
 *
 *      read, sound                       constant
 *      poll, list                        linear in L
 *      start, image, load                linear in R and L
 *      request, holder                   linear in R and L: each name is compared with the one given
 *      convert, release, cancel, purge   quadratic in L: linear for each lock that is freed or granted
 *      break                             quadratic in L: passes and searches, each linear in R and L, until none rules out a lock any more
 *
 * Measured with R 256 and L 1,024 on one machine: most calls take 5 to 10 us. At worst, names that look alike add 30 us, a request with 1,022 locks in
 * its way takes 20 us, a release that grants 1,023 locks takes 4 ms, and a break takes 9 to 12 ms.
 */
#ifndef ZAMGYORUD_H
#define ZAMGYORUD_H

#include <stddef.h>
#include <stdint.h>

#ifdef __cplusplus
extern "C" {
#endif

/* The version of this header and of the library that comes with it. */
#define ZAMGYORUD_VERSION "0.6.1"
#define ZAMGYORUD_VERSION_MAJOR 0
#define ZAMGYORUD_VERSION_MINOR 6
#define ZAMGYORUD_VERSION_PATCH 1

/* The most that R, L and a client's number can be; the most bytes of a name; the bytes of a value. */
#define ZAMGYORUD_MOST_RESOURCES 256
#define ZAMGYORUD_MOST_LOCKS 1024
#define ZAMGYORUD_MOST_CLIENT 255
#define ZAMGYORUD_NAME_BYTES 64
#define ZAMGYORUD_VALUE_BYTES 32

/* Lengths, for constant r and l: of the words in words, of the slots and of an image in bytes, of the memory for zamgyorud_tables_in in words. The
 * functions of the same names, below, take any numbers. */
#define ZAMGYORUD_WORDS_LEN(r, l) (8 + 12 * (size_t)(r) + 10 * (size_t)(l))
#define ZAMGYORUD_SLOTS_LEN(r, l) (96 * (size_t)(r))
#define ZAMGYORUD_IMAGE_LEN(r, l) (4 * ZAMGYORUD_WORDS_LEN(r, l) + ZAMGYORUD_SLOTS_LEN(r, l))
#define ZAMGYORUD_MEMORY_LEN(r, l) (ZAMGYORUD_WORDS_LEN(r, l) + ZAMGYORUD_SLOTS_LEN(r, l) / 4)

/* The bytes of stack that a call needs at most, with some margin: measured on x86-64 (tests/stack_test.c), not proved. A signal handler that runs on
 * the same stack comes on top, and so does the loader, at the first call of a function of the shared library. Load and holder of an image of
 * R 4 and L 8 need no more than the others. */
#define ZAMGYORUD_STACK_BREAK(l) (22528 + 184 * (size_t)(l)) /* on tables of L locks: 206 KB for 1,024 */
#define ZAMGYORUD_STACK_LOAD 81920
#define ZAMGYORUD_STACK_HOLDER 81920
#define ZAMGYORUD_STACK_OTHERS 8192

/* Modes. */
#define ZAMGYORUD_MODE_NL 0
#define ZAMGYORUD_MODE_CR 1
#define ZAMGYORUD_MODE_CW 2
#define ZAMGYORUD_MODE_PR 3
#define ZAMGYORUD_MODE_PW 4
#define ZAMGYORUD_MODE_EX 5

/* Flags. The first two exclude each other. They act when a lock that holds PW or EX is released, or is converted to a mode of a smaller number; they
 * are ignored where it holds another mode, or is converted to the same or a larger one. */
#define ZAMGYORUD_FLAG_STORE_VALUE 1      /* convert, release: the value is stored and becomes valid */
#define ZAMGYORUD_FLAG_INVALIDATE_VALUE 2 /* convert, release: the value becomes not valid; its bytes stay */
#define ZAMGYORUD_FLAG_NO_QUEUE 4         /* request, convert: refused, with ZAMGYORUD_REFUSAL_BLOCKS, exactly where it would wait without this flag */

/* Refusals. The first that fits is answered. */
#define ZAMGYORUD_REFUSAL_UNSOUND 1      /* the tables aren't sound, or the image isn't that of sound tables */
#define ZAMGYORUD_REFUSAL_SIZES 2        /* start's R, L or a length is wrong */
#define ZAMGYORUD_REFUSAL_CLIENT 3       /* the client isn't 1 to 255 */
#define ZAMGYORUD_REFUSAL_MODE 4         /* the mode is above 5 */
#define ZAMGYORUD_REFUSAL_FLAGS 5        /* a flag isn't allowed in this call, or 1 and 2 are both set */
#define ZAMGYORUD_REFUSAL_NAME 6         /* the name has 0 or over 64 bytes */
#define ZAMGYORUD_REFUSAL_VALUE 7        /* flag 1 is set and the value isn't 32 bytes */
#define ZAMGYORUD_REFUSAL_LOCK 8         /* the lock number isn't 1 to L, or is free, or another client's */
#define ZAMGYORUD_REFUSAL_UNREAD 9       /* the lock's completion is unread */
#define ZAMGYORUD_REFUSAL_STATE 10       /* the lock isn't in a state for this call */
#define ZAMGYORUD_REFUSAL_NO_RESOURCE 11 /* the name is new and no resource record is free */
#define ZAMGYORUD_REFUSAL_NO_LOCK 12     /* no lock record is free */
#define ZAMGYORUD_REFUSAL_BLOCKS 13      /* it would have to wait, be it only because others do, and flag 4 says not to queue it */
#define ZAMGYORUD_REFUSAL_LENGTHS 14     /* image's area or load's tables have the wrong length */

/* Results of request and convert. */
#define ZAMGYORUD_RESULT_GRANTED 1
#define ZAMGYORUD_RESULT_WAITING 2

/* Results of cancel: what was taken back. */
#define ZAMGYORUD_CANCELLED_CONVERSION 1
#define ZAMGYORUD_CANCELLED_REQUEST 2

/* Results of poll: how a wait has ended. */
#define ZAMGYORUD_COMPLETION_NONE 0              /* no completion: the client has no notice (lock 0), or the lock has a mark alone */
#define ZAMGYORUD_COMPLETION_GRANTED 1           /* the lock has the mode that it asked for */
#define ZAMGYORUD_COMPLETION_REQUEST_DENIED 2    /* the lock is gone */
#define ZAMGYORUD_COMPLETION_CONVERSION_DENIED 3 /* the lock has the mode that it had before */

/* States of a lock, as list gives them. */
#define ZAMGYORUD_STATE_GRANTED 1
#define ZAMGYORUD_STATE_CONVERTING 2
#define ZAMGYORUD_STATE_WAITING 3

/* A lock, as list gives it. */
struct zamgyorud_entry {
    uint32_t number; /* the lock */
    uint32_t client;
    uint32_t state;
    uint32_t held;  /* a mode; 0 if it waits */
    uint32_t asked; /* a mode; 0 if it is granted */
};

/* An answer. With the highest bit set it is a refusal, whose number is below. Otherwise bits 0 to 15 are the result, bits 16 to 31 the lock, and bits
 * 32 to 47 the mark; of purge they are its three counts. A struct of one uint64_t is returned in the same register as a uint64_t, on x86-64 and on
 * AArch64. */
struct zamgyorud_answer {
    uint64_t bits;
};

/* The refusal's number, one of ZAMGYORUD_REFUSAL_; 0 if the call was accepted. */
static inline uint32_t zamgyorud_refusal(struct zamgyorud_answer answer) {
    return answer.bits >> 63 != 0 ? (uint32_t)(answer.bits & UINT32_MAX) : 0;
}

/* What the call says, as stands with each function; 0 if it was refused. */
static inline uint32_t zamgyorud_result(struct zamgyorud_answer answer) {
    return answer.bits >> 63 != 0 ? 0 : (uint32_t)(answer.bits & UINT16_MAX);
}

/* The lock that request gives, break has denied or poll tells of; 0 for all other calls but purge, of whose answer this is the second count and no
 * lock, and if it was refused. */
static inline uint32_t zamgyorud_lock(struct zamgyorud_answer answer) {
    return answer.bits >> 63 != 0 ? 0 : (uint32_t)(answer.bits >> 16 & UINT16_MAX);
}

/* The mark that poll tells of, a mode from 1 to 5; 0 if the lock has none, for all other calls but purge, of whose answer this is the third count
 * and no mark, and if it was refused. */
static inline uint32_t zamgyorud_mark(struct zamgyorud_answer answer) {
    return answer.bits >> 63 != 0 ? 0 : (uint32_t)(answer.bits >> 32 & UINT16_MAX);
}

/* How many of the locks that purge freed were blocked, that is, converting or waiting; 0 if it was refused. Of any other call's answer this means
 * nothing. */
static inline uint32_t zamgyorud_purged_blocked(struct zamgyorud_answer answer) {
    return answer.bits >> 63 != 0 ? 0 : (uint32_t)(answer.bits >> 16 & UINT16_MAX);
}

/* How many of the locks that purge freed had a completion unread; 0 if it was refused. A mark alone doesn't count, and none of these locks was
 * blocked. Of any other call's answer this means nothing. */
static inline uint32_t zamgyorud_purged_unread(struct zamgyorud_answer answer) {
    return answer.bits >> 63 != 0 ? 0 : (uint32_t)(answer.bits >> 32 & UINT16_MAX);
}

/* Holder's answer: a client's number or 0; a refusal is 256 plus its number. */
struct zamgyorud_held {
    uint32_t bits;
};

/* The refusal's number, one of ZAMGYORUD_REFUSAL_; 0 if the question was answered. */
static inline uint32_t zamgyorud_holder_refusal(struct zamgyorud_held held) {
    return held.bits > 256 ? held.bits - 256 : 0;
}

/* The client that holds EX, or 0 if nobody does. If it was refused, UINT32_MAX, which is no client's number: a damaged image is not to be taken for
 * one in which nobody holds the name. */
static inline uint32_t zamgyorud_holder_client(struct zamgyorud_held held) {
    return held.bits > 256 ? UINT32_MAX : held.bits;
}

/* Whether there are tables of this R and L. */
static inline int zamgyorud_in_range(uint32_t resources, uint32_t locks) {
    return 1 <= resources && resources <= ZAMGYORUD_MOST_RESOURCES && 1 <= locks && locks <= ZAMGYORUD_MOST_LOCKS;
}

/* Lengths for any R and L: 0 if there are no such tables. */
static inline size_t zamgyorud_words_len(uint32_t resources, uint32_t locks) {
    return zamgyorud_in_range(resources, locks) ? ZAMGYORUD_WORDS_LEN(resources, locks) : 0;
}

static inline size_t zamgyorud_slots_len(uint32_t resources, uint32_t locks) {
    return zamgyorud_in_range(resources, locks) ? ZAMGYORUD_SLOTS_LEN(resources, locks) : 0;
}

static inline size_t zamgyorud_image_len(uint32_t resources, uint32_t locks) {
    return zamgyorud_in_range(resources, locks) ? ZAMGYORUD_IMAGE_LEN(resources, locks) : 0;
}

static inline size_t zamgyorud_memory_len(uint32_t resources, uint32_t locks) {
    return zamgyorud_in_range(resources, locks) ? ZAMGYORUD_MEMORY_LEN(resources, locks) : 0;
}

/* R and L of an image, before there are tables for it; 0 if it has fewer than 8 bytes. The image isn't checked: they can be any numbers. */
static inline uint32_t zamgyorud_image_resources(const uint8_t *image, size_t image_len) {
    return image_len < 8 ? 0 : image[0] | (uint32_t)image[1] << 8 | (uint32_t)image[2] << 16 | (uint32_t)image[3] << 24;
}

static inline uint32_t zamgyorud_image_locks(const uint8_t *image, size_t image_len) {
    return image_len < 8 ? 0 : image[4] | (uint32_t)image[5] << 8 | (uint32_t)image[6] << 16 | (uint32_t)image[7] << 24;
}

/* Tables: all that is lent to every call. */
struct zamgyorud_tables {
    uint32_t *words;
    size_t words_len; /* in words */
    uint8_t *slots;
    size_t slots_len; /* in bytes */
};

/* Tables of an R and L in memory of at least zamgyorud_memory_len(R, L) words, whatever it holds: to be started, or loaded. Where the memory is
 * too short, or there are no tables of this R and L, they are of no length, and every call refuses them. */
static inline struct zamgyorud_tables zamgyorud_tables_in(uint32_t *memory, size_t memory_len, uint32_t resources, uint32_t locks) {
    struct zamgyorud_tables tables = {NULL, 0, NULL, 0};
    if (zamgyorud_in_range(resources, locks) && memory_len >= zamgyorud_memory_len(resources, locks)) {
        tables.words = memory;
        tables.words_len = zamgyorud_words_len(resources, locks);
        tables.slots = (uint8_t *)(memory + tables.words_len);
        tables.slots_len = zamgyorud_slots_len(resources, locks);
    }
    return tables;
}

/* Each call stands twice: the library's function, and the same over a struct zamgyorud_tables. */

/* Makes fresh tables, whatever they hold before. Result: 0. */
struct zamgyorud_answer zamgyorud_start(uint32_t *words, size_t words_len, uint8_t *slots, size_t slots_len, uint32_t resources, uint32_t locks);

static inline struct zamgyorud_answer zamgyorud_tables_start(const struct zamgyorud_tables *tables, uint32_t resources, uint32_t locks) {
    return zamgyorud_start(tables->words, tables->words_len, tables->slots, tables->slots_len, resources, locks);
}

/* Asks for a lock of a mode on a name. Where others wait it waits too, unless its mode is NL and no conversion waits. Flags: 4. Result: granted or
 * waiting. Lock: the new one. */
struct zamgyorud_answer zamgyorud_request(uint32_t *words, size_t words_len, uint8_t *slots, size_t slots_len, uint32_t client, uint32_t mode,
                                          uint32_t flags, const uint8_t *name, size_t name_len);

static inline struct zamgyorud_answer zamgyorud_tables_request(const struct zamgyorud_tables *tables, uint32_t client, uint32_t mode, uint32_t flags,
                                                               const uint8_t *name, size_t name_len) {
    return zamgyorud_request(tables->words, tables->words_len, tables->slots, tables->slots_len, client, mode, flags, name, name_len);
}

/* Changes the mode of a granted lock, or has it wait for that and keep its mode meanwhile. Conversions go before requests that wait. Flags: 1, 2, 4.
 * The value is looked at with flag 1 only. Result: granted or waiting. */
struct zamgyorud_answer zamgyorud_convert(uint32_t *words, size_t words_len, uint8_t *slots, size_t slots_len, uint32_t client, uint32_t lock,
                                          uint32_t mode, uint32_t flags, const uint8_t *value, size_t value_len);

static inline struct zamgyorud_answer zamgyorud_tables_convert(const struct zamgyorud_tables *tables, uint32_t client, uint32_t lock, uint32_t mode,
                                                               uint32_t flags, const uint8_t *value, size_t value_len) {
    return zamgyorud_convert(tables->words, tables->words_len, tables->slots, tables->slots_len, client, lock, mode, flags, value, value_len);
}

/* Frees a granted lock. Flags: 1, 2. The value is looked at with flag 1 only. Result: 0. */
struct zamgyorud_answer zamgyorud_release(uint32_t *words, size_t words_len, uint8_t *slots, size_t slots_len, uint32_t client, uint32_t lock,
                                          uint32_t flags, const uint8_t *value, size_t value_len);

static inline struct zamgyorud_answer zamgyorud_tables_release(const struct zamgyorud_tables *tables, uint32_t client, uint32_t lock, uint32_t flags,
                                                               const uint8_t *value, size_t value_len) {
    return zamgyorud_release(tables->words, tables->words_len, tables->slots, tables->slots_len, client, lock, flags, value, value_len);
}

/* Ends the wait of a lock: a conversion's lock keeps the mode that it holds, a request's lock is freed. Result: which of them, one of
 * ZAMGYORUD_CANCELLED_. */
struct zamgyorud_answer zamgyorud_cancel(uint32_t *words, size_t words_len, const uint8_t *slots, size_t slots_len, uint32_t client, uint32_t lock);

static inline struct zamgyorud_answer zamgyorud_tables_cancel(const struct zamgyorud_tables *tables, uint32_t client, uint32_t lock) {
    return zamgyorud_cancel(tables->words, tables->words_len, tables->slots, tables->slots_len, client, lock);
}

/* Frees all locks of a client that is gone. The value of a name on which it held PW or EX becomes not valid. Result: how many locks. How many of them
 * were blocked, zamgyorud_purged_blocked tells; and how many had a completion unread, zamgyorud_purged_unread. */
struct zamgyorud_answer zamgyorud_purge(uint32_t *words, size_t words_len, uint8_t *slots, size_t slots_len, uint32_t client);

static inline struct zamgyorud_answer zamgyorud_tables_purge(const struct zamgyorud_tables *tables, uint32_t client) {
    return zamgyorud_purge(tables->words, tables->words_len, tables->slots, tables->slots_len, client);
}

/* Breaks a deadlock. Locks stand on the blocked chain in the order in which they began to wait. The first of them that leads back to itself, through
 * locks each of which waits for the next, is denied: a conversion as well as a request. Result and lock: that lock; both are 0 if there is no
 * deadlock. */
struct zamgyorud_answer zamgyorud_break(uint32_t *words, size_t words_len, const uint8_t *slots, size_t slots_len);

static inline struct zamgyorud_answer zamgyorud_tables_break(const struct zamgyorud_tables *tables) {
    return zamgyorud_break(tables->words, tables->words_len, tables->slots, tables->slots_len);
}

/* Takes a client's first notice: a lock with its completion, its mark or both. Result: the completion, one of ZAMGYORUD_COMPLETION_. Lock: the one
 * that waited, or is in somebody's way; 0 if there is no notice, and only then. Mark: the mode that somebody asked for there, or 0. */
struct zamgyorud_answer zamgyorud_poll(uint32_t *words, size_t words_len, const uint8_t *slots, size_t slots_len, uint32_t client);

static inline struct zamgyorud_answer zamgyorud_tables_poll(const struct zamgyorud_tables *tables, uint32_t client) {
    return zamgyorud_poll(tables->words, tables->words_len, tables->slots, tables->slots_len, client);
}

/* Puts the value of a lock's name into value, as much as fits. Result: 1 if it is valid, else 0. */
struct zamgyorud_answer zamgyorud_read(const uint32_t *words, size_t words_len, const uint8_t *slots, size_t slots_len, uint32_t client,
                                       uint32_t lock, uint8_t *value, size_t value_len);

static inline struct zamgyorud_answer zamgyorud_tables_read(const struct zamgyorud_tables *tables, uint32_t client, uint32_t lock, uint8_t *value,
                                                            size_t value_len) {
    return zamgyorud_read(tables->words, tables->words_len, tables->slots, tables->slots_len, client, lock, value, value_len);
}

/* Puts the locks on a lock's name, in grant, convert, wait order, into entries, as many as fit; entries_len counts entries. Those past them stay as
 * they are. Result: how many locks there are. */
struct zamgyorud_answer zamgyorud_list(const uint32_t *words, size_t words_len, const uint8_t *slots, size_t slots_len, uint32_t client,
                                       uint32_t lock, struct zamgyorud_entry *entries, size_t entries_len);

static inline struct zamgyorud_answer zamgyorud_tables_list(const struct zamgyorud_tables *tables, uint32_t client, uint32_t lock,
                                                            struct zamgyorud_entry *entries, size_t entries_len) {
    return zamgyorud_list(tables->words, tables->words_len, tables->slots, tables->slots_len, client, lock, entries, entries_len);
}

/* Writes the tables as bytes, words little-endian and then the slots, into an area of zamgyorud_image_len(R, L) bytes. Result: 0. */
struct zamgyorud_answer zamgyorud_image(const uint32_t *words, size_t words_len, const uint8_t *slots, size_t slots_len, uint8_t *area,
                                        size_t area_len);

static inline struct zamgyorud_answer zamgyorud_tables_image(const struct zamgyorud_tables *tables, uint8_t *area, size_t area_len) {
    return zamgyorud_image(tables->words, tables->words_len, tables->slots, tables->slots_len, area, area_len);
}

/* Makes the tables those of an image, whatever they hold before. Result: 0. */
struct zamgyorud_answer zamgyorud_load(const uint8_t *image, size_t image_len, uint32_t *words, size_t words_len, uint8_t *slots, size_t slots_len);

static inline struct zamgyorud_answer zamgyorud_tables_load(const struct zamgyorud_tables *tables, const uint8_t *image, size_t image_len) {
    return zamgyorud_load(image, image_len, tables->words, tables->words_len, tables->slots, tables->slots_len);
}

/* Whether the tables are sound: 1 or 0. */
uint32_t zamgyorud_sound(const uint32_t *words, size_t words_len, const uint8_t *slots, size_t slots_len);

static inline uint32_t zamgyorud_tables_sound(const struct zamgyorud_tables *tables) {
    return zamgyorud_sound(tables->words, tables->words_len, tables->slots, tables->slots_len);
}

/* The client that holds EX on a name in the tables of an image. Taken apart by zamgyorud_holder_refusal and zamgyorud_holder_client. */
struct zamgyorud_held zamgyorud_holder(const uint8_t *image, size_t image_len, const uint8_t *name, size_t name_len);

#ifdef __cplusplus
}
#endif

#endif
