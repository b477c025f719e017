/* Measures the stack of every call and holds it to what zamgyorud.h says. Each call is made in a thread whose stack was painted before; what is no
 * longer painted after the call was used. The tables are the largest ones, and for break also smaller ones, with the deepest search that there is,
 * along a line, and with one that is deep by owners: its arrays have three sizes, for up to 32, 256 and 1,024 locks. Prints the bytes of each call by
 * the tables' sizes, those of a level of break's recursion and 'stack: N calls as told', or which call needs more, and then the exit status is 1.
 */
#define _XOPEN_SOURCE 700
#include <pthread.h>
#include <stdio.h>
#include <stdlib.h>
#include <string.h>

#include "zamgyorud.h"

#define MOST_R ZAMGYORUD_MOST_RESOURCES
#define MOST_L ZAMGYORUD_MOST_LOCKS
#define PAINT 0xa5
#define PAINTED (ZAMGYORUD_STACK_BREAK(MOST_L) + 262144)

static uint32_t memory[ZAMGYORUD_MEMORY_LEN(MOST_R, MOST_L)];
static uint8_t image[ZAMGYORUD_IMAGE_LEN(MOST_R, MOST_L)];
static struct zamgyorud_entry entries[MOST_L];
static uint8_t value[ZAMGYORUD_VALUE_BYTES];
static struct zamgyorud_tables tables;
static uint32_t resources;
static uint32_t locks;
static uint32_t denied;

static uint8_t *stack;
static size_t used;
static int first;
static unsigned measured;
static unsigned failed;

/* Makes a call and measures it. */
static void *painted(void *call)
{
    volatile const uint8_t *at = stack;
    volatile uint8_t here = PAINT;

    (*(void (**)(void))call)();
    while (at < &here && *at == PAINT)
        at++;
    used = (size_t)(&here - at);
    return NULL;
}

static void fail(const char *what)
{
    printf("\nstack: %s\n", what);
    exit(1);
}

static void measure(const char *name, void (*call)(void), size_t most)
{
    pthread_t thread;
    pthread_attr_t attributes;

    memset(stack, PAINT, PAINTED);
    if (pthread_attr_init(&attributes) != 0 || pthread_attr_setstack(&attributes, stack, PAINTED) != 0 ||
        pthread_create(&thread, &attributes, painted, &call) != 0 || pthread_join(thread, NULL) != 0)
        fail("no thread");
    pthread_attr_destroy(&attributes);
    measured++;
    printf("%s %s %lu", first ? ":" : ",", name, (unsigned long)used);
    first = 0;
    if (used > most) {
        printf(" (FAILED: the header says %lu)", (unsigned long)most);
        failed++;
    }
}

/* Tables of these sizes, to be started. */
static void resize(uint32_t r, uint32_t l)
{
    resources = r;
    locks = l;
    tables = zamgyorud_tables_in(memory, sizeof memory / sizeof *memory, r, l);
    printf("stack, R %lu, L %lu", (unsigned long)r, (unsigned long)l);
    first = 1;
}

/* The answer of a call that is to be accepted. */
static struct zamgyorud_answer accepted(struct zamgyorud_answer answer)
{
    if (zamgyorud_refusal(answer) != 0)
        fail("a call was refused");
    return answer;
}

static void start(void)
{
    accepted(zamgyorud_tables_start(&tables, resources, locks));
}

static void request(void)
{
    accepted(zamgyorud_tables_request(&tables, 2, ZAMGYORUD_MODE_EX, 0, (const uint8_t *)"A", 1));
}

static void convert(void)
{
    accepted(zamgyorud_tables_convert(&tables, 1, 1, ZAMGYORUD_MODE_PW, ZAMGYORUD_FLAG_STORE_VALUE, value, sizeof value));
}

static void convert_to_ex(uint32_t result)
{
    if (zamgyorud_result(accepted(zamgyorud_tables_convert(&tables, 1, 1, ZAMGYORUD_MODE_EX, 0, NULL, 0))) != result)
        fail("a conversion to EX doesn't answer what it is to");
}

static void convert_up(void)
{
    convert_to_ex(ZAMGYORUD_RESULT_GRANTED);
}

static void convert_and_wait(void)
{
    convert_to_ex(ZAMGYORUD_RESULT_WAITING);
}

static void cancel(void)
{
    accepted(zamgyorud_tables_cancel(&tables, 2, 2));
}

static void release(void)
{
    accepted(zamgyorud_tables_release(&tables, 1, 1, ZAMGYORUD_FLAG_STORE_VALUE, value, sizeof value));
}

static void poll(void)
{
    if (zamgyorud_lock(accepted(zamgyorud_tables_poll(&tables, 2))) != 2)
        fail("poll doesn't tell of lock 2");
}

static void read_value(void)
{
    accepted(zamgyorud_tables_read(&tables, 2, 2, value, sizeof value));
}

static void list(void)
{
    accepted(zamgyorud_tables_list(&tables, 2, 2, entries, locks));
}

static void purge(void)
{
    accepted(zamgyorud_tables_purge(&tables, 2));
}

static void write_image(void)
{
    accepted(zamgyorud_tables_image(&tables, image, zamgyorud_image_len(resources, locks)));
}

static void load(void)
{
    accepted(zamgyorud_tables_load(&tables, image, zamgyorud_image_len(resources, locks)));
}

static void holder(void)
{
    if (zamgyorud_holder_client(zamgyorud_holder(image, zamgyorud_image_len(resources, locks), (const uint8_t *)"A", 1)) != 2)
        fail("holder doesn't find the client");
}

static void sound(void)
{
    if (zamgyorud_tables_sound(&tables) != 1)
        fail("the tables aren't sound");
}

static void break_deadlock(void)
{
    if (zamgyorud_lock(zamgyorud_tables_break(&tables)) != denied)
        fail("break doesn't deny the first lock on the blocked chain");
}

static void break_nothing(void)
{
    if (zamgyorud_lock(zamgyorud_tables_break(&tables)) != 0)
        fail("break denies a lock where there is no deadlock");
}

/* Every call, on tables of these sizes. Client 1 holds EX on A and client 2 waits for it, takes it back, waits again and is granted. At the end both
 * hold PR, and client 1 waits for EX: lock 2 gets a mark. */
static void measure_calls(uint32_t r, uint32_t l, size_t most_load, size_t most_holder)
{
    const size_t most = ZAMGYORUD_STACK_OTHERS;

    resize(r, l);
    measure("start", start, most);
    accepted(zamgyorud_tables_request(&tables, 1, ZAMGYORUD_MODE_EX, 0, (const uint8_t *)"A", 1));
    measure("request", request, most);
    measure("break", break_nothing, ZAMGYORUD_STACK_BREAK(l));
    measure("convert", convert, most);
    measure("convert", convert_up, most);
    measure("cancel", cancel, most);
    request();
    measure("release", release, most);
    measure("poll", poll, most);
    measure("read", read_value, most);
    measure("list", list, most);
    measure("image", write_image, most);
    measure("load", load, most_load);
    measure("holder", holder, most_holder);
    measure("sound", sound, most);
    measure("purge", purge, most);
    accepted(zamgyorud_tables_request(&tables, 2, ZAMGYORUD_MODE_PR, 0, (const uint8_t *)"A", 1));
    accepted(zamgyorud_tables_request(&tables, 1, ZAMGYORUD_MODE_PR, 0, (const uint8_t *)"A", 1));
    measure("convert that waits", convert_and_wait, most);
    measure("poll of a mark", poll, most);
    putchar('\n');
}

/* Break on the smallest tables, where the stack for its arrays is most of what is told. */
static void measure_least(void)
{
    resize(1, 1);
    start();
    measure("break", break_nothing, ZAMGYORUD_STACK_BREAK(1));
    putchar('\n');
}

/* The client of lock k in the deepest search. The last holder is client 1's. */
static uint32_t deep_client(uint32_t k, uint32_t l)
{
    return k + 1 == l ? 1 : 2 + k % 250;
}

/* The deepest search: all locks are blocked, and it passes each of them. Client 1 and others hold CR; client 1 waits for EX behind them, and then all
 * convert to EX. So the lock that waits is the first on the blocked chain and the last of the line: the search goes from it along the whole line, and
 * at the first conversion it looks at all holders, until it finds it again as a lock of client 1. Answers the bytes. */
static size_t measure_break(uint32_t l)
{
    uint32_t k;

    resize(MOST_R, l);
    start();
    for (k = 1; k < l; k++)
        accepted(zamgyorud_tables_request(&tables, deep_client(k, l), ZAMGYORUD_MODE_CR, 0, (const uint8_t *)"A", 1));
    accepted(zamgyorud_tables_request(&tables, 1, ZAMGYORUD_MODE_EX, 0, (const uint8_t *)"A", 1));
    for (k = 1; k < l; k++)
        accepted(zamgyorud_tables_convert(&tables, deep_client(k, l), k, ZAMGYORUD_MODE_EX, 0, NULL, 0));
    denied = l;
    measure("break in a deadlock", break_deadlock, ZAMGYORUD_STACK_BREAK(l));
    putchar('\n');
    return used;
}

/* A client asks for EX on name k. */
static void circle_request(uint32_t client, uint32_t k)
{
    const uint8_t name[1] = {(uint8_t)k};

    accepted(zamgyorud_tables_request(&tables, client, ZAMGYORUD_MODE_EX, 0, name, sizeof name));
}

/* A search that goes deep by owners, and not along a line: each of so many clients holds EX on a name of its own and waits for that of the next, the
 * last for that of the first. The first that waits is denied: its lock has the number after those that are held. */
static void measure_circle(uint32_t clients, uint32_t l)
{
    uint32_t k;

    resize(MOST_R, l);
    start();
    for (k = 0; k < clients; k++)
        circle_request(k + 1, k);
    for (k = 0; k < clients; k++)
        circle_request(k + 1, (k + 1) % clients);
    denied = clients + 1;
    measure("break in a circle of owners", break_deadlock, ZAMGYORUD_STACK_BREAK(l));
    putchar('\n');
}

/* The deepest search on tables of two sizes, for which the call has the same arrays: what they differ in is the recursion's. */
static void measure_levels(uint32_t few, uint32_t many)
{
    const size_t least = measure_break(few);
    const size_t most = measure_break(many);

    printf("stack, L %lu to %lu: %lu bytes a level\n", (unsigned long)few, (unsigned long)many, (unsigned long)((most - least) / (many - few)));
}

int main(void)
{
    stack = aligned_alloc(4096, (PAINTED + 4095) / 4096 * 4096);
    if (stack == NULL)
        fail("no memory");
    measure_calls(4, 8, ZAMGYORUD_STACK_OTHERS, ZAMGYORUD_STACK_OTHERS);
    measure_calls(64, 256, ZAMGYORUD_STACK_LOAD, ZAMGYORUD_STACK_HOLDER);
    measure_calls(MOST_R, MOST_L, ZAMGYORUD_STACK_LOAD, ZAMGYORUD_STACK_HOLDER);
    measure_least();
    measure_break(3);
    measure_break(8);
    measure_break(32);
    measure_levels(33, 256);
    measure_levels(257, MOST_L);
    measure_circle(16, 32);
    measure_circle(128, 256);
    measure_circle(250, 500);
    measure_circle(250, MOST_L);
    free(stack);
    if (failed == 0)
        printf("stack: %u calls as told\n", measured);
    return failed != 0;
}
