/*
 * How much stack the library's calls need: each runs in a thread on a stack of its own that was painted before, and the
 * deepest byte that lost its paint is looked for afterwards. Worst cases: a chain of 1,024 records, which a search goes
 * down to its end, and cards that crowd one place of a hash table, so that they are told apart by sorting.
 * Prints a line for each call and the largest of all; exits 1 if that is over PLOTVUGA_STACK.
 */
#define _GNU_SOURCE
#include <pthread.h>
#include <stdio.h>
#include <stdlib.h>
#include <string.h>

#include "plotvuga.h"

enum { STACK = 4 * 1024 * 1024, PAINT = 0xa7 };

static uint8_t table[PLOTVUGA_RECORDS * PLOTVUGA_RECORD];
static uint8_t start[sizeof table];
static uint32_t list[PLOTVUGA_RECORDS];
static struct plotvuga_pair pairs[PLOTVUGA_NEAREST];
static uint8_t signature[PLOTVUGA_SIGNATURE], row[PLOTVUGA_SIGNATURE], kind;
static uint32_t card, refusal, count, found;

static void *nothing(void *unused)
{
    return unused;
}

static void *clear(void *unused)
{
    refusal = plotvuga_clear(table, sizeof table);
    return unused;
}

static void *insert(void *unused)
{
    refusal = plotvuga_insert(table, sizeof table, card, PLOTVUGA_READINGS, 1, signature, sizeof signature, &count);
    return unused;
}

static void *delete(void *unused)
{
    refusal = plotvuga_delete(table, sizeof table, card, 1, &count);
    return unused;
}

static void *search(void *unused)
{
    refusal = plotvuga_search(table, sizeof table, PLOTVUGA_READINGS, signature, sizeof signature, UINT32_MAX, list,
                              PLOTVUGA_RECORDS, &count, &found);
    return unused;
}

static void *nearest(void *unused)
{
    refusal = plotvuga_nearest(table, sizeof table, PLOTVUGA_READINGS, signature, sizeof signature, PLOTVUGA_NEAREST,
                               pairs, PLOTVUGA_NEAREST, &count, &found);
    return unused;
}

static void *check(void *unused)
{
    refusal = plotvuga_check(table, sizeof table);
    return unused;
}

static void *list_all(void *unused)
{
    refusal = plotvuga_cards(table, sizeof table, list, PLOTVUGA_RECORDS, &found);
    return unused;
}

static void *tell_one(void *unused)
{
    refusal = plotvuga_card(table, sizeof table, card, row, sizeof row, &kind);
    return unused;
}

/* The bytes of stack that a thread of this work needs. */
static size_t used(void *(*work)(void *))
{
    static uint8_t *stack;
    pthread_attr_t attributes;
    pthread_t thread;
    size_t untouched = 0;
    if (stack == NULL && posix_memalign((void **)&stack, 4096, STACK) != 0)
        exit(2);
    memset(stack, PAINT, STACK);
    pthread_attr_init(&attributes);
    if (pthread_attr_setstack(&attributes, stack, STACK) != 0 || pthread_create(&thread, &attributes, work, NULL) != 0)
        exit(2);
    pthread_join(thread, NULL);
    while (untouched < STACK && stack[untouched] == PAINT)
        untouched++;
    return STACK - untouched;
}

static size_t most;

static void measure(const char *name, void *(*work)(void *), uint32_t expected)
{
    memcpy(table, start, sizeof table);
    size_t bytes = used(work) - used(nothing);
    if (refusal != expected) {
        printf("%s: refusal %u and not %u\n", name, (unsigned)refusal, (unsigned)expected);
        exit(2);
    }
    printf("%-52s %7zu bytes\n", name, bytes);
    if (bytes > most)
        most = bytes;
}

/* The n-th card: any, or one of those that crowd a place of the 4,096 that keys are told apart by. */
static uint32_t next_card(uint32_t after, int crowded)
{
    do
        after++;
    while (crowded && (after * UINT32_C(0x9e3779b9)) >> 20 != 7);
    return after;
}

static void measure_all(const char *name, int crowded)
{
    char line[80];
    uint32_t last = 0;
    plotvuga_clear(table, sizeof table);
    /* Arity 1 makes a chain. The last record stays free for the insert. */
    for (int i = 0; i < PLOTVUGA_RECORDS - 1; i++) {
        card = last = next_card(last, crowded);
        signature[0] = (uint8_t)(i * 37);
        insert(NULL);
    }
    memcpy(start, table, sizeof table);
    card = next_card(last, crowded);
    snprintf(line, sizeof line, "insert, %s", name);
    measure(line, insert, PLOTVUGA_DONE);
    memcpy(start, table, sizeof table);
    card = next_card(0, crowded);
    snprintf(line, sizeof line, "delete of the root, %s", name);
    measure(line, delete, PLOTVUGA_DONE);
    snprintf(line, sizeof line, "search, %s", name);
    measure(line, search, PLOTVUGA_DONE);
    snprintf(line, sizeof line, "nearest, %s", name);
    measure(line, nearest, PLOTVUGA_DONE);
    snprintf(line, sizeof line, "check, %s", name);
    measure(line, check, PLOTVUGA_DONE);
    snprintf(line, sizeof line, "cards, %s", name);
    measure(line, list_all, PLOTVUGA_DONE);
    card = last;
    snprintf(line, sizeof line, "card, %s", name);
    measure(line, tell_one, PLOTVUGA_DONE);
}

int main(void)
{
    measure("clear", clear, PLOTVUGA_DONE);
    measure_all("a chain of 1,024", 0);
    measure_all("a chain of 1,024, crowded cards", 1);
    printf("the most: %zu bytes; PLOTVUGA_STACK is %d\n", most, PLOTVUGA_STACK);
    return most > PLOTVUGA_STACK;
}
