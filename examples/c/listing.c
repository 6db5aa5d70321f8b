/*
 * The paper's listing through the C functions, then the nearest few, then what is stored, then each refusal once. A
 * line for each call, as the bench program prints them: the call's number, its refusal, its distance count, the cards
 * found, and the cards, the nearest few with their distances. After the listing a refused call's line ends with what
 * the refusal says.
 */
#include <stdio.h>
#include <string.h>

#include "plotvuga.h"

#if PLOTVUGA_VERSION < 10200
#error "plotvuga_cards and plotvuga_card came with 1.1.0, plotvuga_nearest with 1.2.0"
#endif

enum { PLACES = 512 };

static uint8_t table[PLACES * PLOTVUGA_RECORD];
static uint32_t list[PLACES];
static struct plotvuga_pair pairs[PLOTVUGA_NEAREST];
static unsigned calls;
static int in_words; /* whether a refusal is told in words, too */

static void begin(uint32_t refusal, uint32_t count, uint32_t found)
{
    printf("%u %u %u %u", ++calls, (unsigned)refusal, (unsigned)count, (unsigned)found);
}

static void end(uint32_t refusal)
{
    if (in_words && refusal != PLOTVUGA_DONE)
        printf(" %s", plotvuga_refusal_text(refusal));
    putchar('\n');
}

static void line(uint32_t refusal, uint32_t count, uint32_t found)
{
    begin(refusal, count, found);
    for (uint32_t i = 0; i < found; i++)
        printf(" %u", (unsigned)list[i]);
    end(refusal);
}

/* Kind 1 with reading 0 as given, the others 0. */
static const uint8_t *reading(unsigned value)
{
    static uint8_t signature[PLOTVUGA_SIGNATURE];
    signature[0] = (uint8_t)(value & 255);
    signature[1] = (uint8_t)(value >> 8);
    return signature;
}

static void insert(uint32_t card, unsigned value, uint8_t arity)
{
    uint32_t count;
    uint32_t refusal = plotvuga_insert(table, sizeof table, card, PLOTVUGA_READINGS, arity, reading(value),
                                       PLOTVUGA_SIGNATURE, &count);
    line(refusal, count, 0);
}

static void delete(uint32_t card)
{
    uint32_t count;
    uint32_t refusal = plotvuga_delete(table, sizeof table, card, 2, &count);
    line(refusal, count, 0);
}

static void search(unsigned value, uint32_t radius, size_t places)
{
    uint32_t count, found;
    uint32_t refusal = plotvuga_search(table, sizeof table, PLOTVUGA_READINGS, reading(value), PLOTVUGA_SIGNATURE,
                                       radius, list, places, &count, &found);
    line(refusal, count, found);
}

static void nearest(unsigned value, uint32_t k, size_t places)
{
    uint32_t count, found;
    uint32_t refusal = plotvuga_nearest(table, sizeof table, PLOTVUGA_READINGS, reading(value), PLOTVUGA_SIGNATURE, k,
                                        pairs, places, &count, &found);
    begin(refusal, count, found);
    for (uint32_t i = 0; i < found; i++)
        printf(" %u (%u)", (unsigned)pairs[i].card, (unsigned)pairs[i].distance);
    end(refusal);
}

static void listing(void)
{
    static const unsigned values[] = {50, 80, 20, 52, 40, 78};
    for (uint32_t i = 0; i < 6; i++)
        insert(11 + i, values[i], 2);
    search(48, 5, PLACES);
    delete(12);
    search(48, 5, PLACES);
    delete(99);
    line(plotvuga_check(table, sizeof table), 0, 0);
}

/* One, three, and all of them: fewer than 64 are stored. */
static void nearest_few(void)
{
    nearest(48, 1, PLOTVUGA_NEAREST);
    nearest(48, 3, 3);
    nearest(48, PLOTVUGA_NEAREST, PLOTVUGA_NEAREST);
}

static void tell(uint32_t card, size_t room)
{
    static uint8_t row[PLOTVUGA_SIGNATURE];
    uint8_t kind;
    uint32_t refusal = plotvuga_card(table, sizeof table, card, row, room, &kind);
    line(refusal, 0, 0);
    if (refusal == PLOTVUGA_DONE)
        printf("card %u: kind %u, reading 0 is %u\n", (unsigned)card, kind, row[0] + 256u * row[1]);
}

/* What is stored: the cards in slot order, how much room is left, and what each was stored with. */
static void stored(void)
{
    uint32_t found;
    uint32_t refusal = plotvuga_cards(table, sizeof table, list, PLACES, &found);
    line(refusal, 0, found);
    printf("%u records are free\n", (unsigned)(sizeof table / PLOTVUGA_RECORD - found));
    for (uint32_t i = 0; i < found; i++)
        tell(list[i], PLOTVUGA_SIGNATURE);
}

/* Refusals 7 and 8, in tables of one record and of two. */
static void small_tables(void)
{
    uint32_t count, refusal;

    /* 7 FULL: a second card in a table of one record. */
    static uint8_t one[PLOTVUGA_RECORD];
    refusal = plotvuga_insert(one, sizeof one, 11, PLOTVUGA_FAULTS, 1, reading(1), PLOTVUGA_SIGNATURE, &count);
    line(refusal, count, 0);
    refusal = plotvuga_insert(one, sizeof one, 12, PLOTVUGA_FAULTS, 1, reading(1), PLOTVUGA_SIGNATURE, &count);
    line(refusal, count, 0);

    /* 8 CLOCK: the youngest record has the last timestamp. */
    memset(one + 4, 255, 4);
    static uint8_t two[2 * PLOTVUGA_RECORD];
    memcpy(two, one, sizeof one);
    refusal = plotvuga_insert(two, sizeof two, 12, PLOTVUGA_FAULTS, 1, reading(1), PLOTVUGA_SIGNATURE, &count);
    line(refusal, count, 0);
}

/* Refusals 9 and 10, of calls that read. */
static void late_refusals(void)
{
    /* 9 SHORT: five cards are stored; six are asked for; a signature has 32 bytes. */
    search(48, 5, 4);
    search(48, 5, 5);
    nearest(48, 6, 5);
    uint32_t found = 0xffffffff;
    uint32_t refusal = plotvuga_cards(table, sizeof table, list, 4, &found);
    line(refusal, 0, found);
    tell(11, 31);

    /* 10 LOOSE: a covering radius that does not reach all below. */
    table[8] -= 1;
    line(plotvuga_check(table, sizeof table), 0, 0);
}

/* Each refusal by its number, 1 to 10. Counts are lent full of ones, and a refusal sets them to 0. */
static void refusals(void)
{
    uint32_t count = 0xffffffff, found = 0xffffffff;
    uint32_t refusal;

    /* 1 SIZE: 63 bytes. */
    line(plotvuga_clear(table, 63), 0, 0);

    /* 2 TABLE: the root's kind is 3. */
    table[15] = 3;
    refusal = plotvuga_insert(table, sizeof table, 17, PLOTVUGA_READINGS, 2, reading(1), PLOTVUGA_SIGNATURE, &count);
    line(refusal, count, 0);
    table[15] = PLOTVUGA_READINGS;

    /* 3 ARGUMENT: arity 9; k 0 and 65; a signature of 31 bytes. */
    insert(17, 1, 9);
    nearest(48, 0, PLOTVUGA_NEAREST);
    nearest(48, PLOTVUGA_NEAREST + 1, PLOTVUGA_NEAREST);
    count = 0xffffffff;
    refusal = plotvuga_search(table, sizeof table, PLOTVUGA_READINGS, reading(1), 31, 5, list, PLACES, &count, &found);
    line(refusal, count, found);

    /* 4 KIND: fault bits in a table of readings. */
    count = found = 0xffffffff;
    refusal = plotvuga_search(table, sizeof table, PLOTVUGA_FAULTS, reading(1), PLOTVUGA_SIGNATURE, 5, list, PLACES,
                              &count, &found);
    line(refusal, count, found);

    /* 5 TWICE, 6 ABSENT. */
    insert(11, 1, 2);
    delete(12);
    tell(12, PLOTVUGA_SIGNATURE);

    small_tables();
    late_refusals();

    /* Numbers that are no refusal have words, too. */
    printf("%s\n%s\n", plotvuga_refusal_text(PLOTVUGA_DONE), plotvuga_refusal_text(PLOTVUGA_LOOSE + 1));
}

int main(void)
{
    memset(table, 0xee, sizeof table);
    if (plotvuga_clear(table, sizeof table) != PLOTVUGA_DONE)
        return 1;
    listing();
    in_words = 1;
    nearest_few();
    stored();
    refusals();
    return 0;
}
