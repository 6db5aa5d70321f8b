/*
 * A first program: three failed cards are stored, and a doubtful one is held against them. examples/rust/first.rs is
 * the same in Rust; both print examples/first.expected.
 */
#include <stdio.h>

#include <plotvuga.h>

enum { PLACES = 16 };

static uint8_t table[PLACES * PLOTVUGA_RECORD]; /* all zero is an empty table */
static uint32_t list[PLACES];

/* A signature of sixteen readings, all alike. */
static const uint8_t *readings(unsigned value)
{
    static uint8_t signature[PLOTVUGA_SIGNATURE];
    for (int i = 0; i < PLOTVUGA_SIGNATURE; i += 2) {
        signature[i] = (uint8_t)(value & 255);
        signature[i + 1] = (uint8_t)(value >> 8);
    }
    return signature;
}

static void store(uint32_t card, unsigned value)
{
    uint32_t count;
    uint32_t refusal = plotvuga_insert(table, sizeof table, card, PLOTVUGA_READINGS, 4, readings(value),
                                       PLOTVUGA_SIGNATURE, &count);
    printf("card %u: %s\n", (unsigned)card, plotvuga_refusal_text(refusal));
}

int main(void)
{
    uint32_t count, found;
    store(11, 500);
    store(12, 900);
    store(13, 505);
    store(13, 505);
    if (plotvuga_search(table, sizeof table, PLOTVUGA_READINGS, readings(502), PLOTVUGA_SIGNATURE, 100, list, PLACES,
                        &count, &found) != PLOTVUGA_DONE)
        return 1;
    printf("%u near cards:", (unsigned)found);
    for (uint32_t i = 0; i < found; i++)
        printf(" %u", (unsigned)list[i]);
    putchar('\n');
    return 0;
}
