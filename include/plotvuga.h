/*
 * plotvuga.h: a similarity index for failed relay cards, over one table of bytes that the caller lends.
 *
 * Eight calls. Clear, insert and delete change a table; search, nearest, check, cards and card only read it. Each
 * returns a refusal number, 0 if it was done. The library keeps nothing between calls: no heap, no global, no open
 * file. Two threads may call at once as long as neither writes what the other is lent.
 *
 * The table. A row of records of 64 bytes, 1 to 1,024 of them, so 64 to 65,536 bytes, at any address. All zero is an
 * empty table; plotvuga_clear makes one of any bytes. Its bytes may be kept in a file or sent elsewhere: numbers stand
 * low byte first on every machine. Zeros behind a table make it a longer one with more free records.
 *
 * A signature. 32 bytes. Kind 1: sixteen 16-bit readings, low byte first; the distance is the sum of their absolute
 * differences, 0 to 1,048,560. Kind 2: 256 fault bits; the distance is the number of bits that differ, 0 to 256.
 *
 * A record. Its place in the table is its slot, counted from 0. Nobody needs these fields to use the calls; they are
 * here for whoever looks at the bytes.
 *     0-3    card, 1 to 4,294,967,295
 *     4-7    timestamp, 1 to 4,294,967,295; of two records the younger has the larger
 *     8-11   covering radius: how far the cards below may be; any value
 *     12-13  the parent's slot, 65,535 for the root
 *     14     how many children, 0 to 8
 *     15     kind, 1 or 2
 *     16-31  eight slots of children, 65,535 past their number
 *     32-63  signature
 * A free record is 64 zero bytes.
 *
 * Well formed: the bytes are one tree. Each record is free or has every field as above; no card and no timestamp stands
 * twice; all cards are of one kind. If any record is used, one of them, and no other, is the root. Every other used
 * record is younger than its parent and stands once among that parent's children. Every child of a record has that
 * record as its parent, and children stand oldest first. Every call but clear judges all this before anything else and
 * refuses a table that is not well formed with PLOTVUGA_TABLE, so bytes from an untrusted place can do no harm.
 *
 * Sound: well formed, and what a search leaves out can't hold a near card. A record's covering radius is at least its
 * distance to every card below it; and a card is no farther from a record above it than from those of that record's
 * siblings that are older than the card. Tables that these calls alone have made are sound; plotvuga_check decides it
 * for any other.
 *
 * A refused call returns its refusal number, sets its counts (or the kind) to 0 and touches nothing else: table, list
 * and row keep every byte. Refusals are tested in the order of their numbers, and each is given exactly when its line
 * below says.
 *
 * What the caller must see to, for C cannot check it:
 *   - Every pointer is valid for its length for the whole call. For a length of 0 the pointer must still not be null.
 *   - list, count and found are aligned for uint32_t. The table, the signature, the row and the kind need no alignment.
 *   - Nothing that a call writes overlaps anything else lent to it: not the table (clear, insert, delete), not the
 *     list, not the row, not count, not found, not the kind. A signature must not lie within a table that is written.
 *   - The stack has room for the call: see PLOTVUGA_STACK.
 *
 * Time. Every call returns, within a time that the table's length bounds, whatever its bytes are. With 1,024 records
 * an insert, a search, a nearest call, cards or card takes some 10 to 40 microseconds on a core of 2.5 GHz, much of it
 * to judge the table; a check, or a delete that puts many records back, about half a millisecond. The worst shape is a
 * chain, which arity 1 makes: a search takes less than 0.1 milliseconds there, a check or a delete of its root some 5
 * to 10. A nearest call takes 0.1 milliseconds on the worst table known, one whose covering radii were set by hand.
 * docs/PERFORMANCE.md has what was measured.
 */
#ifndef PLOTVUGA_H
#define PLOTVUGA_H

#include <stddef.h>
#include <stdint.h>

#ifdef __cplusplus
extern "C" {
#endif

/*
 * The version of this header and of the library that belongs to it. MAJOR goes up when the bytes of a table or the
 * answer of a call that was there change: look at your program and at the tables that you keep. MINOR goes up when
 * something is added and all that was there stays. PATCH goes up when only speed, stack or words change. What was there
 * before the header had a number, the five calls without cards and card, counts as 1.0; nearest came with 1.2.
 * PLOTVUGA_VERSION is one number of the three, 10200 for 1.2.0, to be held against another in an #if.
 */
#define PLOTVUGA_VERSION_MAJOR 1
#define PLOTVUGA_VERSION_MINOR 2
#define PLOTVUGA_VERSION_PATCH 0
#define PLOTVUGA_VERSION (PLOTVUGA_VERSION_MAJOR * 10000 + PLOTVUGA_VERSION_MINOR * 100 + PLOTVUGA_VERSION_PATCH)

enum {
    PLOTVUGA_RECORD = 64,        /* bytes of a record */
    PLOTVUGA_RECORDS = 1024,     /* the most records that a table has */
    PLOTVUGA_SIGNATURE = 32,     /* bytes of a signature */
    PLOTVUGA_ARITY = 8,          /* the most children that a record can have */
    PLOTVUGA_NEAREST = 64        /* the most cards that plotvuga_nearest can be asked for */
};

/* Bytes of stack that suffice for every call. A search goes as deep as the tree, which is 1,024 records at the worst, a
   chain; every other call takes less than a quarter of this. tools/stack.sh measures it. */
enum { PLOTVUGA_STACK = 512 * 1024 };

enum plotvuga_kind {
    PLOTVUGA_READINGS = 1,       /* sixteen readings */
    PLOTVUGA_FAULTS = 2          /* 256 fault bits */
};

/* What a call returns, tested in this order. */
enum plotvuga_refusal {
    PLOTVUGA_DONE = 0,
    PLOTVUGA_SIZE = 1,           /* all: table_len is not a multiple of 64 from 64 to 65,536 */
    PLOTVUGA_TABLE = 2,          /* all but clear: the table is not well formed */
    PLOTVUGA_ARGUMENT = 3,       /* insert, delete, card: card 0; insert, delete: arity not 1 to 8;
                                    insert, search, nearest: kind not 1 or 2, or signature_len not 32;
                                    nearest: k not 1 to 64 */
    PLOTVUGA_KIND = 4,           /* insert, search, nearest: the table holds cards of the other kind */
    PLOTVUGA_TWICE = 5,          /* insert: the card is already stored */
    PLOTVUGA_ABSENT = 6,         /* delete, card: the card is not stored */
    PLOTVUGA_FULL = 7,           /* insert: no record is free. Delete a card; or lend a longer table, the same bytes
                                    with zeros behind them; or, at 1,024 records, begin a second table */
    PLOTVUGA_CLOCK = 8,          /* insert, delete: a fresh timestamp would pass 4,294,967,295. An insert takes the one
                                    after the largest in use, a delete one more for each record that it puts back.
                                    Store the cards anew in a cleared table (plotvuga_cards, plotvuga_card,
                                    plotvuga_insert): its timestamps begin at 1 */
    PLOTVUGA_SHORT = 9,          /* search, cards: list_len is less than the number of stored cards;
                                    nearest: list_len is less than k, however few are stored;
                                    card: row_len is less than 32 */
    PLOTVUGA_LOOSE = 10          /* check: the table is well formed but not sound. Store its cards anew as for CLOCK */
};

/*
 * What a refusal number says, and what can be done about it, in a sentence to print: no capital, no full stop, so that
 * it can follow a word of the caller's.
 */
static inline const char *plotvuga_refusal_text(uint32_t refusal)
{
    switch (refusal) {
    case PLOTVUGA_DONE:
        return "the call was done";
    case PLOTVUGA_SIZE:
        return "the table's length is not a multiple of 64 from 64 to 65,536 bytes";
    case PLOTVUGA_TABLE:
        return "the table is not well formed: bring back a copy that was kept, or clear it";
    case PLOTVUGA_ARGUMENT:
        return "an argument is out of its range: card 1 or more, arity 1 to 8, kind 1 or 2, signature of 32 bytes, "
               "k 1 to 64";
    case PLOTVUGA_KIND:
        return "the table holds cards of the other kind: keep a table for each kind";
    case PLOTVUGA_TWICE:
        return "the card is already stored: delete it before it is stored anew";
    case PLOTVUGA_ABSENT:
        return "the card is not stored";
    case PLOTVUGA_FULL:
        return "no record is free: delete a card, or lend a longer table, the same bytes with zeros behind them";
    case PLOTVUGA_CLOCK:
        return "no fresh timestamp is left: store the cards anew in a cleared table";
    case PLOTVUGA_SHORT:
        return "the answer has no room: lend an entry for each stored card, k entries for the nearest k, or 32 bytes "
               "for a signature";
    case PLOTVUGA_LOOSE:
        return "the table is not sound, so that a search can miss a card: store the cards anew in a cleared table";
    default:
        return "no call returns this number";
    }
}

/*
 * Empties the table: all its bytes become 0, whatever they were.
 *   table, table_len    the table, written.
 * Refusals: SIZE.
 */
uint32_t plotvuga_clear(uint8_t *table, size_t table_len);

/*
 * Stores a card.
 *   table, table_len          the table, read and written.
 *   card                      the card's number, 1 to 4,294,967,295, not stored yet.
 *   kind                      1 readings, 2 fault bits; the same for every card of a table.
 *   arity                     1 to 8: a record that has so many children takes no more. It may differ from call to
 *                             call; fewer make a deeper tree.
 *   signature, signature_len  the card's signature, 32 bytes, read.
 *   count                     set to the number of distances worked out, 0 if refused.
 * Which arity: 4 serves well, and from 2 to 8 it matters little. In clusters of 1,024 cards a search that finds ten
 * works out 130 to 150 distances and an insert 16 to 25, fewest of both at arity 2; at arity 8 the tree is little more
 * than half as deep, so that a search takes less stack. Arity 1 makes a chain: a search then compares nearly every
 * card, and a delete may take milliseconds. rust/plotvuga/tests/arity.rs counts this.
 * Refusals: SIZE, TABLE, ARGUMENT, KIND, TWICE, FULL, CLOCK.
 */
uint32_t plotvuga_insert(uint8_t *table, size_t table_len, uint32_t card, uint8_t kind, uint8_t arity,
                         const uint8_t *signature, size_t signature_len, uint32_t *count);

/*
 * Removes a card. The records that stood below it are put back, oldest first, with fresh timestamps.
 *   table, table_len    the table, read and written.
 *   card                the card's number, 1 to 4,294,967,295.
 *   arity               1 to 8, for putting back; what was said of it for insert holds here.
 *   count               set to the number of distances worked out, 0 if refused.
 * Refusals: SIZE, TABLE, ARGUMENT, ABSENT, CLOCK.
 */
uint32_t plotvuga_delete(uint8_t *table, size_t table_len, uint32_t card, uint8_t arity, uint32_t *count);

/*
 * Lists every stored card whose distance to the signature is at most the radius, each once.
 *   table, table_len          the table, read.
 *   kind                      1 or 2, the kind of the table's cards; an empty table takes either.
 *   signature, signature_len  what to look for, 32 bytes, read.
 *   radius                    0 to 4,294,967,295.
 *   list, list_len            where the cards go, from its start; list_len is its number of entries, not of bytes, and
 *                             must be at least the number of stored cards, found or not. Later entries stay.
 *   count                     set to the number of distances worked out, at most that of stored cards; 0 if refused.
 *   found                     set to the number of cards listed, 0 if refused.
 * The list is complete on every sound table, so on every table that these calls alone have made. On a table from
 * elsewhere, ask plotvuga_check.
 * Refusals: SIZE, TABLE, ARGUMENT, KIND, SHORT.
 */
uint32_t plotvuga_search(const uint8_t *table, size_t table_len, uint8_t kind, const uint8_t *signature,
                         size_t signature_len, uint32_t radius, uint32_t *list, size_t list_len, uint32_t *count,
                         uint32_t *found);

/* A stored card, and its distance to the signature that was looked for. */
struct plotvuga_pair {
    uint32_t card;
    uint32_t distance;
};

/*
 * Lists the k stored cards nearest to the signature, nearest first, equal distances by smaller card; where fewer than k
 * are stored, all of them.
 *   table, table_len          the table, read.
 *   kind                      1 or 2, the kind of the table's cards; an empty table takes either.
 *   signature, signature_len  what to look for, 32 bytes, read.
 *   k                         how many are wanted, 1 to PLOTVUGA_NEAREST.
 *   list, list_len            where the pairs go, from its start; list_len is its number of entries, not of bytes, and
 *                             must be at least k, however few cards are stored. Later entries stay.
 *   count                     set to the number of distances worked out, at most that of stored cards; 0 if refused.
 *   found                     set to the number of cards listed: k, or all that are stored if those are fewer; 0 if
 *                             refused.
 * The list is exactly the first k of all stored cards in that order on every sound table, so on every table that these
 * calls alone have made. On a table from elsewhere, ask plotvuga_check.
 * Refusals: SIZE, TABLE, ARGUMENT, KIND, SHORT.
 */
uint32_t plotvuga_nearest(const uint8_t *table, size_t table_len, uint8_t kind, const uint8_t *signature,
                          size_t signature_len, uint32_t k, struct plotvuga_pair *list, size_t list_len,
                          uint32_t *count, uint32_t *found);

/*
 * Decides whether the table is sound. It is done exactly if every search on this table, whatever its signature and
 * radius, lists exactly the stored cards within the radius; that is proved both ways. So LOOSE says that there is a
 * search which misses a near card.
 *   table, table_len    the table, read.
 * Refusals: SIZE, TABLE, LOOSE.
 */
uint32_t plotvuga_check(const uint8_t *table, size_t table_len);

/*
 * Lists all stored cards, in the order of their slots.
 *   table, table_len    the table, read.
 *   list, list_len      where the cards go, from its start; list_len is its number of entries, not of bytes, and must
 *                       be at least the number of stored cards. PLOTVUGA_RECORDS always suffice. Later entries stay.
 *   found               set to the number of stored cards, 0 if refused.
 * So table_len / PLOTVUGA_RECORD - found records are free.
 * Refusals: SIZE, TABLE, SHORT.
 */
uint32_t plotvuga_cards(const uint8_t *table, size_t table_len, uint32_t *list, size_t list_len, uint32_t *found);

/*
 * Tells what a card was stored with.
 *   table, table_len    the table, read.
 *   card                the card's number, 1 to 4,294,967,295.
 *   row, row_len        where the card's signature goes: the row's first 32 bytes. Later bytes stay.
 *   kind                set to the card's kind, 1 or 2; 0 if refused.
 * Refusals: SIZE, TABLE, ARGUMENT, ABSENT, SHORT.
 */
uint32_t plotvuga_card(const uint8_t *table, size_t table_len, uint32_t card, uint8_t *row, size_t row_len,
                       uint8_t *kind);

#ifdef __cplusplus
}
#endif

#endif
