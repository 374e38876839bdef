/* Imports a planning table over the diamond, exports the record again, and imports the export.
 * Then the program shows three planning tables that are refused, and an export with one row too
 * few. It prints what examples/rows.stdout has. Make librecord_engine.a first, then build the
 * program with
 *
 *   cc -std=c11 -I include -o rows examples/rows.c crates/record_engine/out/librecord_engine.a
 */
#include "record_engine.h"
#include <stdio.h>
#include <string.h>

/* The diamond: types 1 and 2 lie between 0 and 3, and neither is below the other. Type 3 is
 * called top. */
static const uint8_t diamond[32] = {[0] = 0x01, [8] = 0x03, [16] = 0x05, [24] = 0x0F};

/* A planning table of three nodes. Feature 9 of the root leads to node 1. Feature 0 of the root
 * and feature 0 of node 1 lead to node 2. Node 2 has type 1 and the levels 10 to 200. The other
 * nodes are top and have the full range. */
static const record_row links[] = {{1, 0, 2}, {0, 9, 1}, {0, 0, 2}};
static const uint8_t types[] = {3, 0, 255, 3, 0, 255, 1, 10, 200};

enum { LINKS = sizeof links / sizeof links[0] };

/* Prints what a call answered: a length, counts, or a refusal with its number, the record that
 * it tells of, and its sentence. */
static void print_answer(const char *call, uint64_t answer) {
    static const char *const side[] = {"", " first", " second"};
    if (RECORD_IS_REFUSED(answer))
        printf("%s: refused %d%s: %s\n", call, RECORD_REFUSAL(answer), side[RECORD_SIDE(answer)],
               record_refusal_text(answer));
    else if (RECORD_IS_COUNTS(answer))
        printf("%s: %d nodes, %d rows\n", call, RECORD_NODES(answer), RECORD_ROWS(answer));
    else
        printf("%s: %d bytes\n", call, (int)answer);
}

int main(void) {
    uint8_t record[RECORD_LONGEST], again[RECORD_LONGEST];
    record_row rows[RECORD_MOST_LINKS];
    uint8_t nodes[3 * RECORD_MOST_NODES];

    uint64_t length = record_import(4, diamond, sizeof diamond, links, LINKS, types, sizeof types,
                                    record, sizeof record);
    print_answer("import", length);
    if (RECORD_IS_REFUSED(length))
        return 1;
    for (size_t i = 0; i < length; i++)
        printf("%02x", record[i]);
    printf("\n");

    /* The nodes are numbered as in the record, and the rows are sorted. */
    uint64_t counts = record_export(4, diamond, sizeof diamond, record, length,
                                    rows, RECORD_MOST_LINKS, nodes, sizeof nodes);
    print_answer("export", counts);
    if (RECORD_IS_REFUSED(counts))
        return 1;
    for (int i = 0; i < RECORD_ROWS(counts); i++)
        printf("parent %d, feature %d, target %d\n", rows[i].parent, rows[i].feature, rows[i].target);
    for (int i = 0; i < RECORD_NODES(counts); i++)
        printf("node %d: type %d, levels %d to %d\n", i, nodes[3 * i], nodes[3 * i + 1], nodes[3 * i + 2]);

    uint64_t restored = record_import(4, diamond, sizeof diamond, rows, RECORD_ROWS(counts),
                                      nodes, 3 * RECORD_NODES(counts), again, sizeof again);
    int same = restored == length && memcmp(again, record, length) == 0;
    printf("import of the export: %s\n", same ? "the same record" : "another record");

    /* Two rows for feature 0 of the root are refused by 15, and before that a feature that
     * is none by 14. */
    const record_row outside[] = {{0, 64, 1}, {0, 0, 1}, {0, 0, 2}};
    const record_row twice[] = {{0, 0, 1}, {0, 9, 1}, {0, 0, 2}};
    print_answer("a feature above 63", record_import(4, diamond, sizeof diamond, outside, 3, types, sizeof types,
                                                     again, sizeof again));
    print_answer("two rows with one parent and feature",
                 record_import(4, diamond, sizeof diamond, twice, 3, types, sizeof types, again, sizeof again));
    print_answer("node bytes not divisible by 3",
                 record_import(4, diamond, sizeof diamond, links, LINKS, types, sizeof types - 1, again, sizeof again));

    /* No row is changed where there are too few. */
    rows[0] = (record_row){7, 8, 9};
    print_answer("export into two rows", record_export(4, diamond, sizeof diamond, record, length,
                                                       rows, 2, nodes, sizeof nodes));
    same = same && rows[0].parent == 7 && rows[0].feature == 8 && rows[0].target == 9;
    return same ? 0 : 1;
}
