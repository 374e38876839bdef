/* Keeps four programs over the diamond in one store. The program puts them, saves the used bytes,
 * and reads every program back from the saved bytes. Then it shows a put that is refused. It
 * prints what examples/export.stdout has. Make librecord_engine.a first, then build the program
 * with
 *
 *   cc -std=c11 -I include -o export examples/export.c crates/record_engine/out/librecord_engine.a
 */
#include "record_engine.h"
#include <stdio.h>
#include <string.h>

/* The diamond: types 1 and 2 lie between 0 and 3, and neither is below the other. Type 3 is
 * called top. */
static const uint8_t diamond[32] = {[0] = 0x01, [8] = 0x03, [16] = 0x05, [24] = 0x0F};

/* In each program the features 0 and 1 of the root lead to node 1, and feature 9 leads to node 2.
 * Node 1 has type 3 in the first program, type 1 in the second and third, and type 2 with the
 * levels 9 to 99 in the fourth. Node 2 has type 2 in the third program and type 3 in the others. */
static const uint8_t programs[4][33] = {
    {3, 3, 3, 2, 0, 0, 0, 0, 0, 0, 1, 1, 2, 3, 0, 0, 0, 0, 0, 0, 0, 0, 3},
    {3, 3, 3, 2, 0, 0, 0, 0, 0, 0, 1, 1, 2, 1, 0, 0, 0, 0, 0, 0, 0, 0, 3},
    {3, 3, 3, 2, 0, 0, 0, 0, 0, 0, 1, 1, 2, 1, 0, 0, 0, 0, 0, 0, 0, 0, 2},
    {3, 3, 3, 2, 0, 0, 0, 0, 0, 0, 1, 1, 2, 0x82, 9, 99, 0, 0, 0, 0, 0, 0, 0, 0, 3}};
static const size_t lengths[4] = {31, 31, 31, 33};

int main(void) {
    static uint8_t store[RECORD_STORE], opened[RECORD_STORE], record[RECORD_LONGEST];
    uint64_t used = 0, wrong = 0;
    for (size_t v = 0; v < 4; v++) {
        used = record_store_put(4, diamond, sizeof diamond, store, sizeof store, v, programs[v], lengths[v]);
        printf("put %zu, of %zu bytes: %d used\n", v, lengths[v], (int)used);
    }
    if (RECORD_IS_REFUSED(used))
        return 1;
    memcpy(opened, store, used); /* A program would write the used bytes to a file and read them. */
    for (size_t v = 0; v < 4; v++) {
        uint64_t length = record_store_read(4, diamond, sizeof diamond, opened, sizeof opened, v, record, sizeof record);
        int same = length == lengths[v] && memcmp(record, programs[v], length) == 0;
        printf("read %zu: %s\n", v, same ? "as it was put" : "not as it was put");
        wrong += !same;
    }
    used = record_store_put(4, diamond, sizeof diamond, opened, sizeof opened, 3, programs[0], lengths[0]);
    printf("put 3 again: refused %d\n", RECORD_IS_REFUSED(used) ? RECORD_REFUSAL(used) : 0);
    return wrong != 0;
}
