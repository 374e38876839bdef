/* Checks four type tables and prints the sentence of each refusal. The program prints what
 * examples/table.stdout has. Make librecord_engine.a first, then build the program with
 *
 *   cc -std=c11 -I include -o table examples/table.c crates/record_engine/out/librecord_engine.a
 */
#include "record_engine.h"
#include <stdio.h>

/* The diamond: types 1 and 2 lie between 0 and 3, and neither is below the other. */
static const uint8_t diamond[32] = {[0] = 0x01, [8] = 0x03, [16] = 0x05, [24] = 0x0F};

/* The diamond without bit 0 of row 2, so that 0 is not below 2. */
static const uint8_t no_least[32] = {[0] = 0x01, [8] = 0x03, [16] = 0x04, [24] = 0x0F};

/* Six types: 1 and 2 are both below 3 and below 4, and neither of these is the least type
 * above both. */
static const uint8_t no_join[48] = {[0] = 0x01,  [8] = 0x03,  [16] = 0x05,
                                    [24] = 0x0F, [32] = 0x17, [40] = 0x3F};

/* Prints what checking a table of n types answers. */
static void print_check(const char *name, size_t n, const uint8_t *table, size_t table_length) {
    uint64_t answer = record_check_table(n, table, table_length);
    if (RECORD_IS_REFUSED(answer))
        printf("%s: refused %d: %s\n", name, RECORD_REFUSAL(answer), record_refusal_text(answer));
    else
        printf("%s: accepted\n", name);
}

int main(void) {
    print_check("the diamond", 4, diamond, sizeof diamond);
    print_check("the diamond without its last row", 4, diamond, 24);
    print_check("a table in which 0 is not the least", 4, no_least, sizeof no_least);
    print_check("a table with two types that have no join", 6, no_join, sizeof no_join);
    return 0;
}
