/* Case 7 of document 01, over the diamond. The program tells the order of the records P and R,
 * makes their difference, and restores R from P and the difference. Then it shows a record that
 * is refused. It prints what examples/difference.stdout has. Make librecord_engine.a first, then
 * build the program with
 *
 *   cc -std=c11 -I include -o difference examples/difference.c crates/record_engine/out/librecord_engine.a
 */
#include "record_engine.h"
#include <stdio.h>
#include <string.h>

/* The diamond: types 1 and 2 lie between 0 and 3, and neither is below the other. Type 3 is
 * called top. */
static const uint8_t diamond[32] = {[0] = 0x01, [8] = 0x03, [16] = 0x05, [24] = 0x0F};

/* Two records of two nodes. The root has type 3, and its features 0 and 1 both lead to node 1.
 * Node 1 has type 3 in P and type 1 in R. */
static const uint8_t p[] = {2, 3, 3, 0, 0, 0, 0, 0, 0, 0, 1, 1, 3, 0, 0, 0, 0, 0, 0, 0, 0};
static const uint8_t r[] = {2, 3, 3, 0, 0, 0, 0, 0, 0, 0, 1, 1, 1, 0, 0, 0, 0, 0, 0, 0, 0};

/* Prints what a call answered: a length, an answer of the order, or a refusal with its number,
 * the record that it tells of, and its sentence. */
static void print_answer(const char *call, uint64_t answer) {
    static const char *const side[] = {"", " first", " second"};
    static const char *const order[] = {"same", "under", "above", "neither"};
    if (RECORD_IS_REFUSED(answer))
        printf("%s: refused %d%s: %s\n", call, RECORD_REFUSAL(answer), side[RECORD_SIDE(answer)],
               record_refusal_text(answer));
    else if (answer >= RECORD_SAME)
        printf("%s: %s\n", call, order[answer - RECORD_SAME]);
    else
        printf("%s: %d bytes\n", call, (int)answer);
}

int main(void) {
    uint8_t part[RECORD_LONGEST], whole[RECORD_LONGEST];

    print_answer("order of R and P", record_order(4, diamond, sizeof diamond, r, sizeof r, p, sizeof p));
    print_answer("order of P and R", record_order(4, diamond, sizeof diamond, p, sizeof p, r, sizeof r));

    uint64_t length = record_difference(4, diamond, sizeof diamond, p, sizeof p, r, sizeof r, part, sizeof part);
    print_answer("difference of P and R", length);
    if (RECORD_IS_REFUSED(length))
        return 1;
    for (size_t i = 0; i < length; i++)
        printf("%02x", part[i]);

    uint64_t restored = record_unify(4, diamond, sizeof diamond, p, sizeof p, part, length, whole, sizeof whole);
    int same = restored == sizeof r && memcmp(whole, r, sizeof r) == 0;
    printf(" %s\n", same ? "restores R" : "does not restore R");

    /* R without its last byte, as the second record. */
    uint64_t cut = record_generalize(4, diamond, sizeof diamond, p, sizeof p, r, sizeof r - 1, whole, sizeof whole);
    print_answer("common part of P and a cut R", cut);
    return same ? 0 : 1;
}
