/* Tells whether a program says all that a template says. Prints what examples/order.stdout has. */
#include "record_engine.h"
#include <stdio.h>

int main(void) {
    /* Four types: 0 below all, 1 and 2 beside each other, 3 above all. */
    const uint8_t table[32] = {[0] = 0x01, [8] = 0x03, [16] = 0x05, [24] = 0x0F};
    const uint8_t template[10] = {1, 3};                         /* a root of type 3 */
    const uint8_t program[20] = {2, 3, [2] = 1, [10] = 1, 1};    /* its feature 0 leads to a node of type 1 */
    if (record_order(4, table, 32, program, 20, template, 10) == RECORD_UNDER)
        puts("the program says all that the template says");
}
