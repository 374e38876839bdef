/* Makes calls on a thread with a stack of RECORD_STACK bytes, which has room for every call. The
 * thread gets the table of the house types and combines two lone nodes over it. The program
 * prints what examples/thread.stdout has. Make librecord_engine.a first, then build it with
 *
 *   cc -std=c11 -pthread -I include -o thread examples/thread.c crates/record_engine/out/librecord_engine.a
 */
#include "record_engine.h"
#include <pthread.h>
#include <stdio.h>

#if RECORD_VERSION < 1000
#error "this program needs record_engine.h of version 0.1.0 or later"
#endif

/* Two lone nodes. Their house types have the grades 1, 2, 3 and the grades 3, 0, 3. */
static const uint8_t first[] = {1, 16 * 1 + 4 * 2 + 3, 0, 0, 0, 0, 0, 0, 0, 0};
static const uint8_t second[] = {1, 16 * 3 + 4 * 0 + 3, 0, 0, 0, 0, 0, 0, 0, 0};

/* Combines the two nodes, prints the grades of the result, and writes the answer of the call to
 * where the argument points. */
static void *combine(void *answer) {
    uint8_t table[RECORD_HOUSE_TABLE], output[RECORD_LONGEST];
    uint64_t length = record_house_table(table, sizeof table);
    if (!RECORD_IS_REFUSED(length))
        length = record_unify(RECORD_HOUSE_TYPES, table, sizeof table, first, sizeof first,
                              second, sizeof second, output, sizeof output);
    if (!RECORD_IS_REFUSED(length))
        printf("grades %d, %d, %d\n", output[1] / 16, output[1] / 4 % 4, output[1] % 4);
    *(uint64_t *)answer = length;
    return NULL;
}

int main(void) {
    uint64_t answer;
    pthread_t thread;
    pthread_attr_t attributes;
    if (pthread_attr_init(&attributes) != 0 ||
        pthread_attr_setstacksize(&attributes, RECORD_STACK) != 0 ||
        pthread_create(&thread, &attributes, combine, &answer) != 0 || pthread_join(thread, NULL) != 0)
        return 1;
    if (RECORD_IS_REFUSED(answer)) {
        printf("refused %d: %s\n", RECORD_REFUSAL(answer), record_refusal_text(answer));
        return 1;
    }
    printf("record_engine %s: %d bytes\n", RECORD_VERSION_TEXT, (int)answer);
    return 0;
}
