/* The record engine for C. The static library librecord_engine.a has 23 calls: thirteen on type
 * tables and records, two on planning tables, four on a gathering, three on a store, and one
 * that writes the table of the house types. `rt lib`, run in crates/record_engine, writes the
 * library to out there. In the repository, docs/CALLS.md describes each call with examples, and
 * docs/FORMATS.md describes each byte. examples/order.c, examples/difference.c, examples/rows.c,
 * examples/table.c, examples/export.c and examples/thread.c are whole programs.
 *
 * A type table orders n types, 2 to 64, and has a row of 8 bytes for each type. In row i, bit
 * j % 8 of byte j / 8 is set exactly when type j is below type i or is type i. Bit 0 has the
 * value 1, and bits for j from n on are 0. Type 0 is the contradiction: it is below every other
 * type. Type n - 1 is top: it says nothing, and every other type is below it. The rows are an
 * order. Every two types have a meet, which is the greatest type below or equal to both, and a
 * join, which is the least type above or equal to both. For example, the diamond has n = 4: its
 * types 1 and 2 lie between 0 and 3, and neither is below the other. The first bytes of the
 * diamond's rows are 0x01, 0x03, 0x05 and 0x0F, and the other 28 bytes are 0.
 *
 * A record is a graph in bytes. Byte 0 is the number of nodes, 1 to 255. The nodes follow, from
 * node 0, the root, on. Each node has these parts:
 *    1 byte   the node's type, 1 to n - 1, in bits 0 to 6; bit 7 is set when a range follows
 *    2 bytes  only where bit 7 is set, the range: the lowest level and the highest level, 0 to
 *             255 each, the lowest not above the highest
 *    8 bytes  the node's features, 0 to 63: bit f % 8 of byte f / 8 is set when the node has
 *             feature f
 *    1 byte   for each feature of the node, lowest feature first: the target, which is the
 *             number of the node that the feature's link leads to
 * Nothing follows the last node. A node without bit 7 has the full range, 0 to 255, which says
 * nothing. There are at most 2,048 links, and links may share a target. No node reaches itself,
 * and the root reaches every node. Over the diamond,
 * {2, 3, 1, 0, 0, 0, 0, 0, 0, 0, 1, 1, 0, 0, 0, 0, 0, 0, 0, 0} is a root of type 3 whose
 * feature 0 leads to a node of type 1, and
 * {1, 0x83, 10, 200, 0, 0, 0, 0, 0, 0, 0, 0} is a lone node of type 3 with the levels 10
 * to 200.
 *
 * A record that is read may number the nodes but the root in any way, and may spell out a full
 * range. Every record that a call writes is a written record, which has one form for one
 * meaning. A written record numbers its nodes in the order in which they are first met from the
 * root. Links are followed lowest feature first, and all that lies below one link is numbered
 * before the next link of the same node is followed. A written record spells out no full range.
 *
 * A list of types for features says in 64 bytes which nodes may have which features. Byte f is
 * the broadest type, 0 to n - 1, that may have feature f: a node may have the feature when its
 * type is below or equal to byte f. So 0 forbids the feature, and n - 1 allows it to all nodes.
 * Another name of the list is appropriateness list, and the calls that take one are called
 * `.._appropriate`. The common part and the combination of records that obey a list obey the
 * list too. A difference need not obey the list: combine a difference with `record_unify`. The
 * result is the specific record, so it obeys the list if the specific record does.
 *
 * A reading order is a list of all 64 features, each once, in 64 bytes. The feature that is read
 * first stands first. Where several links say the same, a difference keeps the least of them.
 * Without a reading order, links are ordered by the number of the node that they leave, as in
 * the written specific record, then by feature. With a reading order, links are ordered by the
 * place of their feature in it, then by the number of the node that they leave. The numbers of
 * nodes in written records do not follow the reading order.
 *
 * The listed records over a table and a number F of features, 1 or 2, are the written records
 * that have at most 3 nodes, no range, and only features below F. Of two listed records, the one
 * with the lesser byte where they first differ comes first. Every graph with so few nodes and
 * features, and without a range, is the meaning of exactly one listed record. With k types
 * besides type 0, there are k + k * k + k * k * k listed records for F = 1, and
 * k + 3 * k * k + 16 * k * k * k for F = 2.
 *
 * A planning table is a graph as the planning tool holds it, in rows and node bytes. A row is one
 * link: its parent, which is the number of the node that the link leaves, its feature, 0 to 63,
 * and its target, which is the number of the node that the link leads to. No two rows have one
 * parent and feature, and there are at most 2,048 rows. The node bytes are three for each node,
 * from node 0, the root, on:
 *    1 byte   the node's type, 1 to n - 1, without bit 7
 *    1 byte   its lowest level
 *    1 byte   its highest level, not below the lowest; 0 and 255 are the full range
 * The number of nodes, 1 to 255, is the number of node bytes divided by 3. As in a record, no
 * node reaches itself, and the root reaches every node. Rows may stand in any order, and the
 * nodes but the root may have any numbers. For example, the rows {0, 9, 1}, {0, 0, 2} and
 * {1, 0, 2} with the node bytes {3, 0, 255, 3, 0, 255, 1, 10, 200} are a graph of three nodes:
 * feature 9 of the root leads to node 1, and feature 0 of the root and feature 0 of node 1 lead
 * to node 2, which has type 1 and the levels 10 to 200.
 *
 * A gathering keeps a type table and the common part of the records that were added so far. The
 * gathering is a buffer that the caller lends:
 *    1 byte       n
 *    8 * n bytes  the table
 *    2 bytes      the length of the common part, low byte first; 0 before the first addition
 *    the rest     the common part, a written record, and then room; the two have at least
 *                 RECORD_LONGEST bytes together, so that an addition never lacks room
 * The room may hold anything. Whatever calls are made on a gathering, its bytes are those that
 * the accepted additions alone give, in their order. The common part is the least graph above
 * all accepted records. Where the same records are all accepted in another order, the common
 * part is the same record.
 * A call refuses bytes that hold no gathering by the first fault that it finds: by 1 to 3 for
 * the table, with 1 where the bytes end before the table does; then by 4 to 7 of the record, as
 * the first, if the call takes a record; then by 4 to 7 of the common part, as the second. A
 * missing byte of the length counts as 0. A common part that is cut off ends where the bytes
 * end. After these checks, an addition is refused by 8 where the common part has no room.
 *
 * A store keeps up to 16 versions of a program over one type table. A program is a record, and a
 * version is its number, 0 to 15. The store holds the common part of all programs once, and for
 * each program its difference from the common part. The store is a buffer of 2 to RECORD_STORE
 * bytes that the caller lends:
 *    2 bytes   the map, low byte first: bit v is set when version v exists, v being 0 to 15
 *    and where some version exists
 *    2 bytes   the length of the common part, low byte first
 *    as many   the common part, a written record
 *    and for each version that exists, lowest first
 *    2 bytes   the length of its difference from the common part, low byte first
 *    as many   that difference, a written record
 * The bytes behind these used bytes may hold anything. An empty store is two zero bytes. A put
 * stores a record under a version that is absent, a read gives the written record of what was
 * put, and a drop removes a version. Two versions read as equal bytes exactly when the records
 * that were put mean the same: no program opens as another.
 * The way of some programs begins with an empty store and puts the programs in the order of
 * their versions. Each step of the way stores the common part of the programs so far, and the
 * difference of each of them from that common part. A step is refused by 11 where the common
 * part is too large, then by 13 where a program has no difference from it, then by 21 where the
 * buffer has fewer bytes than the step takes. A buffer holds a store exactly when there are
 * programs whose way, in a buffer of this length, ends in the buffer's first bytes. There is at
 * most one such list of programs, and every call goes its way to find the programs. A put or a
 * drop then goes the way of the programs that are to be in the store after it.
 * So, with one table and with nobody else writing the bytes, the used bytes depend only on the
 * programs and their versions, whichever calls were made. A way may take more bytes than its end
 * uses: put saved bytes back at the beginning of a buffer that is as long as the old one or
 * longer. A drop may be refused, and fewer programs may need more room, for their common part
 * may be larger. Bytes that somebody else changed may hold other programs or other versions.
 *
 * A table, a record, a list, a gathering, a store or an output is handed in as a pointer to its
 * first byte and a length. Rows are handed in as a pointer to the first row and the number of
 * rows. A pointer is never null, not even where the length is 0. An output overlaps nothing else
 * that is handed in; nor does a gathering that is begun or added to, or a store that is put into
 * or dropped from. The calls keep no pointer, share no state and may run side by side.
 *
 * The comment of a call ends with the stack that the call takes, as measured on the largest
 * records, with 4 KiB to spare and rounded up. A thread that makes calls needs RECORD_STACK
 * bytes of stack. Nothing tests for room: a call on a smaller stack may overrun it.
 *
 * A call that writes a record answers the record's length, which is at most RECORD_LONGEST. The
 * first bytes of the output are then the record, and its other bytes are unchanged. A refusal
 * changes no byte and no row of an output, and no byte of a gathering or a store; nor does the
 * end of a listing. Refusals have the numbers of documents 01 and 02:
 *
 *    1  n is not 2 to 64, or the table's length is not 8 times n
 *    2  the table has a bit at n or above, is no order, or 0 is not its least type, or n - 1 is
 *       not its greatest type
 *    3  two types have no meet or no join
 *    4  a record has no nodes, ends early, has bytes left over, or has more than 2,048 links; a
 *       planning table has a number of node bytes that is not divisible by 3, has no nodes,
 *       more than 255 nodes, or more than 2,048 rows; a buffer holds no store, or has fewer
 *       than 2 or more than 16,384 bytes
 *    5  a type is 0 or at least n, a target is no node, or a lowest level is above the highest;
 *       in a planning table a type has bit 7, while a target that is no node gives 14
 *    6  a node reaches itself
 *    7  the root does not reach a node
 *    8  the result exists and the output is shorter
 *    9  combination: a class of shared paths reaches itself
 *   10  combination: a class of shared paths has no type or no level in common, and no class
 *       reaches itself
 *   11  the result, or a store's common part at a step of the way, has more than 255 nodes or
 *       2,048 links
 *   12  difference: the second record is not below the first
 *   13  difference: a node of the second record has no wanted type: there is no greatest type
 *       whose meet with the first record's types over the node is the node's own type; store: a
 *       program on the way has no difference from the common part for that reason
 *   14  planning table: a row has a feature above 63, or a parent or a target that is no node
 *   15  planning table: two rows have one parent and feature
 *   16  gathering: an order or a finish comes before the first addition
 *   17  the list of types for features has not 64 bytes, or has an entry of n or more
 *   18  a record has a link that the list of types for features forbids
 *   19  the reading order is not a list of all 64 features, each once
 *   20  store: the version is above 15, or absent for a read or a drop, or present for a put
 *   21  store: the buffer has fewer bytes than a step of the way takes
 *   22  difference with reasons: it has more links than bytes are lent for the reasons
 *   23  listing: the number of features is not 1 or 2
 *   24  listing: the record is accepted but not listed
 *
 * A call makes its checks in this order: 1, 2 and 3 of the type table; 17 or 19 of the list; 4
 * to 7 and then 18 of the first record, or 4, 14, 15, 5, 6 and 7 of a planning table, or 4 of a
 * store; 4 to 7 and then 18 of the second record; then 16, 12, 13, 9, 10, 11, 23, 24, 8 and 22.
 * The first check that fails gives the answer. Each check is made on the whole table or record
 * before the next one. A call on a store checks 20 after the second record's 7. A put or a drop
 * then checks 11, 13 and 21 at each step of the way, and a read checks 8.
 */
#ifndef RECORD_ENGINE_H
#define RECORD_ENGINE_H

#include <stddef.h>
#include <stdint.h>

#ifdef __cplusplus
extern "C" {
#endif

/* The version of this header and of its library, as a number and as a text. The version a.b.c
 * has the number 1,000,000 * a + 1,000 * b + c. */
#define RECORD_VERSION 1000
#define RECORD_VERSION_TEXT "0.1.0"

/* A stack of this many bytes has room for every call. */
#define RECORD_STACK 393216

/* The length of the longest record. An output of this many bytes always has room for a record. */
#define RECORD_LONGEST 4854

/* This many bytes are enough for a gathering over every table. A gathering over a table of n
 * types needs 1 + 8 * n + 2 + RECORD_LONGEST bytes. */
#define RECORD_GATHERING (1 + 8 * 64 + 2 + RECORD_LONGEST)

/* The most bytes that a store has, and the most versions that it keeps. */
#define RECORD_STORE 16384
#define RECORD_VERSIONS 16

/* The number of features, which is also the length of a list of types for features and of a
 * reading order. */
#define RECORD_FEATURES 64

/* The most links that a record has. This many bytes are always enough for the reasons of
 * `record_difference_explained`, and this many rows for `record_export`. */
#define RECORD_MOST_LINKS 2048

/* The most nodes that a record has. Three times this many bytes are always enough for the node
 * bytes of `record_export`. */
#define RECORD_MOST_NODES 255

/* The number of the house types, and the length of their table. */
#define RECORD_HOUSE_TYPES 64
#define RECORD_HOUSE_TABLE 512

/* The answers of `record_order`. RECORD_SAME: each record is below the other, so they mean the
 * same. RECORD_UNDER: only the first is below the second. RECORD_ABOVE: only the second is below
 * the first. RECORD_NEITHER: neither is below the other. */
#define RECORD_SAME (UINT64_C(1) << 33)
#define RECORD_UNDER (RECORD_SAME + 1)
#define RECORD_ABOVE (RECORD_SAME + 2)
#define RECORD_NEITHER (RECORD_SAME + 3)

/* The answer of `record_next` at the end of a listing: no record follows the one that was
 * handed in. */
#define RECORD_END (RECORD_SAME + 4)

/* An output of this many bytes always has room for `record_next`. */
#define RECORD_LONGEST_LISTED 32

/* Whether an answer is the counts of `record_export`; the number of nodes that it filled, 1 to
 * RECORD_MOST_NODES; and the number of rows that it filled, at most RECORD_MOST_LINKS. */
#define RECORD_IS_COUNTS(answer) ((answer) >> 34 == 1)
#define RECORD_NODES(answer) ((int)((answer) >> 16 & 65535))
#define RECORD_ROWS(answer) ((int)((answer) & 65535))

/* Why a difference keeps a link: the first of these three reasons that holds.
 *    RECORD_REASON_BARE    nothing of the general record lies over the link
 *    RECORD_REASON_GROUPS  the links that enter its node in the specific record are in two or
 *                          more groups
 *    RECORD_REASON_WANTED  its node has a type or a range that the general record does not give,
 *                          or a link that leaves its node is kept
 * A link of the general record lies over a link of the specific record when some path of the
 * general record ends with the former, and the same path of the specific record ends with the
 * latter. Two links are in one group when links of the general record that enter one node lie
 * over them, or when both are in one group with a third link. */
#define RECORD_REASON_BARE 1
#define RECORD_REASON_GROUPS 2
#define RECORD_REASON_WANTED 3

/* Whether an answer is a refusal; the number of the refusal; and the record that it tells of: 1
 * for the first and 2 for the second in a refusal by 4 to 7 or 18, and 0 in every other. */
#define RECORD_IS_REFUSED(answer) ((answer) >> 32 == 1)
#define RECORD_REFUSAL(answer) ((int)((answer) & 255))
#define RECORD_SIDE(answer) ((int)((answer) >> 8 & 255))

/* C89 has no keyword `inline`. */
#if defined(__cplusplus) || (defined(__STDC_VERSION__) && __STDC_VERSION__ >= 199901L)
#define RECORD_INLINE static inline
#elif defined(__GNUC__)
#define RECORD_INLINE static __inline__
#else
#define RECORD_INLINE static
#endif

/* The sentence of a refusal. The sentence tells neither the number nor the record. An answer
 * that is no refusal gives "no refusal". For example:
 *
 *    if (RECORD_IS_REFUSED(answer))
 *        printf("refused %d: %s\n", RECORD_REFUSAL(answer), record_refusal_text(answer));
 */
RECORD_INLINE const char *record_refusal_text(uint64_t answer) {
    if (!RECORD_IS_REFUSED(answer))
        return "no refusal";
    switch (answer & 255) {
    case 1: return "the table's size does not fit its types";
    case 2: return "the table is not an order of its types";
    case 3: return "two types have no meet or no join";
    case 4: return "the record is malformed";
    case 5: return "a type or a target is out of range, or a lowest level is above the highest";
    case 6: return "a node reaches itself";
    case 7: return "the root does not reach a node";
    case 8: return "the output is shorter than the result";
    case 9: return "a class of shared paths reaches itself";
    case 10: return "a class of shared paths has no type or no level in common";
    case 11: return "the result has more than 255 nodes or 2,048 links";
    case 12: return "the second record is not below the first";
    case 13: return "a node of the second record has no wanted type";
    case 14: return "a row's feature is above 63 or a node number is out of range";
    case 15: return "two rows have one parent and feature";
    case 16: return "nothing has been added to the gathering";
    case 17: return "the list has not one type for each of the 64 features";
    case 18: return "a node has a feature that the list does not allow its type";
    case 19: return "the list has not each of the 64 features once";
    case 20: return "the version is above 15, or absent, or present already";
    case 21: return "the store has too few bytes";
    case 22: return "fewer bytes are lent for reasons than there are links";
    case 23: return "the number of features is not 1 or 2";
    case 24: return "the record is not one of those listed";
    default: return "a refusal that this header does not know";
    }
}

#undef RECORD_INLINE

/* Tells whether a type table is accepted. No call over an accepted table is refused by 1 to 3.
 * Answers 0, or refuses by 1 to 3. Takes 8 KiB of stack. */
uint64_t record_check_table(size_t n, const uint8_t *table, size_t table_length);

/* Writes the written record of a record. Two records give equal bytes exactly when they mean
 * the same. Answers the length, or refuses by 1 to 8; the record counts as the first. Takes 28
 * KiB of stack. */
uint64_t record_rewrite(size_t n, const uint8_t *table, size_t table_length,
                        const uint8_t *record, size_t record_length,
                        uint8_t *output, size_t output_length);

/* Tells which of two records is the broader. A path is a list of features, followed from the
 * root. Two paths share when they lead to one node. A record s is below a record g when every
 * path of g is a path of s, its type in s is below or equal to its type in g, its range in s
 * lies inside its range in g, and paths that share in g share in s. Answers RECORD_SAME,
 * RECORD_UNDER, RECORD_ABOVE or RECORD_NEITHER, or refuses by 1 to 7. Takes 20 KiB of stack. */
uint64_t record_order(size_t n, const uint8_t *table, size_t table_length,
                      const uint8_t *first, size_t first_length,
                      const uint8_t *second, size_t second_length);

/* Writes the common part of two records, which is the least graph above both. The common part
 * has the paths that both records have. A path has the join of its two types and the smallest
 * range that holds both its ranges. Two paths share in the common part exactly when they share
 * in both records. Answers the length, or refuses by 1 to 7, 11 and 8. Takes 108 KiB of stack. */
uint64_t record_generalize(size_t n, const uint8_t *table, size_t table_length,
                           const uint8_t *first, size_t first_length,
                           const uint8_t *second, size_t second_length,
                           uint8_t *output, size_t output_length);

/* Writes the combination of two records, which is the greatest graph below both. Paths that
 * share in one of the records share in the combination, and so do their continuations by equal
 * features. The paths that share form a class. A class has the meet of all its types and the
 * overlap of all its ranges. Answers the length, or refuses by 1 to 7, by 9 or 10 where no graph
 * is below both, then by 11 and 8. Takes 136 KiB of stack. */
uint64_t record_unify(size_t n, const uint8_t *table, size_t table_length,
                      const uint8_t *first, size_t first_length,
                      const uint8_t *second, size_t second_length,
                      uint8_t *output, size_t output_length);

/* Writes the difference of a general record, the first, and a specific record below it, the
 * second. The combination of the general record and the difference is the written specific
 * record, byte for byte. No graph strictly above the difference gives the specific record.
 * Answers the length, or refuses by 1 to 7, 12, 13 and 8. Takes 52 KiB of stack. */
uint64_t record_difference(size_t n, const uint8_t *table, size_t table_length,
                           const uint8_t *general, size_t general_length,
                           const uint8_t *specific, size_t specific_length,
                           uint8_t *output, size_t output_length);

/* Does the same as `record_rewrite`, for a record that obeys a list of types for features.
 * Answers the length, or refuses by 1 to 3, by 17, by 4 to 7 and 18, then by 8; the record
 * counts as the first. Takes 28 KiB of stack. */
uint64_t record_rewrite_appropriate(size_t n, const uint8_t *table, size_t table_length,
                                    const uint8_t *list, size_t list_length,
                                    const uint8_t *record, size_t record_length,
                                    uint8_t *output, size_t output_length);

/* Does the same as `record_generalize`, for two records that obey a list of types for features.
 * The common part obeys the list too. Answers the length, or refuses by 1 to 3, by 17, by the
 * first record's 4 to 7 and 18, by the second record's, then by 11 and 8. Takes 108 KiB of
 * stack. */
uint64_t record_generalize_appropriate(size_t n, const uint8_t *table, size_t table_length,
                                       const uint8_t *list, size_t list_length,
                                       const uint8_t *first, size_t first_length,
                                       const uint8_t *second, size_t second_length,
                                       uint8_t *output, size_t output_length);

/* Does the same as `record_unify`, for two records that obey a list of types for features. The
 * combination obeys the list too. Answers the length, or refuses by 1 to 3, by 17, by the first
 * record's 4 to 7 and 18, by the second record's, then by 9, 10, 11 and 8. Takes 136 KiB of
 * stack. */
uint64_t record_unify_appropriate(size_t n, const uint8_t *table, size_t table_length,
                                  const uint8_t *list, size_t list_length,
                                  const uint8_t *first, size_t first_length,
                                  const uint8_t *second, size_t second_length,
                                  uint8_t *output, size_t output_length);

/* Writes the difference as `record_difference` does, and a reason for each of its links into a
 * second output. A reason is one byte: RECORD_REASON_BARE, RECORD_REASON_GROUPS or
 * RECORD_REASON_WANTED. The reasons stand in the order of the links in the written difference:
 * node by node, and for each node by feature. The bytes behind the last reason are unchanged.
 * Answers the record's length, or refuses by 1 to 7, 12, 13, 8 and 22. Takes 52 KiB of stack. */
uint64_t record_difference_explained(size_t n, const uint8_t *table, size_t table_length,
                                     const uint8_t *general, size_t general_length,
                                     const uint8_t *specific, size_t specific_length,
                                     uint8_t *output, size_t output_length,
                                     uint8_t *reasons, size_t reasons_length);

/* Writes the difference as `record_difference` does, but orders the links by a reading order,
 * which is the list. Whichever reading order is given, the difference restores the specific
 * record, and no graph strictly above the difference does. Answers the length, or refuses by 1
 * to 3, by 19, by 4 to 7, then by 12, 13 and 8. Takes 52 KiB of stack. */
uint64_t record_difference_by(size_t n, const uint8_t *table, size_t table_length,
                              const uint8_t *list, size_t list_length,
                              const uint8_t *general, size_t general_length,
                              const uint8_t *specific, size_t specific_length,
                              uint8_t *output, size_t output_length);

/* Writes the difference as `record_difference_by` does, and its reasons as
 * `record_difference_explained` does. Answers the record's length, or refuses by 1 to 3,
 * by 19, by 4 to 7, then by 12, 13, 8 and 22. Takes 52 KiB of stack. */
uint64_t record_difference_explained_by(size_t n, const uint8_t *table, size_t table_length,
                                        const uint8_t *list, size_t list_length,
                                        const uint8_t *general, size_t general_length,
                                        const uint8_t *specific, size_t specific_length,
                                        uint8_t *output, size_t output_length,
                                        uint8_t *reasons, size_t reasons_length);

/* Writes the listed record that follows the one that is handed in, over a table and a number of
 * features, 1 or 2. A record of length 0 asks for the first listed record. To go through all
 * listed records, each once, hand in at each call the record that the last call wrote. The
 * number of listed records does not slow a call down. Answers the length, or RECORD_END where
 * the record is the last one; or refuses by 1 to 3, by 4 to 7 unless the record has no bytes,
 * then by 23, by 24 where the record is accepted but not listed, and by 8. The record counts as
 * the first. Takes 12 KiB of stack. */
uint64_t record_next(size_t n, const uint8_t *table, size_t table_length,
                     size_t features,
                     const uint8_t *record, size_t record_length,
                     uint8_t *output, size_t output_length);

/* A row of a planning table: one link. */
typedef struct { uint8_t parent, feature, target; } record_row;

/* Writes the written record of a planning table. Two planning tables give equal bytes exactly
 * when they mean the same, whatever the order of their rows. Answers the length, or refuses by 1
 * to 3, by 4, by 14, by 15, by 5, 6 and 7, then by 8; the planning table counts as the first
 * record. Takes 60 KiB of stack. */
uint64_t record_import(size_t n, const uint8_t *table, size_t table_length,
                       const record_row *rows, size_t row_count,
                       const uint8_t *nodes, size_t nodes_length,
                       uint8_t *output, size_t output_length);

/* Fills a planning table from a record. The nodes have the numbers of the written record, and
 * the rows are sorted by parent, then by feature. The rows and node bytes behind those that are
 * filled are unchanged. Importing what was exported gives the written record. Exporting what was
 * imported gives the rows sorted, with the numbers of the written record. Answers the counts of
 * nodes and rows, or refuses by 1 to 7, then by 8 where the rows are fewer than the links or the
 * node bytes fewer than three for each node. The record counts as the first. Takes 36 KiB of
 * stack. */
uint64_t record_export(size_t n, const uint8_t *table, size_t table_length,
                       const uint8_t *record, size_t record_length,
                       record_row *rows, size_t row_count,
                       uint8_t *nodes, size_t nodes_length);

/* Begins a gathering over a table, with nothing added yet. Answers how many bytes the gathering
 * uses so far, 3 + 8 * n, or refuses by 1 to 3, then by 8; the caller lends at least
 * 1 + 8 * n + 2 + RECORD_LONGEST bytes. The other bytes are unchanged. Takes 8 KiB of stack. */
uint64_t record_gathering_begin(size_t n, const uint8_t *table, size_t table_length,
                                uint8_t *gathering, size_t gathering_length);

/* Adds a record to a gathering. Answers the length of the new common part, or refuses by 4 to 7
 * of the record, which counts as the first, then by 11; by nothing else if the bytes hold a
 * gathering. A refused addition changes no byte. Takes 108 KiB of stack. */
uint64_t record_gathering_add(uint8_t *gathering, size_t gathering_length,
                              const uint8_t *record, size_t record_length);

/* Tells the order of a record, as the first, and of the common part so far, as the second.
 * Answers as `record_order` does, or refuses by 4 to 7 of the record, then by 16. Takes 28 KiB
 * of stack. */
uint64_t record_gathering_order(const uint8_t *gathering, size_t gathering_length,
                                const uint8_t *record, size_t record_length);

/* Writes the common part so far. The gathering stays open. Answers the length, or refuses
 * by 16, then by 8. Takes 28 KiB of stack. */
uint64_t record_gathering_finish(const uint8_t *gathering, size_t gathering_length,
                                 uint8_t *output, size_t output_length);

/* Puts a record into a store under a version, 0 to 15, that is absent. Answers how many bytes the
 * store uses. The bytes behind them are unchanged. Refuses by 1 to 3, by 4 of the store, as the
 * first, where the bytes hold no store, by 4 to 7 of the record, which counts as the second, by
 * 20 for the version, then by the first of 11, 13 and 21 on the way of all programs, the new one
 * included. If the version is above all present ones, the call adds one step to the way that it
 * went to find the programs, and does not go the way again. Takes 252 KiB of stack. */
uint64_t record_store_put(size_t n, const uint8_t *table, size_t table_length,
                          uint8_t *store, size_t store_length,
                          size_t version,
                          const uint8_t *record, size_t record_length);

/* Writes the written record of what was put under a version. Answers the record's length, or
 * refuses by 1 to 3, by 4 of the store, as the first, where the bytes hold no store, by 20 for
 * the version, then by 8. Takes 240 KiB of stack. */
uint64_t record_store_read(size_t n, const uint8_t *table, size_t table_length,
                           const uint8_t *store, size_t store_length,
                           size_t version,
                           uint8_t *output, size_t output_length);

/* Removes a version from a store. Answers how many bytes the store uses then. The bytes behind
 * them are unchanged. Refuses by 1 to 3, by 4 of the store, as the first, where the bytes hold no
 * store, by 20 for the version, then by the first of 11, 13 and 21 on the way of the other
 * programs. Takes 240 KiB of stack. */
uint64_t record_store_drop(size_t n, const uint8_t *table, size_t table_length,
                           uint8_t *store, size_t store_length,
                           size_t version);

/* Writes the type table of the house types, for n = RECORD_HOUSE_TYPES, into the first
 * RECORD_HOUSE_TABLE bytes of the output. The other bytes are unchanged. A house type has three
 * grades of 0 to 3. Its number is 16 * first + 4 * second + third. A house type is below another
 * when each of its grades is at most the other's, and a grade of 3 says nothing. Answers
 * RECORD_HOUSE_TABLE, or refuses by 8. Takes 8 KiB of stack. */
uint64_t record_house_table(uint8_t *output, size_t output_length);

#ifdef __cplusplus
}
#endif

#endif
