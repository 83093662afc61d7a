/* Vuyekhang: a planning engine for the ports of a cabinet, proved in Rattle. Version 0.6: read, write, load, a node's cells, move,
 * trial, improve, undo, the list of best moves, and a port's test begun and ended.
 *
 * Link target/staticlib/libvuyekhang.a, which `.ci/archive` writes (x86-64, Linux). Each function is proved to meet its
 * contract in crates/vuyekhang/src/lib.rt for every value of its arguments; none keeps anything between two calls. A caller
 * owes what C asks of pointers: each points to so many elements as its length says (also where that is 0: not null), and a
 * table that is written is no part of another argument's table.
 *
 * An answer's number is 0 where the call is accepted, else the ground for refusal, with all other fields 0. A refused call
 * writes nothing. Nothing past a plan's own bytes, masks or cells is ever read or written. A plan's own masks are one for each set
 * and, after these, that of the ports in test. No call takes more than 311 KiB of stack, whatever it is given (measured:
 * docs/PERFORMANCE.md, Stack).
 *
 * Grounds: 1 text over 4,096 bytes; 2 a byte of no token, space or line end; 3 outside the grammar; 4 more than 64 of `(`, `~` and
 * quantifiers around one token; 5 set undeclared, declared twice or a seventeenth, variable unbound or bound again within its
 * reach; 6 constant above 64; 7 a fourth enclosing quantifier; 8 core over 512 nodes; 9 more than 1,048,576 cells; 10 u outside
 * 1 to 64; 11 plan table breaks a rule or is cut short; 12 cell, scratch, mask or output table too short, or a record count past
 * the journal's length or past 1,024; 13 a mask with a port of u or more; 14 unknown kind, set, port or kinds sum, or an unused
 * field not 0; 15 illegal move; 16 the list of moves too short; 17 the written text would meet 1 or 4; 18 the journal is full;
 * 19 undo on an empty journal; 20 the port is already in test, or already not in test. */
#ifndef VUYEKHANG_H
#define VUYEKHANG_H

#include <stddef.h>
#include <stdint.h>

#define VK_VERSION "0.6"

#ifdef __cplusplus
extern "C" {
#endif

/* Every plan table fits this many bytes: 9 and 8 for each of at most 512 nodes. */
#define VK_MOST_TABLE 4105

/* No text is longer than this many bytes, so that a text table of so many never meets 12. */
#define VK_MOST_TEXT 4096

/* No plan ever has more legal moves than this, so that a list of so many records never meets 16. */
#define VK_MOST_MOVES 21504

/* A journal is full at this many records, however long it is. */
#define VK_MOST_RECORDS 1024

/* Number, node count, cell total. */
typedef struct {
    uint32_t number, nodes, cells;
} vk_read_answer;

/* Reads a plan text over u ports and writes its plan table, 9 + 8 * nodes bytes. Tries ground 10, then 1 to 9, each over the whole
 * text, then 12 (the table is shorter than the plan's). */
vk_read_answer vk_read(uint64_t u, const uint8_t *text, size_t text_len, uint8_t *table, size_t table_len);

/* Number; how many: bytes of a text that was written, moves that were listed. */
typedef struct {
    uint32_t number, count;
} vk_count_answer;

/* Writes a plan table as text and answers the text's length in bytes; no 0 ends it. Sets are named from A, all of them declared,
 * variables a, b, c by number; one space stands round `&`, `|` and relations, after a quantifier's variable and after `]`; brackets
 * only where the grammar needs them. vk_read of this text with the table's own u gives the table's own bytes. Tries 11, then 17 (the
 * text is over 4,096 bytes, or has more than 64 of `(` and quantifiers around one token), then 12 (the text table is shorter than the
 * text). The text table's bytes past the text are kept. */
vk_count_answer vk_write(const uint8_t *table, size_t table_len, uint8_t *text, size_t text_len);

/* Number, the root's penalty (0 exactly when the plan is true), cell total. */
typedef struct {
    uint32_t number, root, cells;
} vk_load_answer;

/* Checks a plan table and the masks (bit p of mask s set: port p is in set s), and writes every cell of the plan: its penalty. One
 * mask more, after those of the sets, has the bit of each port in test: the size of a set is the number of its members that are not
 * in test; membership does not look at it. Tries 11, then 12 (fewer masks than one more than the sets, or fewer cells than the plan's
 * total), then 13, of the mask in test too. */
vk_load_answer vk_load(const uint8_t *table, size_t table_len, const uint64_t *masks, size_t masks_len, uint32_t *cells,
                       size_t cells_len);

/* A part of the caller's cell table: cells[first] to cells[first + count - 1]. */
typedef struct {
    size_t first, count;
} vk_part;

/* Where a node's cells stand in the caller's cell table, in rising order of their tuples, the outermost variable counting most.
 * Writes nothing and is never refused: {0, 0} where the table is broken (11), the cell table is shorter than the plan's total (12),
 * or there is no such node. */
vk_part vk_node_cells(const uint8_t *table, size_t table_len, const uint32_t *cells, size_t cells_len, size_t node);

/* A move: kind 1 adds port p to set s, 2 drops it, 3 moves it from set s to set t, 4 puts port q in place of p in set s. A field
 * that its kind does not use is 0. Moves are ordered by kind, s, t, p, q, smaller first. */
typedef struct {
    uint32_t kind, s, t, p, q;
} vk_move_record;

#define VK_ADD 1
#define VK_DROP 2
#define VK_TRANSFER 3
#define VK_SWAP 4

/* Number, root before, root after, how many cells differ from before. */
typedef struct {
    uint32_t number, before, after, changed;
} vk_move_answer;

/* Makes a move: writes its masks and the touched cells in place, and the move into the journal. The first *journal_count records are
 * the moves that were made and not taken back, the newest last: the caller begins with 0 and lends both on to every call. The move
 * is written at the old count, the count is then one more, and every other record stays. Tries 11, then 12 (fewer masks or cells
 * than vk_load asks for, or a count past journal_len, in records, or past 1,024), then 13, 14, 15, then 18 (the count is journal_len
 * or 1,024). The cells are taken as they are: after a vk_load and nothing but these calls each is its penalty. */
vk_move_answer vk_move(const uint8_t *table, size_t table_len, uint64_t *masks, size_t masks_len, uint32_t *cells,
                       size_t cells_len, vk_move_record *journal, size_t journal_len, size_t *journal_count, vk_move_record move);

/* Takes the newest move of the journal back: makes its opposite (drop for add, add for drop; a transfer from t to s; a swap with p
 * and q exchanged), answers as vk_move would for that, and lowers the count by one. No record is written. Tries 11 to 13 as vk_move
 * does, then 19 (the count is 0), then 14 (of the record) and 15 (of its opposite). After a vk_load and nothing but these calls,
 * the sets are those before the move; ports in test stay in test, and each cell is its penalty with these. */
vk_move_answer vk_undo(const uint8_t *table, size_t table_len, uint64_t *masks, size_t masks_len, uint32_t *cells,
                       size_t cells_len, const vk_move_record *journal, size_t journal_len, size_t *journal_count);

/* Puts a port in test: it keeps its place in every set and counts in no size. Writes its bit of the mask after those of the sets, and
 * the touched cells as vk_move does: those of the size literals of every set that holds the port, and of the nodes above them. It
 * goes into no journal, and vk_undo does not take it back. Tries 11 to 13 as vk_load does, then 14 (a port of u or more), then 20 (the
 * port is in test). */
vk_move_answer vk_test_begin(const uint8_t *table, size_t table_len, uint64_t *masks, size_t masks_len, uint32_t *cells,
                             size_t cells_len, uint32_t port);

/* Takes a port out of test: it counts again in the size of every set that holds it. Writes, answers and tries as vk_test_begin does;
 * 20 where the port is not in test. */
vk_move_answer vk_test_end(const uint8_t *table, size_t table_len, uint64_t *masks, size_t masks_len, uint32_t *cells,
                           size_t cells_len, uint32_t port);

/* What vk_move would answer with room in its journal, with masks and cells kept. Scratch has as many cells as the plan or more (else
 * 12); what an accepted call leaves in so many of them is not said. */
vk_move_answer vk_trial(const uint8_t *table, size_t table_len, const uint64_t *masks, size_t masks_len, const uint32_t *cells,
                        size_t cells_len, uint32_t *scratch, size_t scratch_len, vk_move_record move);

/* Number; found 1 and the move that was made with its three numbers; or found 0: no better move, before and after both the root,
 * changed 0, the move all 0. */
typedef struct {
    uint32_t number, found;
    vk_move_record move;
    uint32_t before, after, changed;
} vk_improve_answer;

/* Makes the first of the legal moves of some kinds that leave the least root, if that is smaller than now. Kinds is a sum of 1 add,
 * 2 drop, 4 transfer, 8 swap. The move goes into the journal as vk_move's does. Tries 11 to 13 as vk_move and vk_trial do, then 14
 * (kinds 0 or above 15), then 18, but only where it would make a move. Scratch as for vk_trial. */
vk_improve_answer vk_improve(const uint8_t *table, size_t table_len, uint64_t *masks, size_t masks_len, uint32_t *cells,
                             size_t cells_len, uint32_t *scratch, size_t scratch_len, vk_move_record *journal, size_t journal_len,
                             size_t *journal_count, uint32_t kinds);

/* Lists the legal moves of some kinds that leave the least root, as vk_trial would answer it, each once and in order, also where
 * that root is not smaller than now; 0 of them where none is legal. Tries 11 to 13 as vk_trial does, then 14 (kinds), then 16
 * (list_len, in records, is below the count). Masks and cells are kept, and so are the list's records past the count. Scratch as for
 * vk_trial. */
vk_count_answer vk_best_moves(const uint8_t *table, size_t table_len, const uint64_t *masks, size_t masks_len,
                              const uint32_t *cells, size_t cells_len, uint32_t *scratch, size_t scratch_len, uint32_t kinds,
                              vk_move_record *list, size_t list_len);

#ifdef __cplusplus
}
#endif

#endif
