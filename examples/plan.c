/* Reads plan A of paper 01, writes its table as text, loads it, prints its numbers and the cells of one node, mends the plan by one
 * move, takes a wrong one back, lists the moves that keep the plan true, and puts a port in test.
 *
 * Built and run by .ci/run, which holds what it prints to examples/plan.stdout. */
#include <stdio.h>
#include <string.h>

#include "vuyekhang.h"

static const char text[] = "[STI] @x (x:I <-> x:S & x:T) & #I <= 1";

static void print(const char *call, vk_move_answer a, const uint64_t *masks)
{
    printf("%s: number %u, before %u, after %u, changed %u; T is %u, in test %u\n", call, a.number, a.before, a.after, a.changed,
           (unsigned)masks[1], (unsigned)masks[3]);
}

int main(void)
{
    uint8_t table[VK_MOST_TABLE];
    vk_read_answer plan = vk_read(3, (const uint8_t *)text, strlen(text), table, sizeof table);
    printf("read: number %u, nodes %u, cells %u\n", plan.number, plan.nodes, plan.cells);

    /* From the table alone: the letters are the writer's own, and the arrow is gone. */
    uint8_t own[VK_MOST_TEXT];
    vk_count_answer written = vk_write(table, sizeof table, own, sizeof own);
    printf("write: number %u, length %u: %.*s\n", written.number, written.count, (int)written.count, (const char *)own);

    /* S holds ports 0 and 1, T holds 0 to 2, I holds 0, and no port is in test. Port 1 is in S and T and not in I: the plan misses
     * by 1. */
    uint64_t masks[] = {3, 7, 1, 0};
    uint32_t cells[34];
    vk_load_answer loaded = vk_load(table, sizeof table, masks, 4, cells, 34);
    printf("load: number %u, root %u, cells %u\n", loaded.number, loaded.root, loaded.cells);

    /* Node 9 is the "or" that says: a port outside I is outside S or T. It has a cell for each port. */
    vk_part part = vk_node_cells(table, sizeof table, cells, 34, 9);
    printf("node 9: first %zu, count %zu, cells", part.first, part.count);
    for (size_t i = 0; i < part.count; i++)
        printf(" %u", cells[part.first + i]);
    printf("\n");

    vk_load_answer refused = vk_load(table, sizeof table, masks, 4, cells, 33);
    printf("load into 33 cells: number %u, root %u, cells %u\n", refused.number, refused.root, refused.cells);

    /* Dropping port 1 from T makes the plan true: tried first, then made. A second time it is illegal. */
    vk_move_record drop = {.kind = VK_DROP, .s = 1, .p = 1};
    vk_move_record journal[2];
    size_t count = 0;
    uint32_t scratch[34];
    print("trial", vk_trial(table, sizeof table, masks, 4, cells, 34, scratch, 34, drop), masks);
    print("move", vk_move(table, sizeof table, masks, 4, cells, 34, journal, 2, &count, drop), masks);
    print("move again", vk_move(table, sizeof table, masks, 4, cells, 34, journal, 2, &count, drop), masks);

    /* Port 0 is pulled from T by mistake: the plan is no longer true. The journal has both moves and no room for a third; undo takes
     * the newest back. */
    vk_move_record wrong = {.kind = VK_DROP, .s = 1, .p = 0}, third = {.kind = VK_DROP, .s = 1, .p = 2};
    print("wrong pull", vk_move(table, sizeof table, masks, 4, cells, 34, journal, 2, &count, wrong), masks);
    printf("root %u, %zu records, the newest: kind %u, set %u, port %u\n", cells[0], count, journal[count - 1].kind,
           journal[count - 1].s, journal[count - 1].p);
    print("third move", vk_move(table, sizeof table, masks, 4, cells, 34, journal, 2, &count, third), masks);
    print("undo", vk_undo(table, sizeof table, masks, 4, cells, 34, journal, 2, &count), masks);
    printf("root %u, %zu records\n", cells[0], count);

    /* The root is 0, so that no move is better. With the first move taken back too, port 1 is in T again, and two drops are better,
     * from S and from T: S comes first. */
    vk_improve_answer none = vk_improve(table, sizeof table, masks, 4, cells, 34, scratch, 34, journal, 2, &count, 15);
    printf("improve: number %u, found %u, before %u, after %u\n", none.number, none.found, none.before, none.after);
    print("undo", vk_undo(table, sizeof table, masks, 4, cells, 34, journal, 2, &count), masks);
    print("undo again", vk_undo(table, sizeof table, masks, 4, cells, 34, journal, 2, &count), masks);
    vk_improve_answer best = vk_improve(table, sizeof table, masks, 4, cells, 34, scratch, 34, journal, 2, &count, 2);
    printf("improve by drops: number %u, found %u, kind %u, set %u, port %u, before %u, after %u\n", best.number, best.found,
           best.move.kind, best.move.s, best.move.p, best.before, best.after);

    /* The least root of any move is 0, as now. A list of VK_MOST_MOVES would always do; one of 3 records is too short here. */
    vk_move_record list[8];
    vk_count_answer short_list = vk_best_moves(table, sizeof table, masks, 4, cells, 34, scratch, 34, 15, list, 3);
    printf("best moves into 3 records: number %u, count %u\n", short_list.number, short_list.count);
    vk_count_answer listed = vk_best_moves(table, sizeof table, masks, 4, cells, 34, scratch, 34, 15, list, 8);
    printf("best moves: number %u, count %u\n", listed.number, listed.count);
    for (uint32_t i = 0; i < listed.count; i++)
        printf("  kind %u, s %u, t %u, p %u, q %u\n", list[i].kind, list[i].s, list[i].t, list[i].p, list[i].q);

    /* Improve's drop is taken back, and port 1 enters I, which then holds one port too many. Under line test the port keeps its place
     * and delivers nothing: the size of I is 1, and the plan is true until the test ends. */
    vk_move_record enter = {.kind = VK_ADD, .s = 2, .p = 1};
    print("undo", vk_undo(table, sizeof table, masks, 4, cells, 34, journal, 2, &count), masks);
    print("port 1 into I", vk_move(table, sizeof table, masks, 4, cells, 34, journal, 2, &count, enter), masks);
    print("port 1 in test", vk_test_begin(table, sizeof table, masks, 4, cells, 34, 1), masks);
    print("in test again", vk_test_begin(table, sizeof table, masks, 4, cells, 34, 1), masks);
    print("port 1 out of test", vk_test_end(table, sizeof table, masks, 4, cells, 34, 1), masks);
    return 0;
}
