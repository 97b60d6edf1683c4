/* Gets every refusal with the smallest input that gives it, and prints its number and its name.
 *
 *   (cd crates/capi && rt lib)
 *   gcc -Wall -Wextra -O2 -Iinclude examples/refusals.c crates/capi/out/libcapi.a -o refusals
 *   ./refusals
 *
 * prints
 *
 *   1 TABLE_HEADER
 *   2 TABLE_COUNTS
 *   3 TABLE_LENGTH
 *   4 TABLE_START
 *   5 TABLE_EMPTY_FLAG
 *   6 TABLE_TARGET
 *   7 TABLE_MATCHES
 *   8 GRAPH_ROOM
 *   9 ERROR_ROOM
 *   10 TREE_FORM
 *   11 PRIORITY_LIMIT
 *   12 GRAPH_FORM
 *   13 IMAGE_LENGTH
 *   14 PLAN_OR_OFFSET
 *   15 STORE
 *   16 SCAN_ENDED
 *   29 NO_ROOM
 *   255 SHORT
 */
#include <stdio.h>
#include <string.h>

#include "balthwyr.h"

static uint16_t table[BALTHWYR_TABLE_WORDS(1, 1, 0)], graph[BALTHWYR_GRAPH_WORDS(1)], errors[8];
static uint8_t bytes[256];

static const char *name(uint8_t refusal)
{
    switch ((enum balthwyr_refusal)refusal) {
    case BALTHWYR_ANSWERED: return "ANSWERED";
    case BALTHWYR_TABLE_HEADER: return "TABLE_HEADER";
    case BALTHWYR_TABLE_COUNTS: return "TABLE_COUNTS";
    case BALTHWYR_TABLE_LENGTH: return "TABLE_LENGTH";
    case BALTHWYR_TABLE_START: return "TABLE_START";
    case BALTHWYR_TABLE_EMPTY_FLAG: return "TABLE_EMPTY_FLAG";
    case BALTHWYR_TABLE_TARGET: return "TABLE_TARGET";
    case BALTHWYR_TABLE_MATCHES: return "TABLE_MATCHES";
    case BALTHWYR_GRAPH_ROOM: return "GRAPH_ROOM";
    case BALTHWYR_ERROR_ROOM: return "ERROR_ROOM";
    case BALTHWYR_TREE_FORM: return "TREE_FORM";
    case BALTHWYR_PRIORITY_LIMIT: return "PRIORITY_LIMIT";
    case BALTHWYR_GRAPH_FORM: return "GRAPH_FORM";
    case BALTHWYR_IMAGE_LENGTH: return "IMAGE_LENGTH";
    case BALTHWYR_PLAN_OR_OFFSET: return "PLAN_OR_OFFSET";
    case BALTHWYR_STORE: return "STORE";
    case BALTHWYR_SCAN_ENDED: return "SCAN_ENDED";
    case BALTHWYR_NO_ROOM: return "NO_ROOM";
    case BALTHWYR_SHORT: return "SHORT";
    }
    return "no refusal of this interface";
}

static void print(uint8_t refusal)
{
    printf("%d %s\n", refusal, name(refusal));
}

/* a table of one state, its header, and its word at one place; all else is 0 */
static uint8_t build(size_t length, uint16_t n, uint16_t start, uint16_t leaves, size_t at, uint16_t word, size_t graph_room, size_t error_room)
{
    size_t states, root, count, words;

    memset(table, 0, sizeof table);
    table[0] = n;
    table[1] = start;
    table[2] = leaves;
    if (at) {
        table[at] = word;
    }
    return balthwyr_build(table, length, graph, graph_room, errors, error_room, &states, &root, &count, &words);
}

int main(void)
{
    static const uint32_t much[] = {BALTHWYR_CLASS, 0, 0, 0, 0, 0, BALTHWYR_REPETITION, 2147483648u, 0, 0, 1, 0};
    static uint8_t tables[BALTHWYR_TABLES];
    size_t one = BALTHWYR_TABLE_WORDS(1, 0, 0), room = BALTHWYR_GRAPH_WORDS(1);
    size_t states, root, count, words, value, scan, kind, leaf, start, end;

    print(build(0, 0, 0, 0, 0, 0, room, 8));
    print(build(4, 0, 0, 0, 0, 0, room, 8));
    print(build(4, 1, 0, 0, 0, 0, room, 8));
    print(build(one, 1, 1, 0, 0, 0, room, 8));
    print(build(one + 3, 1, 0, 1, 6, 2, room, 8));
    print(build(one, 1, 0, 0, 4, 1, room, 8));
    print(build(one, 1, 0, 0, 4 + 257, 1, room, 8));
    print(build(one, 1, 0, 0, 0, 0, room - 1, 8));
    print(build(one, 1, BALTHWYR_NONE, 0, 0, 0, room, 1));
    print(balthwyr_priority(much, 0, bytes, 0, &value));
    print(balthwyr_priority(much, 12, bytes, 0, &value));
    print(balthwyr_read_graph(graph, 0, bytes, 0, &value, &leaf, &end));
    print(balthwyr_build_image(bytes, 1, graph, room, errors, 8, &states, &root, &count, &words));

    /* a graph of one state without edges and marks */
    memset(graph, 0xff, sizeof graph);
    graph[0] = 1;
    graph[1] = 0;
    scan = 1;
    print(balthwyr_scan_next(graph, room, bytes, 0, &scan, &kind, &leaf, &start, &end));
    count = 65;
    print(balthwyr_add_test_to_lut(tables, sizeof tables, &count, bytes, 256, &value));
    scan = BALTHWYR_ENDED;
    print(balthwyr_scan_next(graph, room, bytes, 0, &scan, &kind, &leaf, &start, &end));
    print(balthwyr_display(graph, room, bytes, 0, &value));
    print(balthwyr_ranges(bytes, 256, tables, 255, &count));
    return 0;
}
