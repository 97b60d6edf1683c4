/* Measures how much stack each call takes: it is made on a stack of its own, filled with one byte before, and what it has written is what it took.
 * The arrays of a call have fixed sizes, so the table does not matter; a pattern tree does, and is the deepest that there is.
 *
 *   (cd crates/capi && rt lib)
 *   gcc -Wall -Wextra -O2 -Iinclude examples/stack.c crates/capi/out/libcapi.a -o stack
 *   ./stack examples/json.image
 *
 * prints a line a call, its bytes and its name, as
 *
 *   276808 build
 */
#define _GNU_SOURCE
#include <stdio.h>
#include <stdlib.h>
#include <string.h>
#include <ucontext.h>

#include "balthwyr.h"

enum { STACK = 1 << 20, FILL = 0xa7, WORDS = BALTHWYR_MAX_IMAGE / 2, STATES = 126, ROOM = 64 };

static uint8_t stack[STACK], image[BALTHWYR_MAX_IMAGE], text[8] = "[1, 2.5]", flags[256], out[BALTHWYR_TEXT_BYTES(STATES)];
static uint16_t table[WORDS], graph[WORDS], errors[WORDS], plan[BALTHWYR_PLAN_WORDS(STATES)];
static uint32_t tree[6 * BALTHWYR_MAX_TREE_RECORDS];
static struct balthwyr_mask_store store;
static size_t size, a, b, c, d, list[BALTHWYR_LIST_WORDS(ROOM)];
static int32_t angle;
static uint8_t refusal;
static ucontext_t here, there;

static void nothing(void) {}
static void build_image(void) { refusal = balthwyr_build_image(image, size, graph, WORDS, errors, WORDS, &a, &b, &c, &d); }
static void build(void) { refusal = balthwyr_build(table, size / 2, graph, WORDS, errors, WORDS, &a, &b, &c, &d); }
static void display(void) { refusal = balthwyr_display(graph, WORDS, out, sizeof out, &a); }
static void error_line(void) { refusal = balthwyr_error_line(errors, WORDS, out, sizeof out, &a); }
static void read_graph(void) { refusal = balthwyr_read_graph(graph, WORDS, text, sizeof text, &a, &b, &c); }
static void read_table(void) { refusal = balthwyr_read_table(table, size / 2, text, sizeof text, &a, &b, &c); }
static void clean(void) { refusal = balthwyr_clean(table, size / 2, &a, &b); }
static void scan_next(void) { d = 0, refusal = balthwyr_scan_next(graph, WORDS, text, sizeof text, &d, &a, &b, &c, &list[0]); }
static void scan_list(void) { d = 0, refusal = balthwyr_scan_list(graph, WORDS, text, sizeof text, &d, list, BALTHWYR_LIST_WORDS(ROOM), &a); }
static void cost(void) { refusal = balthwyr_cost(flags, 256, &a); }
static void ranges(void) { refusal = balthwyr_ranges(flags, 256, out, sizeof out, &a); }
static void impl_with_cmp(void) { refusal = balthwyr_impl_with_cmp(flags, 256, out, sizeof out, &a); }
static void add_test_to_lut(void)
{
    refusal = balthwyr_add_test_to_lut(store.tables, BALTHWYR_TABLES, &store.count, flags, 256, &a);
}
static void render_luts(void) { refusal = balthwyr_render_luts(store.tables, BALTHWYR_TABLES, store.count, out, sizeof out); }
static void make_plan(void)
{
    refusal = balthwyr_plan(graph, WORDS, plan, BALTHWYR_PLAN_WORDS(STATES), store.tables, BALTHWYR_TABLES, &store.count, &a);
}
static void run(void)
{
    refusal = balthwyr_run(graph, WORDS, plan, BALTHWYR_PLAN_WORDS(STATES), store.tables, BALTHWYR_TABLES, store.count, text, sizeof text, &a, &b, &c);
}
static void scan_planned(void)
{
    d = 0;
    refusal = balthwyr_scan_planned(graph, WORDS, plan, BALTHWYR_PLAN_WORDS(STATES), store.tables, BALTHWYR_TABLES, store.count, text, sizeof text, &d,
                                    list, BALTHWYR_LIST_WORDS(ROOM), &a);
}
static void priority(void) { refusal = balthwyr_priority(tree, 6 * BALTHWYR_MAX_TREE_RECORDS, text, 0, &a); }
static void check_for_greedy_all(void) { refusal = balthwyr_check_for_greedy_all(tree, 6 * BALTHWYR_MAX_TREE_RECORDS, text, 0, &a); }
static void read_angle(void) { refusal = balthwyr_read_angle((const uint8_t *)"-180.00", 7, &a, &angle); }
static void write_angle(void) { refusal = balthwyr_write_angle(-18000, out, sizeof out, &a); }

static size_t taken(void (*call)(void))
{
    size_t untouched = 0;

    memset(stack, FILL, STACK);
    getcontext(&there);
    there.uc_stack.ss_sp = stack;
    there.uc_stack.ss_size = STACK;
    there.uc_link = &here;
    makecontext(&there, call, 0);
    swapcontext(&here, &there);
    while (stack[untouched] == FILL) {
        untouched++;
    }
    return STACK - untouched;
}

static void measure(const char *name, void (*call)(void))
{
    size_t bytes = taken(call) - taken(nothing);

    if (refusal) {
        printf("%s is refused by %d\n", name, refusal);
        exit(1);
    }
    printf("%zu %s\n", bytes, name);
}

#define MEASURE(call) measure(#call, call)

int main(int argc, char **argv)
{
    FILE *file = argc == 2 ? fopen(argv[1], "rb") : NULL;

    if (!file) {
        fprintf(stderr, "usage: stack IMAGE\n");
        return 2;
    }
    size = fread(image, 1, sizeof image, file);
    fclose(file);
    for (size_t i = 0; i < size / 2; i++) {
        table[i] = (uint16_t)(image[2 * i] | image[2 * i + 1] << 8);
    }
    /* a class in 1,023 captures */
    tree[0] = BALTHWYR_CLASS;
    for (uint32_t i = 1; i < BALTHWYR_MAX_TREE_RECORDS; i++) {
        tree[6 * i] = BALTHWYR_CAPTURE;
        tree[6 * i + 4] = i;
    }
    for (int i = 1; i < 256; i += 2) {
        flags[i] = 1;
    }

    MEASURE(build_image), MEASURE(build), MEASURE(clean), MEASURE(display), MEASURE(error_line);
    MEASURE(read_table), MEASURE(read_graph), MEASURE(scan_next), MEASURE(scan_list);
    MEASURE(make_plan), MEASURE(run), MEASURE(scan_planned);
    MEASURE(cost), MEASURE(ranges), MEASURE(impl_with_cmp), MEASURE(add_test_to_lut), MEASURE(render_luts);
    MEASURE(priority), MEASURE(check_for_greedy_all);
    MEASURE(read_angle), MEASURE(write_angle);
    return 0;
}
