/* Plans of graphs, and runs and scans by them. */
#include <stdio.h>
#include <stdlib.h>
#include <string.h>

#include "balthwyr.h"
#include "lent.h"
#include "lines.h"
#include "port.h"

static uint16_t graph[MOST];
static size_t graph_length;
static struct balthwyr_mask_store store;

/* Mask i of a store's tables is this class. */
static void set_mask(uint8_t *tables, size_t i, const uint8_t flags[256]) {
    uint8_t *table = tables + 256 * (i / 8), bit = (uint8_t)(1 << i % 8);
    for (int b = 0; b < 256; b++) table[b] = flags[b] ? table[b] | bit : table[b] & ~bit;
}

static void get_mask(const uint8_t *tables, size_t i, uint8_t flags[256]) {
    for (int b = 0; b < 256; b++) flags[b] = tables[256 * (i / 8) + b] >> i % 8 & 1;
}

/* Graph words, and a store: count, a byte that fills its tables, and the classes with slashes between that are written over that as masks 0, 1, .. */
static void read_case(char **fields) {
    graph_length = words_of(fields[0], graph, MOST);
    store.count = number_of(fields[1]);
    memset(store.tables, (int)number_of(fields[2]), sizeof store.tables);
    if (strcmp(fields[3], "-") == 0) return;
    for (size_t i = 0; i < (strlen(fields[3]) + 1) / 65; i++) {
        uint8_t flags[256];
        char one[65] = {0};
        memcpy(one, fields[3] + 65 * i, 64);
        class_of(one, flags);
        if (i < 64) set_mask(store.tables, i, flags);
    }
}

/* A length that is none of a store, and what a call is refused by that has a block of it: 12 and 14 for a short plan come before 15. */
static size_t other_length(void) { return case_number % 3 == 0 ? BALTHWYR_TABLES + 1 : case_number % BALTHWYR_TABLES; }

static uint8_t without_store(size_t plan_length) {
    size_t found, leaf, end;
    if (balthwyr_read_graph(graph, graph_length, (const uint8_t *)graph, 0, &found, &leaf, &end) != 0) return 12;
    return plan_length < 3 * (size_t)graph[0] ? 14 : 15;
}

/* ---- planning */

static void check_plan_without_store(size_t buffer) {
    static struct lent plan, tables;
    size_t count = store.count, added = UNWRITTEN, size = other_length();
    lend(&plan, 2 * buffer, (uint8_t)~case_number);
    lend(&tables, size, (uint8_t)case_number);
    uint8_t refusal = balthwyr_plan(graph, graph_length, (uint16_t *)plan.bytes, buffer, tables.bytes, size, &count, &added);
    check(refusal == without_store(buffer) && added == 0, "a block of another length is taken for a store");
    check(count == store.count, "the count of what is no store is written");
    check_as_found(&tables, 0, "what is no store is written");
    check_as_found(&plan, 0, "a plan on what is no store is written");
}

/* Only the bits of the masks that a store gains may change. */
static void check_gained(const uint8_t *tables, size_t count, size_t added) {
    uint8_t flags[256];
    struct balthwyr_mask_store expected = store;
    for (size_t i = count; i < count + added; i++) {
        get_mask(tables, i, flags);
        set_mask(expected.tables, i, flags);
    }
    check(memcmp(tables, expected.tables, BALTHWYR_TABLES) == 0, "a store changes in other bits than those of the masks that it gains");
}

/* A second plan on the store that the first has left is the same, and the store gains nothing by it. */
static void check_again(const uint16_t *words, size_t states, const uint8_t *tables, size_t count) {
    static struct lent plan, again;
    size_t after = count, added = UNWRITTEN;
    lend(&plan, 6 * states, (uint8_t)~case_number);
    lend(&again, BALTHWYR_TABLES, (uint8_t)case_number);
    memcpy(again.bytes, tables, BALTHWYR_TABLES);
    uint8_t refusal = balthwyr_plan(graph, graph_length, (uint16_t *)plan.bytes, 3 * states, again.bytes, BALTHWYR_TABLES, &after, &added);
    check(refusal == 0 && added == 0 && after == count && memcmp(again.bytes, tables, BALTHWYR_TABLES) == 0, "a store grows when a graph is planned again");
    check(memcmp(plan.bytes, words, 6 * states) == 0, "a second plan differs");
}

static void print_added(const uint8_t *tables, size_t count, size_t added) {
    uint8_t flags[256];
    if (added == 0) putchar('-');
    for (size_t i = count; i < count + added; i++) {
        if (i > count) putchar('/');
        get_mask(tables, i, flags);
        print_class(flags);
    }
}

void answer_plan(char **fields, size_t count) {
    static struct lent plan, tables;
    check(count == 5, "not five fields");
    read_case(fields);
    size_t buffer = number_of(fields[4]), held = store.count, added = UNWRITTEN;
    check_plan_without_store(buffer);
    lend(&plan, 2 * buffer, (uint8_t)case_number);
    lend(&tables, BALTHWYR_TABLES, (uint8_t)case_number);
    memcpy(tables.bytes, store.tables, BALTHWYR_TABLES);
    uint8_t refusal = balthwyr_plan(graph, graph_length, (uint16_t *)plan.bytes, buffer, tables.bytes, BALTHWYR_TABLES, &held, &added);
    check_as_found(&tables, BALTHWYR_TABLES, "bytes around a store are written");
    if (refusal != 0) {
        check(added == 0 && held == store.count && memcmp(tables.bytes, store.tables, BALTHWYR_TABLES) == 0, "a refused plan answers a number or changes its store");
        check_as_found(&plan, 0, "a refused plan is written");
        printf("refused-%u", refusal);
        return;
    }
    size_t states = graph[0];
    const uint16_t *words = (const uint16_t *)plan.bytes;
    check(held == store.count + added && held <= 64, "a store does not count what it gains");
    check_as_found(&plan, 6 * states, "words after a plan are written");
    check_gained(tables.bytes, store.count, added);
    check_again(words, states, tables.bytes, held);
    printf("plan ");
    print_words(words, 3 * states);
    printf(" held %zu added ", held);
    print_added(tables.bytes, store.count, added);
}

/* ---- runs */

static uint16_t plan[MOST];
static size_t plan_length;
static uint8_t text[MOST];
static size_t text_length;

struct reading {
    uint8_t refusal;
    size_t found, leaf, end;
};

/* The reading by the plan, with a block of so many bytes for the store. */
static struct reading run_with(const uint8_t *tables, size_t size) {
    struct reading r = {0, UNWRITTEN, UNWRITTEN, UNWRITTEN};
    r.refusal = balthwyr_run(graph, graph_length, plan, plan_length, tables, size, store.count, text, text_length, &r.found, &r.leaf, &r.end);
    check(r.found == (r.refusal == 0 && r.found == 1), "a reading is neither found nor not");
    check(r.found == 1 || (r.leaf == 0 && r.end == 0), "what is not read has a leaf or an end");
    return r;
}

static uint8_t list_with(size_t size, size_t *scan, struct lent *out, size_t *entries) {
    *entries = UNWRITTEN;
    return balthwyr_scan_planned(graph, graph_length, plan, plan_length, store.tables, size, store.count, text, text_length, scan, (size_t *)out->bytes,
                                 out->size / sizeof(size_t), entries);
}

/* A scan by the plan that is refused by this number, the scan, the buffer and the count being as they have to be. */
static void check_refused(size_t size, size_t scan, uint8_t refusal) {
    static struct lent out;
    size_t before = scan, entries;
    lend(&out, sizeof(size_t) * 3 * (case_number % 4), (uint8_t)case_number);
    check(list_with(size, &scan, &out, &entries) == refusal, "a scan by a plan is not refused as it has to be");
    check(scan == before && entries == 0, "a refused scan by a plan moves or answers a number");
    check_as_found(&out, 0, "a refused scan by a plan is written");
}

/* Lists of so many entries by the plan and by the walk, until both have ended. */
static void check_lists(size_t room) {
    static struct lent ours, walked;
    size_t scan = 0, by_walk = 0, entries, listed;
    while (scan != BALTHWYR_ENDED) {
        lend(&ours, sizeof(size_t) * (3 * room + room % 3), (uint8_t)(case_number + scan));
        lend(&walked, ours.size, ours.pattern);
        check(list_with(BALTHWYR_TABLES, &scan, &ours, &entries) == 0, "a scan by a plan is refused");
        check(balthwyr_scan_list(graph, graph_length, text, text_length, &by_walk, (size_t *)walked.bytes, walked.size / sizeof(size_t), &listed) == 0, "a scan is refused");
        check(scan == by_walk && entries == listed && memcmp(ours.bytes, walked.bytes, ours.size) == 0, "a scan by a plan is not the walk's");
        check_as_found(&ours, 3 * entries * sizeof(size_t), "words after a list's entries are written");
    }
}

void answer_run(char **fields, size_t count) {
    check(count == 6, "not six fields");
    read_case(fields);
    plan_length = words_of(fields[4], plan, MOST);
    text_length = bytes_of(fields[5], text, MOST);
    size_t size = other_length();
    static uint8_t block[BALTHWYR_TABLES + 1];
    check(run_with(block, size).refusal == without_store(plan_length), "a block of another length is taken for a store");
    struct reading r = run_with(store.tables, BALTHWYR_TABLES);
    /* an offset past the text comes before 15, and an ended scan last */
    check_refused(BALTHWYR_TABLES, text_length + 1 + case_number % 5, r.refusal == 12 ? 12 : 14);
    check_refused(BALTHWYR_TABLES, BALTHWYR_ENDED, r.refusal == 0 ? 16 : r.refusal);
    if (size < BALTHWYR_TABLES) check_refused(size, 0, without_store(plan_length));
    if (r.refusal != 0) {
        check_refused(BALTHWYR_TABLES, 0, r.refusal);
        printf("refused-%u", r.refusal);
        return;
    }
    check_lists(1 + case_number % 5);
    check_lists(text_length + 1);
    struct reading walked = {0, 0, 0, 0};
    check(balthwyr_read_graph(graph, graph_length, text, text_length, &walked.found, &walked.leaf, &walked.end) == 0, "a graph with a plan is refused");
    check(r.found == walked.found && r.leaf == walked.leaf && r.end == walked.end, "a run and the walk read differently");
    if (r.found) printf("%zu,%zu", r.leaf, r.end);
    else printf("none");
}
