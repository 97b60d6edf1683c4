/* Readings of texts by tables and by graphs, and scans. */
#include <stdio.h>
#include <stdlib.h>
#include <string.h>

#include "balthwyr.h"
#include "lent.h"
#include "lines.h"
#include "port.h"

static uint8_t text[MOST];
static size_t text_length;

struct reading {
    uint8_t refusal;
    size_t found, leaf, end;
};

typedef uint8_t read_call(const uint16_t *words, size_t length, const uint8_t *text, size_t text_len, size_t *found, size_t *leaf, size_t *end);

static struct reading read_by(read_call *call, const uint16_t *words, size_t length) {
    struct reading r = {0, UNWRITTEN, UNWRITTEN, UNWRITTEN};
    r.refusal = call(words, length, text, text_length, &r.found, &r.leaf, &r.end);
    check(r.found == (r.refusal == 0 && r.found == 1), "a reading is neither found nor not");
    check(r.found == 1 || (r.leaf == 0 && r.end == 0), "what is not read has a leaf or an end");
    return r;
}

static void print_reading(const struct reading *r) {
    if (r->refusal != 0) printf("refused-%u", r->refusal);
    else if (r->found) printf("%zu,%zu", r->leaf, r->end);
    else printf("none");
}

/* The same pieces from lists of so many entries: those that have been printed by single calls. */
static void check_list(const uint16_t *graph, size_t length, size_t scan, const size_t *pieces, size_t count, size_t room) {
    static struct lent out;
    size_t done = 0;
    while (scan != BALTHWYR_ENDED) {
        size_t entries = UNWRITTEN;
        lend(&out, sizeof(size_t) * (3 * room + room % 3), (uint8_t)(case_number + done));
        check(balthwyr_scan_list(graph, length, text, text_length, &scan, (size_t *)out.bytes, out.size / sizeof(size_t), &entries) == 0, "a list is refused");
        check(entries <= room && entries <= count - done, "a list has too many entries");
        check(memcmp(out.bytes, pieces + 3 * done, 3 * entries * sizeof(size_t)) == 0, "a list's entries are not the scan's");
        check_as_found(&out, 3 * entries * sizeof(size_t), "words after a list's entries are written");
        check(scan == BALTHWYR_ENDED || entries == room, "a list ends before its room does");
        done += entries;
    }
    check(done == count, "a list lacks entries");
}

/* The pieces of a scan from an offset, or its refusal. */
static void print_scan(const uint16_t *graph, size_t length, size_t offset) {
    static size_t pieces[3 * MOST];
    size_t scan = offset, count = 0;
    for (;;) {
        size_t kind = UNWRITTEN, leaf = UNWRITTEN, start = UNWRITTEN, end = UNWRITTEN, before = scan;
        uint8_t refusal = balthwyr_scan_next(graph, length, text, text_length, &scan, &kind, &leaf, &start, &end);
        if (refusal != 0) {
            check(kind == 0 && leaf == 0 && start == 0 && end == 0 && scan == before, "a refused scan answers a number or moves");
            printf("refused-%u", refusal);
            return;
        }
        if (kind == BALTHWYR_END) {
            check(leaf == 0 && start == 0 && end == 0 && scan == BALTHWYR_ENDED, "a scan ends with numbers or goes on");
            break;
        }
        check(count < MOST && scan == end, "a scan is not at its piece's end");
        check(kind == BALTHWYR_TOKEN || (kind == BALTHWYR_GAP && leaf == 0), "a piece is neither token nor gap");
        if (kind == BALTHWYR_TOKEN) printf("token:%zu,%zu,%zu ", leaf, start, end);
        else printf("gap:%zu,%zu ", start, end);
        memcpy(pieces + 3 * count++, (size_t[]){start, end, kind == BALTHWYR_TOKEN ? leaf : BALTHWYR_NO_LEAF}, 3 * sizeof(size_t));
    }
    printf("ended");
    size_t kind, leaf, start, end;
    check(balthwyr_scan_next(graph, length, text, text_length, &scan, &kind, &leaf, &start, &end) == 16 && scan == BALTHWYR_ENDED, "a scan that has ended is not refused by 16");
    check_list(graph, length, offset, pieces, count, 1 + case_number % 5);
    check_list(graph, length, offset, pieces, count, count + 1);
}

/* Whether the library finds a table clean, and what it must say of a build with errors and of one without. */
static int is_clean(const uint16_t *table, size_t length, const struct built *b) {
    size_t rule = UNWRITTEN, state = UNWRITTEN;
    check(balthwyr_clean(table, length, &rule, &state) == b->refusal, "build and verdict refuse a table differently");
    check((rule == 1) == (b->refusal == 0 && b->count != 0), "rule 1 is not that the build has no error");
    check(rule <= 3 && (rule != 0 || state == 0) && (rule != 2 || state == 0), "a verdict has another rule or state");
    int tie = rule == 1 && b->errors[0] == BALTHWYR_DISAMBIGUATION;
    check(rule == 0 || (rule == 1 && !tie ? state == BALTHWYR_NO_STATE : state < table[0]), "a rule is broken at a state that the table lacks");
    return rule == 0;
}

void answer_table_reading(char **fields, size_t count) {
    static uint16_t table[MOST];
    check(count == 2, "not two fields");
    size_t length = words_of(fields[0], table, MOST);
    text_length = bytes_of(fields[1], text, MOST);
    struct reading by_table = read_by(balthwyr_read_table, table, length);
    /* the most that a table of so many states may take: a tie of 255 leaves a state, or 255 leaves that can be empty */
    size_t most = length > 0 && table[0] <= 1024 ? table[0] : 1024;
    struct built b = build_words(table, length, 2 + 258 * most, 257 * most + 765);
    check(b.refusal == by_table.refusal, "build and reading refuse a table differently");
    int clean = is_clean(table, length, &b);
    if (b.refusal != 0) {
        printf("table refused-%u", b.refusal);
        return;
    }
    struct reading by_graph = read_by(balthwyr_read_graph, b.graph, 2 + 258 * b.states);
    int alike = by_table.found == by_graph.found && by_table.leaf == by_graph.leaf && by_table.end == by_graph.end;
    check(!clean || alike, "a clean table and its graph read differently");
    printf("clean %d table ", clean);
    print_reading(&by_table);
    printf(" graph ");
    print_reading(&by_graph);
    printf(" scan ");
    print_scan(b.graph, 2 + 258 * b.states, 0);
}

void answer_graph_reading(char **fields, size_t count) {
    static uint16_t graph[MOST];
    check(count == 3, "not three fields");
    size_t length = words_of(fields[0], graph, MOST);
    text_length = bytes_of(fields[1], text, MOST);
    struct reading r = read_by(balthwyr_read_graph, graph, length);
    printf("graph ");
    print_reading(&r);
    printf(" scan ");
    print_scan(graph, length, number_of(fields[2]));
}
