/* Classes, mask stores and pattern trees. */
#include <stdio.h>
#include <string.h>

#include "balthwyr.h"
#include "lent.h"
#include "lines.h"
#include "port.h"

enum { PART = 128 };

static size_t cost_of(const uint8_t *flags) {
    size_t cost = UNWRITTEN;
    check(balthwyr_cost(flags, 256, &cost) == 0, "a cost is refused");
    return cost;
}

typedef uint8_t parts_call(const uint8_t *flags, size_t flags_len, uint8_t *parts, size_t parts_len, size_t *count);

/* The parts of a class in a lent block, after the refusal of a block that is too short. */
static size_t parts_by(parts_call *call, const uint8_t *flags, struct lent *parts, size_t size) {
    size_t count = UNWRITTEN;
    lend(parts, size - 1 - case_number % size, (uint8_t)~case_number);
    check(call(flags, 256, parts->bytes, parts->size, &count) == BALTHWYR_SHORT && count == 0, "a short block is not refused by 255");
    check_as_found(parts, 0, "a short block is written");
    lend(parts, size + case_number % 3, (uint8_t)case_number);
    check(call(flags, 256, parts->bytes, parts->size, &count) == 0 && count <= PART, "the parts of a class are refused");
    check_as_found(parts, size, "a block is written past its parts");
    return count;
}

static void print_ranges(const uint8_t *flags) {
    static struct lent parts;
    size_t count = parts_by(balthwyr_ranges, flags, &parts, sizeof(struct balthwyr_range_parts));
    const struct balthwyr_range_parts *p = (const void *)parts.bytes;
    for (size_t i = count; i < PART; i++) check(p->first[i] == 0 && p->last[i] == 0, "a range that is not in use is not 0");
    printf("ranges ");
    for (size_t i = 0; i < count; i++) printf(i == 0 ? "%u-%u" : " %u-%u", p->first[i], p->last[i]);
}

/* Each with its cost, which is that of the class of just its bytes: what `count_ops` answers is no call of the library. */
static void print_comparisons(const uint8_t *flags) {
    static struct lent parts;
    size_t count = parts_by(balthwyr_impl_with_cmp, flags, &parts, sizeof(struct balthwyr_cmp_parts)), used = 0;
    const struct balthwyr_cmp_parts *p = (const void *)parts.bytes;
    printf(" comparisons ");
    for (size_t i = 0; i < count; i++) {
        uint8_t own[256] = {0};
        memset(own + p->first[i], 1, p->last[i] - p->first[i] + 1);
        printf(i == 0 ? "%u-%u!" : " %u-%u!", p->first[i], p->last[i]);
        if (p->holes[i] == 0) putchar('-');
        check(used + p->holes[i] <= PART, "comparisons have too many exceptions");
        for (size_t k = 0; k < p->holes[i]; k++, used++) {
            own[p->except[used]] = 0;
            printf(k == 0 ? "%u" : ",%u", p->except[used]);
        }
        printf(":%zu", cost_of(own));
    }
    for (size_t i = count; i < PART; i++) check(p->first[i] == 0 && p->last[i] == 0 && p->holes[i] == 0, "a comparison that is not in use is not 0");
    for (size_t i = used; i < PART; i++) check(p->except[i] == 0, "an exception that is not in use is not 0");
}

void answer_class(char **fields, size_t count) {
    uint8_t flags[256];
    check(count == 1, "not one field");
    class_of(fields[0], flags);
    /* any byte but 0 is a flag */
    for (int b = 0; b < 256; b++) flags[b] = flags[b] ? 1 + (b + case_number) % 255 : 0;
    print_ranges(flags);
    print_comparisons(flags);
    printf(" cost %zu", cost_of(flags));
}

/* Adds a class and prints its number. In the tables only the bits of a mask that is taken in may change, on a refusal nothing. */
static void add_class(struct balthwyr_mask_store *store, const uint8_t *flags) {
    struct balthwyr_mask_store expected = *store;
    size_t number = UNWRITTEN;
    uint8_t refusal = balthwyr_add_test_to_lut(store->tables, BALTHWYR_TABLES, &store->count, flags, 256, &number);
    if (refusal == 0 && number == expected.count) {
        uint8_t *table = expected.tables + 256 * (expected.count / 8), bit = 1 << expected.count % 8;
        for (int b = 0; b < 256; b++) table[b] = flags[b] ? table[b] | bit : table[b] & ~bit;
        expected.count++;
    }
    check(refusal == 0 || number == 0, "a refused class has a number");
    check(memcmp(store->tables, expected.tables, BALTHWYR_TABLES) == 0 && store->count == expected.count, "a store is not what it has to be");
    if (refusal != 0) printf("refused-%u", refusal);
    else printf("%zu", number);
}

/* A block of another length than a store's is refused by 15, a block too short for the tables by 255; both are as found. */
static void check_blocks(const struct balthwyr_mask_store *store, const uint8_t *flags) {
    static struct lent tables, luts;
    size_t number = UNWRITTEN, count = store->count, size = case_number % 2 ? BALTHWYR_TABLES + 1 : case_number % BALTHWYR_TABLES;
    lend(&tables, size, (uint8_t)case_number);
    check(balthwyr_add_test_to_lut(tables.bytes, size, &count, flags, 256, &number) == 15 && number == 0, "a block of another length is taken for a store");
    check(count == store->count, "the count of what is no store is written");
    check_as_found(&tables, 0, "what is no store is written");
    size = case_number % BALTHWYR_TABLES;
    lend(&luts, size, (uint8_t)case_number);
    uint8_t refusal = balthwyr_render_luts(store->tables, BALTHWYR_TABLES, store->count, luts.bytes, size);
    check(refusal == BALTHWYR_SHORT || refusal == 15, "tables that do not fit are rendered");
    check_as_found(&luts, 0, "tables that do not fit are written");
}

static void print_luts(const struct balthwyr_mask_store *store) {
    static struct lent luts;
    lend(&luts, BALTHWYR_TABLES + case_number % 3, (uint8_t)case_number);
    uint8_t refusal = balthwyr_render_luts(store->tables, BALTHWYR_TABLES, store->count, luts.bytes, luts.size);
    check_as_found(&luts, refusal == 0 ? BALTHWYR_TABLES : 0, "more than the tables is written");
    if (refusal != 0) printf("refused %u", refusal);
    else print_bytes(luts.bytes, BALTHWYR_TABLES);
}

void answer_store(char **fields, size_t count) {
    struct balthwyr_mask_store store;
    uint8_t flags[256];
    check(count >= 2, "not two fields");
    store.count = number_of(fields[0]);
    check(bytes_of(fields[1], store.tables, BALTHWYR_TABLES) == BALTHWYR_TABLES, "not a store's tables");
    printf("numbers ");
    for (size_t i = 2; i < count; i++) {
        if (i > 2) putchar(',');
        class_of(fields[i], flags);
        if (i == 2) check_blocks(&store, flags);
        add_class(&store, flags);
    }
    printf(" held %zu luts ", store.count);
    print_luts(&store);
}

static void print_value(const char *name, uint8_t refusal, size_t value) {
    check(refusal == 0 || value == 0, "a refused tree has a value");
    if (refusal != 0) printf("%s refused-%u", name, refusal);
    else printf("%s %zu", name, value);
}

void answer_tree(char **fields, size_t count) {
    static uint32_t tree[MOST];
    static uint8_t bytes[MOST];
    size_t value = UNWRITTEN, found = UNWRITTEN;
    check(count == 2, "not two fields");
    size_t length = words32_of(fields[0], tree, MOST), size = bytes_of(fields[1], bytes, MOST);
    uint8_t refusal = balthwyr_priority(tree, length, bytes, size, &value);
    print_value("priority", refusal, value);
    refusal = balthwyr_check_for_greedy_all(tree, length, bytes, size, &found);
    print_value(" greedy", refusal, found);
}
