/* Adds classes to a mask store, prints each one's number, cost and exceptions, and renders the store's tables.
 *
 *   (cd crates/capi && rt lib)
 *   gcc -Wall -Wextra -O2 -Iinclude examples/classes.c crates/capi/out/libcapi.a -o classes
 *   ./classes
 *
 * prints
 *
 *   5-10 12-16: number 0, cost 3, 1 joined, but 11
 *   0-255: number 1, cost 0, 1 joined
 *   7: number 2, cost 1, 1 joined
 *   0-127 129-255: number 3, cost 1, 1 joined, but 128
 *   7: number 2, cost 1, 1 joined
 *   4 classes: byte 7 is in masks 0f, byte 8 in 0b, byte 11 in 0a, byte 128 in 02
 *   64 classes, and one more: refused 15, 64 classes
 */
#include <stdio.h>
#include <stdlib.h>
#include <string.h>

#include "balthwyr.h"

static struct balthwyr_mask_store store;
static uint8_t flags[256];

/* the class of the bytes from first to last, and no others */
static void only(int first, int last)
{
    memset(flags, 0, sizeof flags);
    memset(flags + first, 1, (size_t)(last - first + 1));
}

static void refused_if(uint8_t refusal)
{
    if (refusal) {
        printf("refused %d\n", refusal);
        exit(1);
    }
}

static uint8_t add(size_t *number)
{
    return balthwyr_add_test_to_lut(store.tables, sizeof store.tables, &store.count, flags, sizeof flags, number);
}

static void print_class(void)
{
    struct balthwyr_range_parts ranges;
    struct balthwyr_cmp_parts cmp;
    size_t number, cost, ranges_count, cmp_count, at = 0;

    refused_if(add(&number));
    refused_if(balthwyr_cost(flags, sizeof flags, &cost));
    refused_if(balthwyr_ranges(flags, sizeof flags, BALTHWYR_BYTES_OF(ranges), &ranges_count));
    refused_if(balthwyr_impl_with_cmp(flags, sizeof flags, BALTHWYR_BYTES_OF(cmp), &cmp_count));

    for (size_t i = 0; i < ranges_count; i++) {
        printf("%s%d", i ? " " : "", ranges.first[i]);
        if (ranges.first[i] < ranges.last[i]) {
            printf("-%d", ranges.last[i]);
        }
    }
    printf(": number %zu, cost %zu, %zu joined", number, cost, cmp_count);
    for (size_t i = 0; i < cmp_count; i++) {
        for (int j = 0; j < cmp.holes[i]; j++) {
            printf(", but %d", cmp.except[at++]);
        }
    }
    putchar('\n');
}

int main(void)
{
    uint8_t luts[8][256];
    size_t number;

    /* the bits of a store that counts no class mean nothing */
    memset(store.tables, 0xa5, sizeof store.tables);
    store.count = 0;

    only(5, 16), flags[11] = 0, print_class();
    only(0, 255), print_class();
    only(7, 7), print_class();
    only(0, 255), flags[128] = 0, print_class();
    only(7, 7), print_class();

    refused_if(balthwyr_render_luts(store.tables, sizeof store.tables, store.count, luts[0], sizeof luts));
    printf("%zu classes: byte 7 is in masks %02x, byte 8 in %02x, byte 11 in %02x, byte 128 in %02x\n", store.count, luts[0][7],
           luts[0][8], luts[0][11], luts[0][128]);

    for (int b = 100; store.count < 64; b++) {
        only(b, b), refused_if(add(&number));
    }
    printf("%zu classes, and one more: ", store.count);
    only(8, 8);
    uint8_t refusal = add(&number);
    printf("refused %d, %zu classes\n", refusal, store.count);
    return 0;
}
