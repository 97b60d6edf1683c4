/* Plans the graph of a table's image on an empty mask store, and reads a text by the plan and by the walk of the graph. It prints how many states there are,
 * how many of them are led on by a table, and how many masks the plan needs; both readings of the text from its beginning; the tokens and gaps of the
 * scan by the plan, leaf, start and end or start and end; and whether the scan by the walk has the same.
 *
 *   (cd crates/capi && rt lib)
 *   gcc -Wall -Wextra -O2 -Iinclude examples/plan.c crates/capi/out/libcapi.a -o plan
 *   ./plan examples/json.image '[1.5, true] x'
 *
 * prints
 *
 *   43 states, 3 by tables, 6 masks
 *   by the plan: leaf 2, end 1
 *   by the walk: leaf 2, end 1
 *   token 2 0 1
 *   token 9 1 4
 *   token 5 4 5
 *   token 11 5 6
 *   token 6 6 10
 *   token 3 10 11
 *   token 11 11 12
 *   gap 12 13
 *   8 entries, by the walk the same
 */
#include <stdio.h>
#include <stdlib.h>
#include <string.h>

#include "balthwyr.h"

/* An image has at most 65,536 bytes, so its table has at most 126 states: these rooms are enough for the words of every image. */
enum { IMAGE = BALTHWYR_MAX_IMAGE, WORDS = BALTHWYR_MAX_IMAGE / 2, STATES = 126, ROOM = 1024 };

static uint8_t image[IMAGE + 1];
static uint16_t graph[WORDS], errors[WORDS], plan[BALTHWYR_PLAN_WORDS(STATES)];
static struct balthwyr_mask_store store;
static size_t planned[3 * ROOM], walked[3 * ROOM];

static void refused_if(uint8_t refusal)
{
    if (refusal) {
        printf("refused %d\n", refusal);
        exit(1);
    }
}

static void print_reading(const char *by, size_t found, size_t leaf, size_t end)
{
    if (found) {
        printf("by the %s: leaf %zu, end %zu\n", by, leaf, end);
    } else {
        printf("by the %s: none\n", by);
    }
}

int main(int argc, char **argv)
{
    size_t states, root, count, words, added, found, leaf, end, entries, listed, tables = 0, scan = 0, walk = 0;

    if (argc != 3) {
        fprintf(stderr, "usage: plan IMAGE TEXT\n");
        return 2;
    }
    FILE *file = fopen(argv[1], "rb");
    if (!file) {
        fprintf(stderr, "cannot read %s\n", argv[1]);
        return 1;
    }
    size_t size = fread(image, 1, sizeof image, file);
    fclose(file);
    const uint8_t *text = (const uint8_t *)argv[2];
    size_t length = strlen(argv[2]);

    refused_if(balthwyr_build_image(image, size, graph, WORDS, errors, WORDS, &states, &root, &count, &words));
    size_t graph_len = BALTHWYR_GRAPH_WORDS(states), plan_len = BALTHWYR_PLAN_WORDS(states);

    /* the store grows in the call; it counts no class yet, so its bytes mean nothing */
    store.count = 0;
    refused_if(balthwyr_plan(graph, graph_len, plan, plan_len, store.tables, sizeof store.tables, &store.count, &added));
    for (size_t s = 0; s < states; s++) {
        tables += plan[3 * s + 1] == BALTHWYR_TABLE;
    }
    printf("%zu states, %zu by tables, %zu masks\n", states, tables, added);

    refused_if(balthwyr_run(graph, graph_len, plan, plan_len, store.tables, sizeof store.tables, store.count, text, length, &found,
                            &leaf, &end));
    print_reading("plan", found, leaf, end);
    refused_if(balthwyr_read_graph(graph, graph_len, text, length, &found, &leaf, &end));
    print_reading("walk", found, leaf, end);

    refused_if(balthwyr_scan_planned(graph, graph_len, plan, plan_len, store.tables, sizeof store.tables, store.count, text, length,
                                     &scan, planned, 3 * ROOM, &entries));
    for (const size_t *entry = planned; entry < planned + 3 * entries; entry += 3) {
        if (entry[2] == BALTHWYR_NO_LEAF) {
            printf("gap %zu %zu\n", entry[0], entry[1]);
        } else {
            printf("token %zu %zu %zu\n", entry[2], entry[0], entry[1]);
        }
    }
    refused_if(balthwyr_scan_list(graph, graph_len, text, length, &walk, walked, 3 * ROOM, &listed));
    int alike = entries == listed && scan == walk && memcmp(planned, walked, 3 * entries * sizeof *planned) == 0;
    printf("%zu entries, by the walk %s\n", entries, alike ? "the same" : "others");
    return 0;
}
