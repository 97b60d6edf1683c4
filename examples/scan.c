/* Scans a text by a graph: reads the graph's words, low byte first, from one file and the text from another, and prints one line an entry: leaf, start and
 * end of a token, start and end of a gap.
 *
 *   (cd crates/capi && rt lib)
 *   gcc -Wall -Wextra -O2 -Iinclude examples/scan.c crates/capi/out/libcapi.a -o scan
 *   ./scan GRAPH TEXT
 *
 * The graph of case K1: two states, the root goes by `a` to the other, which has leaf 0 as early. These lines write it and the text of K3:
 *
 *   python3 -c "import struct; none = 65535; root = [none] * 258; root[97] = 1; leaf = [none] * 257 + [255]
 *   open('k1.graph', 'wb').write(struct.pack('<518H', 2, 0, *root, *leaf)); open('k3.text', 'wb').write(b'ab')"
 *
 * and ./scan k1.graph k3.text prints
 *
 *   token 0 0 1
 *   gap 1 2
 *   ended
 */
#include <stdio.h>
#include <stdlib.h>

#include "balthwyr.h"

enum { ROOM = 64 };

/* all bytes of a file; *size is their number */
static uint8_t *read_all(const char *name, size_t *size)
{
    FILE *file = fopen(name, "rb");
    size_t room = 4096;
    uint8_t *bytes = malloc(room);

    *size = 0;
    while (file && bytes) {
        *size += fread(bytes + *size, 1, room - *size, file);
        if (*size < room) {
            break;
        }
        room *= 2;
        uint8_t *more = realloc(bytes, room);
        if (!more) {
            free(bytes);
        }
        bytes = more;
    }
    if (!file || !bytes || ferror(file)) {
        fprintf(stderr, "cannot read %s\n", name);
        exit(1);
    }
    fclose(file);
    return bytes;
}

int main(int argc, char **argv)
{
    size_t graph_size, text_size, entries, out[BALTHWYR_LIST_WORDS(ROOM)], scan = 0;

    if (argc != 3) {
        fprintf(stderr, "usage: scan GRAPH TEXT\n");
        return 2;
    }
    uint8_t *image = read_all(argv[1], &graph_size);
    uint8_t *text = read_all(argv[2], &text_size);
    size_t words = graph_size / 2;
    uint16_t *graph = malloc(graph_size + 2);
    if (!graph) {
        return 1;
    }
    for (size_t i = 0; i < words; i++) {
        graph[i] = (uint16_t)(image[2 * i] | image[2 * i + 1] << 8);
    }

    while (scan != BALTHWYR_ENDED) {
        uint8_t refusal = balthwyr_scan_list(graph, words, text, text_size, &scan, out, BALTHWYR_LIST_WORDS(ROOM), &entries);
        if (refusal) {
            printf("refused %d\n", refusal);
            return 1;
        }
        for (size_t *entry = out; entry < out + 3 * entries; entry += 3) {
            if (entry[2] == BALTHWYR_NO_LEAF) {
                printf("gap %zu %zu\n", entry[0], entry[1]);
            } else {
                printf("token %zu %zu %zu\n", entry[2], entry[0], entry[1]);
            }
        }
    }
    puts("ended");
    free(graph);
    free(image);
    free(text);
    return 0;
}
