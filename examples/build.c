/* Builds the graph of a table's image and prints it: its text, then one line a conflict; or the number of the refusal.
 *
 *   (cd crates/capi && rt lib)
 *   gcc -Wall -Wextra -O2 -Iinclude examples/build.c crates/capi/out/libcapi.a -o build
 *   ./build IMAGE
 *
 * The image of case K1: four states, start 1, one leaf of priority 2; state 1 goes by `a` to 2, state 2 by every byte and end to 3, which has leaf 0.
 * These lines write it:
 *
 *   python3 -c "import struct; row = lambda steps, head: steps + [head]; dead = [0] * 257; one = dead[:]; one[97] = 2
 *   words = [4, 1, 1, 1, 2, 0, 0] + row(dead, 0) + row(one, 0) + row([3] * 257, 0) + row(dead, 1) + [0, 0]
 *   open('k1.image', 'wb').write(struct.pack('<%dH' % len(words), *words))"
 *
 * and ./build k1.image prints
 *
 *     state0 => StateData() {
 *       a => state1
 *     }
 *     state1 => StateData(early(0) ) {
 *     }
 */
#include <stdio.h>
#include <stdlib.h>

#include "balthwyr.h"

/* An image has at most 65,536 bytes, so its table has at most 126 states: these rooms are enough for the words of every image. */
enum { IMAGE = BALTHWYR_MAX_IMAGE, WORDS = BALTHWYR_MAX_IMAGE / 2, LINE = BALTHWYR_LINE_BYTES(BALTHWYR_MAX_LEAVES) };

static int refused(uint8_t refusal)
{
    printf("refused %d\n", refusal);
    return 1;
}

/* the text of a graph and a line end */
static int print_graph(const uint16_t *graph, size_t states)
{
    size_t room = BALTHWYR_TEXT_BYTES(states) + 1, length;
    uint8_t *text = malloc(room);

    if (!text) {
        return 1;
    }
    uint8_t refusal = balthwyr_display(graph, WORDS, text, room, &length);
    if (refusal) {
        free(text);
        return refused(refusal);
    }
    fwrite(text, 1, length, stdout);
    putchar('\n');
    free(text);
    return 0;
}

/* one line an error: an error takes its kind, its leaf count and as many leaves, and the next one begins behind it */
static int print_conflicts(const uint16_t *errors, size_t words)
{
    uint8_t line[LINE];
    size_t length;

    for (size_t at = 0; at < words; at += 2 + errors[at + 1]) {
        uint8_t refusal = balthwyr_error_line(errors + at, words - at, line, LINE, &length);
        if (refusal) {
            return refused(refusal);
        }
        fwrite(line, 1, length, stdout);
        putchar('\n');
    }
    return 0;
}

int main(int argc, char **argv)
{
    /* one byte more than an image may have, so that a longer file is refused */
    static uint8_t image[IMAGE + 1];
    static uint16_t graph[WORDS], errors[WORDS];
    size_t states, root, count, words;
    FILE *file = argc == 2 ? fopen(argv[1], "rb") : NULL;

    if (!file) {
        fprintf(stderr, "usage: build IMAGE\n");
        return 2;
    }
    size_t size = fread(image, 1, sizeof image, file);
    if (ferror(file)) {
        fprintf(stderr, "cannot read %s\n", argv[1]);
        return 2;
    }
    fclose(file);

    uint8_t refusal = balthwyr_build_image(image, size, graph, WORDS, errors, WORDS, &states, &root, &count, &words);
    if (refusal) {
        return refused(refusal);
    }
    return print_graph(graph, states) || print_conflicts(errors, words);
}
