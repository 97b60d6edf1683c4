/* Builds of table words and of images, and the texts of graphs and conflicts. */
#include <stdio.h>
#include <stdlib.h>
#include <string.h>

#include "balthwyr.h"
#include "lent.h"
#include "lines.h"
#include "port.h"

/* The build's two buffers. */
struct buffers {
    struct lent graph, errors;
};

/* What a build of a table of n states has to leave as found is as found; up to 2 + 258 n the words after the graph are 0. */
static void check_buffers(const struct buffers *lent, const struct built *b, size_t n) {
    if (b->refusal != 0) {
        check(b->states == 0 && b->root == 0 && b->count == 0 && b->words == 0, "a refused build answers a number");
        check_as_found(&lent->graph, 0, "a refused build writes to the graph buffer");
        check_as_found(&lent->errors, 0, "a refused build writes to the error buffer");
        return;
    }
    check(b->graph[0] == b->states && b->graph[1] == b->root, "the graph's first words are not its states and its root");
    for (size_t i = 2 + 258 * b->states; i < 2 + 258 * n; i++) check(b->graph[i] == 0, "a word after the graph is not 0");
    check_as_found(&lent->graph, 2 * (2 + 258 * n), "a build writes past 2 + 258 n");
    check_as_found(&lent->errors, 2 * b->words, "a build writes past its error words");
}

static void lend_both(struct buffers *lent, struct built *b, size_t graph_buffer, size_t error_buffer, uint8_t pattern) {
    lend(&lent->graph, 2 * graph_buffer, pattern);
    lend(&lent->errors, 2 * error_buffer, pattern);
    *b = (struct built){
        .states = UNWRITTEN, .root = UNWRITTEN, .count = UNWRITTEN, .words = UNWRITTEN,
        .graph = (const uint16_t *)lent->graph.bytes, .errors = (const uint16_t *)lent->errors.bytes,
    };
}

struct built build_words(const uint16_t *table, size_t length, size_t graph_buffer, size_t error_buffer) {
    static struct buffers lent;
    struct built b;
    lend_both(&lent, &b, graph_buffer, error_buffer, (uint8_t)case_number);
    b.refusal = balthwyr_build(table, length, (uint16_t *)lent.graph.bytes, graph_buffer, (uint16_t *)lent.errors.bytes, error_buffer,
                               &b.states, &b.root, &b.count, &b.words);
    check_buffers(&lent, &b, length > 0 ? table[0] : 0);
    return b;
}

/* The same of an image, under the other pattern. */
static struct built build_image(const uint8_t *image, size_t size, size_t n, size_t graph_buffer, size_t error_buffer) {
    static struct buffers lent;
    struct built b;
    lend_both(&lent, &b, graph_buffer, error_buffer, (uint8_t)~case_number);
    b.refusal = balthwyr_build_image(image, size, (uint16_t *)lent.graph.bytes, graph_buffer, (uint16_t *)lent.errors.bytes, error_buffer,
                                     &b.states, &b.root, &b.count, &b.words);
    check_buffers(&lent, &b, n);
    return b;
}

static void print_built(const struct built *b) {
    if (b->refusal != 0) printf("refused-%u", b->refusal);
    else printf("%zu,%zu,%zu,%zu", b->states, b->root, b->count, b->words);
}

/* A text is refused by 29 in a buffer that is one byte too short, and written whole in one that has just its length. */
typedef uint8_t shown(const uint16_t *words, size_t length, uint8_t *out, size_t out_len, size_t *text_length);

static size_t show(shown *call, const uint16_t *words, size_t length, size_t room, struct lent *out, uint8_t *refusal) {
    size_t size = UNWRITTEN, again = UNWRITTEN;
    lend(out, room, (uint8_t)case_number);
    *refusal = call(words, length, out->bytes, room, &size);
    check(*refusal == 0 || size == 0, "a refused text has a length");
    check(size <= room, "a text is longer than its buffer");
    check_as_found(out, size, "a text is not all that is written");
    if (size > 0) {
        lend(out, size - 1, (uint8_t)~case_number);
        check(call(words, length, out->bytes, size - 1, &again) == BALTHWYR_NO_ROOM && again == 0, "a text that does not fit is not refused by 29");
        check_as_found(out, 0, "a text that does not fit is written to its buffer");
        lend(out, size, (uint8_t)~case_number);
        check(call(words, length, out->bytes, size, &again) == 0 && again == size, "a text that just fits is refused");
        check_as_found(out, size, "bytes about a text that just fits are written");
    }
    return size;
}

void print_text(const uint16_t *graph, size_t length) {
    static struct lent out;
    uint8_t refusal;
    size_t states = length > 0 && graph[0] <= 1024 ? graph[0] : 1;
    size_t size = show(balthwyr_display, graph, length, 6477 * states, &out, &refusal);
    if (refusal != 0) {
        printf("refused-%u", refusal);
        return;
    }
    printf("text ");
    for (size_t i = 0; i < size; i++) {
        if (out.bytes[i] == '\n') fputs("¶", stdout);
        else putchar(out.bytes[i]);
    }
}

/* The lines of all errors, got as the header says, against their words as printf writes them. */
static void check_lines(const struct built *b) {
    static struct lent out;
    char expected[8192];
    size_t lines = 0, at = 0;
    while (at < b->words) {
        uint8_t refusal;
        const uint16_t *error = b->errors + at;
        size_t length = sprintf(expected, "error %u", error[0]);
        for (size_t i = 0; i < error[1] && i < 255; i++) length += sprintf(expected + length, " %u", error[2 + i]);
        size_t size = show(balthwyr_error_line, error, b->words - at, 11 + 6 * (size_t)error[1], &out, &refusal);
        check(refusal == 0 && size == length && memcmp(out.bytes, expected, size) == 0, "an error's line is not its words");
        check(balthwyr_error_line(error, 1 + (size_t)error[1], out.bytes, out.size, &size) == 9 && size == 0, "words that end before the error are not refused by 9");
        check(memcmp(out.bytes, expected, length) == 0, "a line that is refused by 9 is written");
        at += 2 + error[1];
        lines++;
    }
    check(at == b->words && lines == b->count, "the errors are not as many as are told");
}

void answer_build(char **fields, size_t count) {
    static uint16_t table[MOST];
    static uint8_t image[2 * MOST + 1];
    check(count == 4, "not four fields");
    size_t graph_buffer = number_of(fields[0]), error_buffer = number_of(fields[1]), length = words_of(fields[3], table, MOST), size = 2 * length;
    for (size_t i = 0; i < length; i++) {
        image[2 * i] = table[i] & 255;
        image[2 * i + 1] = table[i] >> 8;
    }
    if (strcmp(fields[2], "-") != 0) image[size++] = number_of(fields[2]);

    struct built by_words = build_words(table, length, graph_buffer, error_buffer);
    struct built by_image = build_image(image, size, length > 0 ? table[0] : 0, graph_buffer, error_buffer);
    printf("words ");
    print_built(&by_words);
    printf(" image ");
    print_built(&by_image);
    if (by_words.refusal != 0) return;
    if (by_image.refusal == 0) {
        check(memcmp(by_words.graph, by_image.graph, 2 * (2 + 258 * (size_t)table[0])) == 0, "words and image give different graphs");
        check(memcmp(by_words.errors, by_image.errors, 2 * by_words.words) == 0, "words and image give different errors");
    }
    check_lines(&by_words);
    printf(" graph ");
    print_words(by_words.graph, 2 + 258 * by_words.states);
    printf(" errors ");
    print_words(by_words.errors, by_words.words);
    putchar(' ');
    print_text(by_words.graph, graph_buffer);
}

void answer_display(char **fields, size_t count) {
    static uint16_t graph[MOST];
    check(count == 1, "not one field");
    print_text(graph, words_of(fields[0], graph, MOST));
}
