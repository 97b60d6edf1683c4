/* The answers of the port to the cases of docs/ORACLE.md, one line each, from the functions of include/balthwyr.h. What those functions have to
 * leave as found is checked on the way. */
#ifndef ORACLE_PORT_H
#define ORACLE_PORT_H

#include <stddef.h>
#include <stdint.h>

/* `fields` are those after the kind, `count` of them. */
typedef void answer(char **fields, size_t count);

answer answer_build, answer_display, answer_table_reading, answer_graph_reading, answer_class, answer_store, answer_tree, answer_plan, answer_run;
answer answer_angle_text, answer_angle_value;

/* The words of a build: graph and errors as they stand in the lent buffers. */
struct built {
    uint8_t refusal;
    size_t states, root, count, words;
    const uint16_t *graph, *errors;
};

/* The build of a table under buffers of so many words, with its checks; the words stay until the next call. */
struct built build_words(const uint16_t *table, size_t length, size_t graph_buffer, size_t error_buffer);

/* Prints the text of graph words, or its refusal. */
void print_text(const uint16_t *graph, size_t length);

#endif
