/* The case lines of docs/ORACLE.md in C: fields are read into arrays and written as the oracle writes them. A field that is none of these
 * forms ends the program with status 2. */
#ifndef ORACLE_LINES_H
#define ORACLE_LINES_H

#include <stddef.h>
#include <stdint.h>

/* No field of a case has more elements: a random table may have some 2,600 states, which 2 refuses. */
#define MOST 1000000

/* The fields of a line, which is cut up; at most `most` of them. */
size_t fields_of(char *line, char **fields, size_t most);

size_t number_of(const char *field);

/* A number of 32 bits, with a hyphen if it is below 0. */
int32_t signed_of(const char *field);

/* Words in runs, `5,0*258,7` or `-`: their number. More than `most` end the program. */
size_t words_of(const char *field, uint16_t *words, size_t most);
size_t words32_of(const char *field, uint32_t *words, size_t most);
void print_words(const uint16_t *words, size_t count);
void print_words32(const uint32_t *words, size_t count);

/* Hexadecimal digits, or `-`: their bytes. */
size_t bytes_of(const char *field, uint8_t *bytes, size_t most);
void print_bytes(const uint8_t *bytes, size_t count);

/* A class as 64 hexadecimal digits: 256 flags of 0 or 1. */
void class_of(const char *field, uint8_t flags[256]);
void print_class(const uint8_t flags[256]);

#endif
