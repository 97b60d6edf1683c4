#include "lines.h"

#include <stdio.h>
#include <stdlib.h>
#include <string.h>

static void malformed(const char *what, const char *field) {
    fprintf(stderr, "%s: %.40s\n", what, field);
    exit(2);
}

size_t fields_of(char *line, char **fields, size_t most) {
    size_t count = 0;
    for (char *field = strtok(line, " \n"); field != NULL; field = strtok(NULL, " \n")) {
        if (count == most) malformed("too many fields", field);
        fields[count++] = field;
    }
    return count;
}

/* The number at the start of a text, and where it ends. */
static size_t leading_number(const char *text, const char **rest) {
    char *end;
    unsigned long long value = strtoull(text, &end, 10);
    if (end == text || *text < '0' || *text > '9') malformed("not a number", text);
    *rest = end;
    return value;
}

size_t number_of(const char *field) {
    const char *rest;
    size_t value = leading_number(field, &rest);
    if (*rest != '\0') malformed("not a number", field);
    return value;
}

int32_t signed_of(const char *field) {
    int below = *field == '-';
    size_t size = number_of(field + below);
    if (size > (size_t)INT32_MAX + below) malformed("a number of more than 32 bits", field);
    return below ? -(int64_t)size : (int64_t)size;
}

size_t words32_of(const char *field, uint32_t *words, size_t most) {
    size_t count = 0;
    if (strcmp(field, "-") == 0) return 0;
    for (;;) {
        size_t value = leading_number(field, &field), times = 1;
        if (*field == '*') times = leading_number(field + 1, &field);
        if (value > UINT32_MAX || times > most - count) malformed("words that do not fit", field);
        for (size_t i = 0; i < times; i++) words[count++] = value;
        if (*field == '\0') return count;
        if (*field++ != ',') malformed("not words", field);
    }
}

size_t words_of(const char *field, uint16_t *words, size_t most) {
    uint32_t *wide = malloc((most + 1) * sizeof *wide);
    size_t count = words32_of(field, wide, most);
    for (size_t i = 0; i < count; i++) {
        if (wide[i] > UINT16_MAX) malformed("a word of more than 16 bits", field);
        words[i] = wide[i];
    }
    free(wide);
    return count;
}

void print_words32(const uint32_t *words, size_t count) {
    if (count == 0) putchar('-');
    for (size_t i = 0; i < count;) {
        size_t times = 1;
        while (i + times < count && words[i + times] == words[i] && times < 65535) times++;
        printf(i == 0 ? "%u" : ",%u", words[i]);
        if (times > 1) printf("*%zu", times);
        i += times;
    }
}

void print_words(const uint16_t *words, size_t count) {
    uint32_t *wide = malloc((count + 1) * sizeof *wide);
    for (size_t i = 0; i < count; i++) wide[i] = words[i];
    print_words32(wide, count);
    free(wide);
}

static int digit(char c) {
    if (c >= '0' && c <= '9') return c - '0';
    if (c >= 'a' && c <= 'f') return c - 'a' + 10;
    return -1;
}

size_t bytes_of(const char *field, uint8_t *bytes, size_t most) {
    size_t length = strlen(field);
    if (strcmp(field, "-") == 0) return 0;
    if (length % 2 != 0 || length / 2 > most) malformed("bytes that do not fit", field);
    for (size_t i = 0; i < length / 2; i++) {
        int high = digit(field[2 * i]), low = digit(field[2 * i + 1]);
        if (high < 0 || low < 0) malformed("not bytes", field);
        bytes[i] = 16 * high + low;
    }
    return length / 2;
}

void print_bytes(const uint8_t *bytes, size_t count) {
    if (count == 0) putchar('-');
    for (size_t i = 0; i < count; i++) printf("%02x", bytes[i]);
}

void class_of(const char *field, uint8_t flags[256]) {
    uint8_t packed[32];
    if (bytes_of(field, packed, 32) != 32) malformed("not a class", field);
    for (int b = 0; b < 256; b++) flags[b] = packed[b / 8] >> (b % 8) & 1;
}

void print_class(const uint8_t flags[256]) {
    uint8_t packed[32] = {0};
    for (int b = 0; b < 256; b++) packed[b / 8] |= flags[b] << (b % 8);
    print_bytes(packed, 32);
}
