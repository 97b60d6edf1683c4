/* Reads case lines field by field and writes them again: what it changes, lines.c does not read or write as the oracle does.
 *     echo NAME < cases
 */
#include "lines.h"

#include <stdio.h>
#include <string.h>

static uint16_t words[MOST];
static uint32_t wide[MOST];
static uint8_t bytes[MOST];

/* One field by its form: w words, d words of 32 bits, b bytes, c a class, s classes with slashes between, n a number, o a number or `-`,
 * i a number that may be below 0. */
static void echo_field(char form, char *field) {
    uint8_t flags[256];
    putchar(' ');
    switch (form) {
    case 'w': print_words(words, words_of(field, words, MOST)); break;
    case 'd': print_words32(wide, words32_of(field, wide, MOST)); break;
    case 'b': print_bytes(bytes, bytes_of(field, bytes, MOST)); break;
    case 'c': class_of(field, flags); print_class(flags); break;
    case 'n': printf("%zu", number_of(field)); break;
    case 'i': printf("%d", signed_of(field)); break;
    case 'o': strcmp(field, "-") == 0 ? printf("-") : printf("%zu", number_of(field)); break;
    case 's':
        if (strcmp(field, "-") == 0) printf("-");
        for (size_t at = 0; strcmp(field, "-") != 0 && at < strlen(field); at += 65) {
            char one[65] = {0};
            memcpy(one, field + at, 64);
            if (at > 0) putchar('/');
            class_of(one, flags);
            print_class(flags);
        }
    }
}

/* The forms of a case's fields; the last one goes on for any more. */
static const char *forms(const char *name, const char *kind) {
    static const char *known[][3] = {
        {"classes", "class", "c"},    {"classes", "store", "nbc"}, {"priorities", "tree", "db"}, {"builds", "table", "nnow"},
        {"display", "graph", "w"},    {"readings", "table", "wb"}, {"readings", "graph", "wbn"}, {"plans", "plan", "wnnsn"},
        {"plans", "run", "wnnswb"},   {"angles", "text", "b"},     {"angles", "value", "i"},
    };
    for (size_t i = 0; i < sizeof known / sizeof *known; i++)
        if (strcmp(known[i][0], name) == 0 && strcmp(known[i][1], kind) == 0) return known[i][2];
    return NULL;
}

int main(int count, char **args) {
    static char line[8 * MOST];
    char *fields[128];
    while (count == 2 && fgets(line, sizeof line, stdin) != NULL) {
        size_t found = fields_of(line, fields, 128);
        const char *form = found > 0 ? forms(args[1], fields[0]) : NULL;
        if (form == NULL) return 2;
        fputs(fields[0], stdout);
        for (size_t i = 1; i < found; i++) {
            size_t last = strlen(form) - 1;
            echo_field(form[i - 1 < last ? i - 1 : last], fields[i]);
        }
        putchar('\n');
    }
    return count == 2 ? 0 : 2;
}
