#include "lent.h"

#include <stdio.h>
#include <stdlib.h>

enum { GUARD = 64 };

size_t case_number;

void check(int holds, const char *what) {
    if (holds) return;
    fprintf(stderr, "case %zu of these: %s\n", case_number, what);
    exit(3);
}

/* The byte at a place that is counted from the first guard's beginning. */
static uint8_t found_at(const struct lent *lent, size_t place) { return (uint8_t)(place * 167 + (place >> 8) * 59) ^ lent->pattern; }

void lend(struct lent *lent, size_t size, uint8_t pattern) {
    if (lent->bytes == NULL || size > lent->room) {
        if (lent->bytes != NULL) free(lent->bytes - GUARD);
        lent->bytes = malloc(size + 2 * GUARD);
        check(lent->bytes != NULL, "no memory");
        lent->bytes += GUARD;
        lent->room = size;
    }
    lent->size = size;
    lent->pattern = pattern;
    for (size_t place = 0; place < size + 2 * GUARD; place++) (lent->bytes - GUARD)[place] = found_at(lent, place);
}

static int holds_found(const struct lent *lent, size_t from, size_t to) {
    for (size_t place = from; place < to; place++)
        if ((lent->bytes - GUARD)[place] != found_at(lent, place)) return 0;
    return 1;
}

void check_as_found(const struct lent *lent, size_t from, const char *what) {
    check(holds_found(lent, 0, GUARD), "bytes before a lent buffer are written");
    check(holds_found(lent, GUARD + from, GUARD + lent->size), what);
    check(holds_found(lent, GUARD + lent->size, lent->size + 2 * GUARD), "bytes behind a lent buffer are written");
}
