/* Buffers that are lent to a call. A buffer stands between two guards, and all of it is filled with a pattern before the call; what the call has to
 * leave as found is checked after it. A check that fails ends the program with status 3. */
#ifndef ORACLE_LENT_H
#define ORACLE_LENT_H

#include <stddef.h>
#include <stdint.h>

struct lent {
    uint8_t *bytes;  /* what is lent: aligned for every type */
    size_t size;     /* how many bytes are lent */
    size_t room;     /* how many have been allocated, guards not counted */
    uint8_t pattern; /* two patterns that are each other's complement differ in every byte */
};

/* Lends so many bytes, filled with a pattern. */
void lend(struct lent *lent, size_t size, uint8_t pattern);

/* The bytes from a place on, and both guards, are as found. */
void check_as_found(const struct lent *lent, size_t from, const char *what);

/* Ends the program unless it holds. */
void check(int holds, const char *what);

/* What a number that is to be written holds before the call. */
#define UNWRITTEN ((size_t)0x5a5a5a5a5a5a5a5a)

/* The number of the case, for messages. */
extern size_t case_number;

#endif
