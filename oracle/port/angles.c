/* Angles: texts read, values written and read back. */
#include <stdio.h>
#include <string.h>

#include "balthwyr.h"
#include "lent.h"
#include "lines.h"
#include "port.h"

enum { BLOCK = BALTHWYR_ANGLE_BYTES, BEHIND = 4, OLD_ANGLE = 4200 };

struct angle {
    size_t kind;
    int32_t hundredths;
};

/* A text's angle, with digits or zeros behind the text. Without an angle there is no number, neither 0 nor the one before. */
static struct angle read_before(const uint8_t *text, size_t length, uint8_t behind) {
    static uint8_t lent[MOST + BEHIND];
    struct angle a = {UNWRITTEN, OLD_ANGLE};
    memcpy(lent, text, length);
    memset(lent + length, behind, BEHIND);
    check(balthwyr_read_angle(lent, length, &a.kind, &a.hundredths) == 0, "the reading of an angle is refused");
    check(memcmp(lent, text, length) == 0, "a text that is read is written");
    check(a.kind == BALTHWYR_ANGLE || a.kind == BALTHWYR_MISSING || a.kind == BALTHWYR_NOT_AN_ANGLE, "an answer is none of the three");
    check((a.kind == BALTHWYR_ANGLE) == (a.hundredths != BALTHWYR_NO_ANGLE), "what is no angle has a number, or an angle none");
    return a;
}

static void print_angle(const uint8_t *text, size_t length) {
    struct angle a = read_before(text, length, '5'), again = read_before(text, length, 0);
    check(a.kind == again.kind && a.hundredths == again.hundredths, "what stands behind a text is read");
    if (a.kind == BALTHWYR_ANGLE) printf("%d", a.hundredths);
    else fputs(a.kind == BALTHWYR_MISSING ? "missing" : "not-an-angle", stdout);
}

void answer_angle_text(char **fields, size_t count) {
    static uint8_t text[MOST];
    check(count == 1, "not one field");
    print_angle(text, bytes_of(fields[0], text, MOST));
}

/* A block that is too short gets 255, no length, and is as found. */
static void check_short(struct lent *block, size_t size, int32_t hundredths) {
    size_t length = UNWRITTEN;
    lend(block, size, (uint8_t)~case_number);
    check(balthwyr_write_angle(hundredths, block->bytes, size, &length) == BALTHWYR_SHORT && length == 0, "a short block is not refused by 255");
    check_as_found(block, 0, "a short block is written");
}

/* Writes a value's text to a block of seven bytes or a little more, of which only seven are written. */
static size_t write_to(struct lent *block, int32_t hundredths) {
    size_t length = UNWRITTEN;
    check_short(block, BLOCK - 1, hundredths);
    check_short(block, case_number % BLOCK, hundredths);
    lend(block, BLOCK + case_number % 3, (uint8_t)case_number);
    check(balthwyr_write_angle(hundredths, block->bytes, block->size, &length) == 0 && length <= BLOCK, "the writing of an angle is refused");
    check_as_found(block, BLOCK, "a block is written past seven bytes");
    return length;
}

void answer_angle_value(char **fields, size_t count) {
    static struct lent block;
    check(count == 1, "not one field");
    size_t length = write_to(&block, signed_of(fields[0]));
    printf("block ");
    print_bytes(block.bytes, BLOCK);
    printf(" length %zu text ", length);
    print_angle(block.bytes, length);
    printf(" whole ");
    print_angle(block.bytes, BLOCK);
}
