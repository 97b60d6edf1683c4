/* Reads texts as angles in hundredths of a degree, and writes each angle back.
 *
 *   (cd crates/capi && rt lib)
 *   gcc -Wall -Wextra -O2 -Iinclude examples/angles.c crates/capi/out/libcapi.a -o angles
 *   ./angles +1.5 -0.5 001.05 -0.00 --- 180.01
 *
 * prints
 *
 *   +1.5: 150, written 1.50
 *   -0.5: -50, written -0.50
 *   001.05: 105, written 1.05
 *   -0.00: 0, written 0.00
 *   ---: missing
 *   180.01: not an angle
 */
#include <stdio.h>
#include <string.h>

#include "balthwyr.h"

static void print_angle(const char *text)
{
    uint8_t written[BALTHWYR_ANGLE_BYTES];
    size_t kind, length;
    int32_t hundredths;

    balthwyr_read_angle((const uint8_t *)text, strlen(text), &kind, &hundredths);
    switch ((enum balthwyr_angle)kind) {
    case BALTHWYR_ANGLE:
        /* a block of this size is not refused; only its first `length` bytes are the text */
        balthwyr_write_angle(hundredths, written, sizeof written, &length);
        printf("%s: %d, written %.*s\n", text, hundredths, (int)length, (const char *)written);
        break;
    case BALTHWYR_MISSING: printf("%s: missing\n", text); break;
    case BALTHWYR_NOT_AN_ANGLE: printf("%s: not an angle\n", text); break;
    }
}

int main(int argc, char **argv)
{
    for (int i = 1; i < argc; i++) {
        print_angle(argv[i]);
    }
    return 0;
}
