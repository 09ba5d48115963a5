/* Algorithm H: D. E. Knuth, The Art of Computer Programming, 7.2.1.1, loopless reflected mixed-radix Gray generation. Twice: as
 * it is described there, and tuned.
 *
 * As there, digit 0 is the fastest, the focus pointer f_0 says which digit moves next, and a digit that has come to either end
 * of its sweep turns and hands its focus pointer on. What is visited is not the word but the move that leads to it.
 *
 * Both functions write the first moves of the list, at most t of them, and return how many they are. A move's byte is the digit
 * in the low seven bits, where digits count from 1 and digit 1 is the last of the radices, and the top bit set for down.
 * Nothing is tested: there are at most 48 digits, no radix is 0, and out has room for t bytes.
 *
 * build.rs says what NAME adds to a name, so that the functions of two compilers can stand in one program. */
#include <stddef.h>
#include <stdint.h>
#include <string.h>

enum { MOST_DIGITS = 48, DOWN = 0x80 };

/* Locked digits, of radix 1, are left out: j runs over the moving ones, whose count n is returned. Of each of them the number
 * in the survey, the radix m_j and the focus pointer f_j = j; f_n = n too. */
static size_t moving_digits(const uint8_t *radices, size_t digits, uint8_t *number, uint8_t *m, uint8_t *f) {
    size_t n = 0;
    for (size_t digit = 1; digit <= digits; digit++) {
        uint8_t radix = radices[digits - digit];
        if (radix > 1) {
            number[n] = digit;
            m[n] = radix;
            f[n] = n;
            n++;
        }
    }
    f[n] = n;
    return n;
}

/* Step by step as it is described, with its arrays: a the word, o the directions, f the focus pointers and m the radices. Only
 * the visit (there H2) comes between H4 and H5, since H5 may turn the direction that the move had. Bytes hold all of it, and
 * wider types were no faster on the whole. */
size_t NAME(algorithm_h)(const uint8_t *radices, size_t digits, size_t t, uint8_t *out) {
    uint8_t a[MOST_DIGITS], f[MOST_DIGITS + 1], m[MOST_DIGITS], number[MOST_DIGITS];
    int8_t o[MOST_DIGITS];
    /* H1. Whole arrays: a length that the compiler knows is set faster than the first n places. */
    size_t n = moving_digits(radices, digits, number, m, f);
    memset(a, 0, sizeof a);
    memset(o, 1, sizeof o);

    for (size_t made = 0; made < t; made++) {
        /* H3 */
        size_t j = f[0];
        f[0] = 0;
        /* H4 */
        if (j == n) {
            return made;
        }
        a[j] += o[j];
        /* The visit: of o_j = -1 the top bit is set, of o_j = 1 it is not. */
        out[made] = number[j] | (o[j] & DOWN);
        /* H5 */
        if (a[j] == 0 || a[j] == m[j] - 1) {
            o[j] = -o[j];
            f[j] = f[j + 1];
            f[j + 1] = j + 1;
        }
    }
    return t;
}

/* The same algorithm, tuned. What was changed:
 *
 * - f_0 is a variable of its own, `first`, which stays in a register; f[0] is not used. With all focus pointers in memory each
 *   move waits for the store of the one before. This brings the most, and without it the other two bring nothing.
 * - The word is not kept. Of a digit it is enough to count the moves that are left of its sweep, so one test tells that it has
 *   come to an end, where a_j takes two.
 * - In place of o_j stands the byte of the digit's move in its direction: it is written as it is. */
size_t NAME(algorithm_h_tuned)(const uint8_t *radices, size_t digits, size_t t, uint8_t *out) {
    uint8_t f[MOST_DIGITS + 1], m[MOST_DIGITS], move[MOST_DIGITS];
    uint8_t sweep[MOST_DIGITS], left[MOST_DIGITS];
    /* The byte of a move up is the digit's number. */
    size_t n = moving_digits(radices, digits, move, m, f);
    for (size_t j = 0; j < n; j++) {
        sweep[j] = left[j] = m[j] - 1;
    }

    size_t first = 0;
    for (size_t made = 0; made < t; made++) {
        size_t j = first;
        first = 0;
        if (j == n) {
            return made;
        }
        out[made] = move[j];
        if (--left[j] == 0) {
            left[j] = sweep[j];
            move[j] ^= DOWN;
            uint8_t after = f[j + 1];
            f[j + 1] = j + 1;
            if (j == 0) {
                first = after;
            } else {
                f[j] = after;
            }
        }
    }
    return t;
}
