/* Integer square roots, five ways: bit by bit, by Newton's steps, by halves, by odd numbers, and by digits of four.
   Each of `count` numbers from `first` on is rooted in every way; then cube roots and a test for squares.
   ARGS: 99970 80 */
#include <stdint.h>
#include <stdio.h>

/* From the highest pair of bits down: a bit of the root is set where the rest allows it. */
static uint32_t root_by_bits(uint32_t number) {
    uint32_t root = 0, bit = 1u << 30;
    while (bit > number)
        bit >>= 2;
    while (bit != 0) {
        if (number >= root + bit) {
            number -= root + bit;
            root = (root >> 1) + bit;
        } else {
            root >>= 1;
        }
        bit >>= 2;
    }
    return root;
}

/* The mean of a guess and of what it has to be multiplied with, until it grows no smaller. */
static uint32_t root_by_newton(uint32_t number) {
    if (number < 2)
        return number;
    uint32_t root = number / 2, next = (root + number / root) / 2;
    while (next < root) {
        root = next;
        next = (root + number / root) / 2;
    }
    return root;
}

/* A search in the numbers whose square is not too large. */
static uint32_t root_by_halves(uint32_t number) {
    uint32_t low = 0, high = 65535;
    while (low < high) {
        uint32_t middle = (low + high + 1) / 2;
        if (middle * middle <= number)
            low = middle;
        else
            high = middle - 1;
    }
    return low;
}

/* A square is a sum of odd numbers, as many as its root. */
static uint32_t root_by_odd_numbers(uint32_t number) {
    uint32_t root = 0;
    for (uint32_t odd = 1; number >= odd; odd += 2) {
        number -= odd;
        root++;
    }
    return root;
}

/* The root of a quarter, times two, and one more where that fits. */
static uint32_t root_by_quarters(uint32_t number) {
    if (number < 2)
        return number;
    uint32_t small = root_by_quarters(number / 4) * 2;
    uint32_t large = small + 1;
    return large * large <= number && large < 65536 ? large : small;
}

/* The cube root, three bits of the number for each of its own. */
static uint32_t cube_root(uint32_t number) {
    uint32_t root = 0;
    for (int shift = 30; shift >= 0; shift -= 3) {
        root *= 2;
        uint32_t more = 3 * root * (root + 1) + 1;
        if (number >> shift >= more) {
            number -= more << shift;
            root++;
        }
    }
    return root;
}

/* Whether a number is a square: most are not, as their low bits show. */
static int is_square(uint32_t number) {
    uint32_t low = number & 15;
    if (low != 0 && low != 1 && low != 4 && low != 9)
        return 0;
    uint32_t root = root_by_bits(number);
    return root * root == number;
}

long square_root(long first, long count) {
    long different = 0, sum = 0;
    for (uint32_t number = (uint32_t)first; number != (uint32_t)(first + count); number++) {
        uint32_t root = root_by_bits(number);
        different += root != root_by_newton(number);
        different += root != root_by_halves(number);
        different += root != root_by_odd_numbers(number);
        different += root != root_by_quarters(number);
        sum += root + cube_root(number);
        if (is_square(number))
            printf("%u\n", number);
    }
    printf("%ld\n", sum);
    return different;
}
