/* A number in other bases, digit by digit: binary, octal, hexadecimal, by signed digits of three, in Gray's code,
   in Fibonacci's numbers, and in Roman ones. Characters are printed as their numbers.
   ARGS: 1987 36 */
#include <stdio.h>

static int digit_of(int value) {
    return value < 10 ? '0' + value : 'a' + value - 10;
}

/* The digits of a number from the first on, by recursion. */
static int put(unsigned long number, unsigned long base) {
    int before = number >= base ? put(number / base, base) : 0;
    putchar(digit_of((int)(number % base)));
    return before + 1;
}

static void put_line(unsigned long number, unsigned long base) {
    int digits = put(number, base);
    printf("%d\n", digits);
}

/* The digits of a number read backwards, as a number. */
static unsigned long turned(unsigned long number, unsigned long base) {
    unsigned long made = 0;
    for (; number != 0; number /= base)
        made = made * base + number % base;
    return made;
}

static unsigned long sum_of_digits(unsigned long number, unsigned long base) {
    unsigned long sum = 0;
    for (; number != 0; number /= base)
        sum += number % base;
    return sum;
}

/* Digits -1, 0 and 1 of base three: `-`, `0` and `+`. */
static void put_balanced(long number) {
    if (number == 0)
        return;
    long rest = (number % 3 + 3) % 3;
    long digit = rest == 2 ? -1 : rest;
    put_balanced((number - digit) / 3);
    putchar(digit < 0 ? '-' : digit == 0 ? '0' : '+');
}

/* Fibonacci's numbers, none of which follows the one before it. */
static void put_fibonacci(unsigned long number) {
    unsigned long small = 1, large = 2;
    while (large <= number) {
        unsigned long sum = small + large;
        small = large;
        large = sum;
    }
    while (large > 1) {
        putchar(number >= small ? '1' : '0');
        if (number >= small)
            number -= small;
        unsigned long difference = large - small;
        large = small;
        small = difference;
    }
}

/* The Roman digit of a place, and how much one is worth there. */
static int roman_digit(int at) {
    switch (at) {
    case 0: return 'M';
    case 1: return 'D';
    case 2: return 'C';
    case 3: return 'L';
    case 4: return 'X';
    case 5: return 'V';
    default: return 'I';
    }
}

static long roman_value(int at) {
    long value = 1000;
    for (int each = 0; each < at; each++)
        value /= each % 2 == 0 ? 2 : 5;
    return value;
}

static void put_roman(long number) {
    for (int at = 0; at < 7; at++) {
        for (; number >= roman_value(at); number -= roman_value(at))
            putchar(roman_digit(at));
        int less = at % 2 == 0 ? at + 2 : at + 1;
        if (less < 7 && number >= roman_value(at) - roman_value(less)) {
            putchar(roman_digit(less));
            putchar(roman_digit(at));
            number -= roman_value(at) - roman_value(less);
        }
    }
}

long bases(long number, long most) {
    if (number < 0 || most > 36)
        return -1;
    unsigned long plain = (unsigned long)number;
    long palindromes = 0;
    for (unsigned long base = 2; base <= (unsigned long)most; base++) {
        palindromes += turned(plain, base) == plain;
        if (base == 2 || base % 8 == 0)
            put_line(plain, base);
        printf("%ld\n", (long)sum_of_digits(plain, base));
    }
    put_line(plain ^ plain >> 1, 2);
    put_balanced(number);
    put_fibonacci(plain);
    put_roman(number % 4000);
    return palindromes;
}
