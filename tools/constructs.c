/* One function for each construct of C that tools/from_c brings through. `construct` calls the one with a number;
   tools/test compares what it does as C and as MIR. */
#include <assert.h>
#include <stdint.h>
#include <stdio.h>
#include <stdlib.h>

void mir_print(long long);

typedef long long number;

static const int a_constant = 40;
static int never_changed = -3;

#define BINARY(name, type, operator) \
    static number name(number a, number b) { type x = a, y = b; type z = x operator y; return (number)z; }
#define ALL_TYPES(name, operator) \
    BINARY(name##_i8, int8_t, operator) BINARY(name##_u8, uint8_t, operator) \
    BINARY(name##_i16, int16_t, operator) BINARY(name##_u16, uint16_t, operator) \
    BINARY(name##_i32, int32_t, operator) BINARY(name##_u32, uint32_t, operator) \
    BINARY(name##_i64, int64_t, operator) BINARY(name##_u64, uint64_t, operator)

ALL_TYPES(sum, +)
ALL_TYPES(difference, -)
ALL_TYPES(product, *)
ALL_TYPES(quotient, /)
ALL_TYPES(rest, %)
ALL_TYPES(conjunction, &)
ALL_TYPES(disjunction, |)
ALL_TYPES(exclusion, ^)
ALL_TYPES(less, <)
ALL_TYPES(more_or_equal, >=)
ALL_TYPES(equal, ==)
ALL_TYPES(different, !=)
BINARY(left_i32, int32_t, <<)
BINARY(left_u32, uint32_t, <<)
BINARY(left_i64, int64_t, <<)
BINARY(left_u64, uint64_t, <<)
BINARY(right_i8, int8_t, >>)
BINARY(right_u16, uint16_t, >>)
BINARY(right_i32, int32_t, >>)
BINARY(right_u32, uint32_t, >>)
BINARY(right_i64, int64_t, >>)
BINARY(right_u64, uint64_t, >>)

static number constants(number a, number b) {
    uint32_t u = a;
    int32_t i = b;
    uint64_t w = a;
    number of_u = u / 10 + u % 10 + (u << 7) + (u >> 9), of_i = i / -7 + i % 16 + (i << 3) + (i >> 5);
    return of_u + of_i + w / 1000003 + w % 7 + (w >> 60);
}

static number conversions(number a, number b) {
    _Bool bit = a;
    char c = b;
    unsigned char u = c;
    short s = u * a;
    return bit + c + u + s + (unsigned)s + (number)(unsigned short)s + (a == b) + !b + ~a + -(int)b;
}

static number bits_of_bools(number a, number b) {
    _Bool x = a > 0, y = b > 0, z = x ^ y, v = x & y, w = x | !y;
    return x + 2 * y + 4 * z + 8 * v + 16 * w + 32 * (x == y) + 64 * (x < y) + 128 * (x > y);
}

static number logic(number a, number b) {
    return (a && b) + 2 * (a || b) + 4 * (a > b && b > 3) + 8 * !(a < b || a == 7);
}

static number choices(number a, number b) {
    number least = a < b ? a : b;
    unsigned number_most = (uint64_t)a > (uint64_t)b ? 1 : 2;
    return (a > 5 ? least : b < 0 ? -1 : a) + number_most;
}

static number small_switch(number a, number b) {
    switch ((int)a) {
    case 0: return b;
    case 1: b += 2; /* falls through */
    case 2: b += 3; break;
    case -3: return -b;
    default: b = 9;
    }
    return b * 2;
}

static number wide_switch(number a, number b) {
    number found = 0;
    switch ((unsigned char)a) {
    case 1: case 3: case 5: case 7: found = 1; break;
    case 2: case 4: case 6: found = b; break;
    case 253: found = 3; break;
    case 255: found = b + 1; break;
    }
    switch (a) {
    case -9223372036854775807 - 1: found += 5; break;
    case 9223372036854775807: found += 6; break;
    }
    return found;
}

static number loops(number a, number b) {
    number sum = 0;
    int i = (int)(a & 15);
    while (i > 0) { sum += i--; if (sum == 21) continue; sum ^= b; }
    do { sum -= 3; } while (++i < 4);
    for (int j = 0; j < 5; j++) {
        for (int k = j; k < 6; ++k) {
            if (k == 4) break;
            sum += j * k;
        }
    }
    return sum;
}

static number jumps(number a, number b) {
    int n = (int)(a & 7);
again:
    if (n == 0) goto out;
    n--;
    b += n;
    if (b & 1) goto again;
    b /= 2;
    goto again;
out:
    return b;
}

static number swaps(number a, number b) {
    number x = 1, y = 2, z = 3;
    for (int i = 0; i < (a & 7); i++) { number t = x; x = y; y = z; z = t + b; }
    for (int i = 0; i < 3; i++) { number t = x; x = y; y = t; }
    return x + 10 * y + 100 * z;
}

static number factorial(number n, number b) { return n <= 1 ? b : n * factorial(n - 1, b); }
static number is_odd(number n);
static number is_even(number n) { return n == 0 ? 1 : is_odd(n - 1); }
static number is_odd(number n) { return n == 0 ? 0 : is_even(n - 1); }
static number recursion(number a, number b) { return factorial(a & 15, b) + is_even(a & 31); }

static void show(short s, unsigned char c) { mir_print(s); mir_print(c); }

static number prints(number a, number b) {
    printf("%d\n", (int)a);
    printf("%u\n", (unsigned)b);
    printf("%ld\n", (long)a);
    printf("%lld\n", b);
    printf("%lu\n", (unsigned long)(unsigned short)a);
    int c = putchar((int)a);
    putchar('b');
    printf("%c", (char)b);
    show((short)a, (unsigned char)b);
    return c;
}

static number aborts(number a, number b) { if (a > b) abort(); return 1; }
static number asserts(number a, number b) { assert(a != b); return 2; }
static number globals(number a, number b) { return a_constant + never_changed * a - b; }

static number increments(number a, number b) {
    unsigned char c = a;
    int i = (int)b;
    number x = c++ + ++c, y = i-- - --i;
    x += (c += 200, c);
    x <<= 2; x |= y; x ^= 5; x %= 1000; i >>= 3; i *= 7; i /= 3; i &= 255;
    return x + i;
}

static number safe_quotient(number a, number b) {
    int x = (int)a, y = (int)b;
    return (y == 0 || (x == INT32_MIN && y == -1)) ? x : x / y;
}

static number greatest_divisor(number a, number b) {
    unsigned x = a, y = b;
    while (y) { unsigned t = x % y; x = y; y = t; }
    return x;
}

static number turned(number a, number b) {
    uint32_t u = a;
    uint64_t w = b;
    return (u << 5 | u >> 27) + (number)(w << 13 | w >> 51);
}

static number near_bounds(number a, number b) {
    int8_t c = a > 127 ? 127 : a < -128 ? -128 : a;
    uint8_t d = (uint64_t)b > 255 ? 255 : b;
    unsigned e = (unsigned)a > (unsigned)b ? (unsigned)a - (unsigned)b : 0;
    int f = (int)b < 0 ? -(int)b : (int)b;
    return c + d + e + f;
}

static number counted_bits(number a, number b) {
    unsigned u = (unsigned)a | 1;
    unsigned long long w = (unsigned long long)b | 1ull << 40;
    number counts = __builtin_popcount((unsigned)a) + 100 * __builtin_popcountll((unsigned long long)b);
    counts += 10000 * __builtin_clz(u) + 1000000 * __builtin_ctzll(w) + 100000000ll * __builtin_parity((unsigned)b);
    return counts + __builtin_clzll(w) + __builtin_ctz(u | 1u << 31);
}

static number swapped_bytes(number a, number b) {
    mir_print(__builtin_bswap16((uint16_t)a));
    mir_print(__builtin_bswap32((uint32_t)a));
    mir_print((number)__builtin_bswap64((uint64_t)b));
    mir_print(__builtin_bitreverse32((uint32_t)b));
    return (number)__builtin_rotateleft64((uint64_t)a, (uint64_t)b) + __builtin_rotateright32((uint32_t)a, (uint32_t)b);
}

static number overflowing_products(number a, number b) {
    number product;
    unsigned long long plain;
    unsigned small;
    int over = __builtin_mul_overflow(a, b, &product);
    over += 2 * __builtin_mul_overflow((unsigned long long)a, (unsigned long long)b, &plain);
    over += 4 * __builtin_mul_overflow((int)a, (unsigned)b, &small);
    over += 8 * __builtin_mul_overflow((int)a, (int)b, (int *)&small);
    mir_print(over);
    return product + (number)plain + small;
}

static void leave(int status) { if (status & 1) exit(status); }
static number exits(number a, number b) { leave((int)a); leave((int)b | 1); return 3; }

struct pair { char low; long high; };
static struct pair kept = {-3, 40};
static int four[4] = {1, 2, 3};
static const short table[3] = {10, -20, 30};

static number parts(number a, number b) {
    struct { int x; struct pair inner[2]; } local = {1, {{2, 3}, {4, 5}}};
    number two[2] = {a, b};
    local.inner[1].high += a;
    kept.high += two[1];
    kept.low++;
    four[3] = (int)b;
    four[0] += four[3];
    number sum = local.x + local.inner[0].low + local.inner[1].high + two[0] + kept.low + kept.high;
    return sum + four[0] + four[2] + table[1];
}

static const unsigned char days[12] = {31, 28, 31, 30, 31, 30, 31, 31, 30, 31, 30, 31};
static const number far[3] = {-5000000000, 7, 5000000000};
static const int16_t zeros[5];

static number tables(number a, number b) {
    number sum = days[(unsigned long long)a % 12] + far[(unsigned long long)b % 3] + zeros[b & 3] + days[1];
    for (int i = 0; i < 5; i++)
        sum = sum * 3 + "words"[i] + far[i % 3];
    return sum;
}

#define CASE(at, name) case at: return name(a, b);
#define CASES(at, name) CASE(at, name##_i8) CASE(at + 1, name##_u8) CASE(at + 2, name##_i16) CASE(at + 3, name##_u16) \
    CASE(at + 4, name##_i32) CASE(at + 5, name##_u32) CASE(at + 6, name##_i64) CASE(at + 7, name##_u64)

number construct(number which, number a, number b) {
    switch (which) {
    CASES(0, sum) CASES(8, difference) CASES(16, product) CASES(24, quotient) CASES(32, rest) CASES(40, conjunction)
    CASES(48, disjunction) CASES(56, exclusion) CASES(64, less) CASES(72, more_or_equal) CASES(80, equal)
    CASES(88, different)
    CASE(96, left_i32) CASE(97, left_u32) CASE(98, left_i64) CASE(99, left_u64)
    CASE(100, right_i8) CASE(101, right_u16) CASE(102, right_i32) CASE(103, right_u32) CASE(104, right_i64)
    CASE(105, right_u64)
    CASE(106, constants) CASE(107, conversions) CASE(108, bits_of_bools) CASE(109, logic) CASE(110, choices)
    CASE(111, small_switch) CASE(112, wide_switch) CASE(113, loops) CASE(114, jumps) CASE(115, swaps)
    CASE(116, recursion) CASE(117, prints) CASE(118, aborts) CASE(119, asserts) CASE(120, globals)
    CASE(121, increments) CASE(122, safe_quotient) CASE(123, greatest_divisor) CASE(124, turned)
    CASE(125, near_bounds) CASE(126, counted_bits) CASE(127, swapped_bytes) CASE(128, overflowing_products)
    CASE(129, exits) CASE(130, parts) CASE(131, tables)
    }
    return -1;
}
