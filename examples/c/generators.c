/* Random generators and what statistics say of them: means, variances, counts in boxes, runs, pairs, and pi.
   ARGS: 42 800 */
#include <stdint.h>
#include <stdio.h>

/* A generator by its number, of one word of state each: sums and products, shifts, and the least standard. */
static uint32_t next(int kind, uint32_t state) {
    if (kind == 0)
        return state * 1103515245u + 12345u;
    if (kind == 1) {
        state ^= state << 13;
        state ^= state >> 17;
        return state ^ state << 5;
    }
    int64_t product = (int64_t)(state % 2147483647u) * 48271;
    return (uint32_t)(product % 2147483647);
}

/* A number from 0 to 999 of a state: of its high bits, which are better than the low ones. */
static int drawn(uint32_t state) {
    return (int)((uint64_t)(state >> 1 & 0x3FFFFFFF) * 1000 >> 30);
}

/* A root, rounded down. */
static int64_t root(int64_t number) {
    int64_t low = 0, high = 3037000499;
    while (low < high) {
        int64_t middle = low + (high - low + 1) / 2;
        if (middle * middle <= number)
            low = middle;
        else
            high = middle - 1;
    }
    return low;
}

/* The mean and the deviation, in hundredths, and the least and the greatest. */
static void moments(int kind, uint32_t seed, int count) {
    int64_t sum = 0, squares = 0;
    int least = 1000, greatest = -1;
    uint32_t state = seed;
    for (int at = 0; at < count; at++) {
        state = next(kind, state);
        int number = drawn(state);
        sum += number;
        squares += (int64_t)number * number;
        least = number < least ? number : least;
        greatest = number > greatest ? number : greatest;
    }
    int64_t mean = sum * 100 / count;
    printf("%lld\n", (long long)mean);
    printf("%lld\n", (long long)root(squares * 10000 / count - mean * mean));
    printf("%d\n", least);
    printf("%d\n", greatest);
}

/* How far five boxes are from being equally full: the sum of squares over what is expected, in thousandths. */
static int64_t boxes(int kind, uint32_t seed, int count) {
    int64_t a = 0, b = 0, c = 0, d = 0, e = 0, expected = count / 5;
    uint32_t state = seed;
    for (int at = 0; at < count; at++) {
        state = next(kind, state);
        switch (drawn(state) / 200) {
        case 0: a++; break;
        case 1: b++; break;
        case 2: c++; break;
        case 3: d++; break;
        default: e++;
        }
    }
    a -= expected, b -= expected, c -= expected, d -= expected, e -= expected;
    return (a * a + b * b + c * c + d * d + e * e) * 1000 / expected;
}

/* How often a number is greater than the one before, and how many runs that makes. */
static void runs(int kind, uint32_t seed, int count) {
    int ups = 0, turns = 0, was_up = 0, before = -1;
    uint32_t state = seed;
    for (int at = 0; at < count; at++) {
        state = next(kind, state);
        int is_up = drawn(state) > before;
        ups += is_up;
        turns += is_up != was_up;
        was_up = is_up;
        before = drawn(state);
    }
    printf("%d\n", ups);
    printf("%d\n", turns);
}

/* Pi in thousandths, by the points of a square that lie within a circle. */
static int64_t pi(int kind, uint32_t seed, int count) {
    int64_t inside = 0;
    uint32_t state = seed;
    for (int at = 0; at < count; at++) {
        state = next(kind, state);
        int x = drawn(state);
        state = next(kind, state);
        int y = drawn(state);
        inside += x * x + y * y < 1000 * 1000;
    }
    return inside * 4000 / count;
}

long generators(long seed, long count) {
    if (count < 5)
        return -1;
    for (int kind = 0; kind < 3; kind++) {
        moments(kind, (uint32_t)seed, (int)count);
        printf("%lld\n", (long long)boxes(kind, (uint32_t)seed, (int)count));
        runs(kind, (uint32_t)seed, (int)count);
        printf("%lld\n", (long long)pi(kind, (uint32_t)seed, (int)count));
    }
    return 0;
}
