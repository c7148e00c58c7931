/* A macro that writes its arguments twice: `optimise` evaluates no product a second time. */
#define GREATER(a, b) ((a) > (b) ? (a) : (b))

long greatest(long width, long height, long depth) {
    return GREATER(GREATER(width * height, height * depth), width * depth);
}
