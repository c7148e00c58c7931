/* Self tail calls and a small function: `join` and `tails` leave one loop without calls. */
static long square(long x) {
    return x * x;
}

long power(long base, long n, long product) {
    if (n == 0)
        return product;
    if (n % 2 == 1)
        return power(base, n - 1, product * base);
    return power(square(base), n / 2, product);
}
