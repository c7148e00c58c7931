/* A whole program: numbers of 32 bits, a global variable of `main` alone, and prints. Each product is evaluated once. */
#include <stdio.h>

static int count;

int main(void) {
    for (int k = 1; k * k <= 50; k++)
        if (k * k % 2 == 1) {
            printf("%d\n", k * k);
            count++;
        }
    return count;
}
