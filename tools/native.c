/* What a C program is linked with to be compared with its MIR: each number and each character is printed as a line with
   its number. With ENTRY it also has the `main`, which calls ENTRY with the inputs, at most six of 64 bits. */
#include <stdarg.h>
#include <stdio.h>
#include <stdlib.h>
#include <string.h>
#include <sys/time.h>

/* A program that takes more than a quarter of a second of the processor is ended by the signal SIGPROF. */
__attribute__((constructor)) static void limit(void) {
    struct itimerval once = {{0, 0}, {0, 250000}};
    setitimer(ITIMER_PROF, &once, NULL);
}

void mir_print(long long number) {
    fprintf(stdout, "%lld\n", number);
    fflush(stdout);
}

int putchar(int character) {
    mir_print((unsigned char)character);
    return (unsigned char)character;
}

int printf(const char *format, ...) {
    va_list arguments;
    va_start(arguments, format);
    int written = 1;
    if (strcmp(format, "%c") == 0)
        putchar(va_arg(arguments, int));
    else
        written = vfprintf(stdout, format, arguments);
    fflush(stdout);
    va_end(arguments);
    return written;
}

#ifdef ENTRY
long long ENTRY();

int main(int count, char **words) {
    long long inputs[16] = {0};
    for (int at = 1; at < count && at <= 16; at++)
        inputs[at - 1] = strtoll(words[at], NULL, 10);
    fprintf(stdout, "result %lld\n", ENTRY(inputs[0], inputs[1], inputs[2], inputs[3], inputs[4], inputs[5]));
    return 0;
}
#endif
