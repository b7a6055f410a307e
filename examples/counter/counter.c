#include <stdio.h>

static int base = 40;

static void raise(void) {
    base += 2;
}

/* Sums the square of `base` for each byte; a `!` raises it. */
int main(void) {
    int sum = 0;
    int byte;
    while ((byte = getchar()) != EOF) {
        sum += base * base;
        if (byte == '!')
            raise();
    }
    return sum;
}
