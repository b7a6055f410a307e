#include <stdio.h>

static int fibonacci(int n) {
    if (n < 2)
        return n;
    return fibonacci(n - 1) + fibonacci(n - 2);
}

static void show(int n) {
    if (n > 9)
        show(n / 10);
    putchar('0' + n % 10);
}

int main(void) {
    for (int n = 0; n < 15; n += 3) {
        show(fibonacci(n));
        putchar('\n');
    }
    return 0;
}
