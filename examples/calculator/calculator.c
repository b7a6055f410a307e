#include <stdio.h>

/* Each line is a digit, a sign and a digit. Gives the sum of the values, or -1 where a sign isn't known. */
int main(void) {
    int total = 0;
    int left;
    while ((left = getchar()) != EOF) {
        int sign = getchar();
        int right = getchar();
        switch (sign) {
        case '+':
            total += left + right - 2 * '0';
            break;
        case '-':
            total += left - right;
            break;
        case '*':
            total += (left - '0') * (right - '0');
            break;
        default:
            return -1;
        }
        if (left - right > 0)
            putchar('>');
        getchar();
    }
    return total;
}
