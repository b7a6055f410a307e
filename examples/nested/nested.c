#include <stdio.h>

/* Sums a table that has WIDTH columns and HEIGHT rows, both read as digits. */
int main(void) {
    int width = getchar() - '0';
    int height = getchar() - '0';
    int sum = 0;
    for (int row = 0; row < height; row++)
        for (int column = 0; column < width; column++)
            sum += width * height + row * 10 + column;
    return sum;
}
