#include <stdio.h>

/* The cyclic redundancy check of the input by the polynomial x^8 + x^2 + x + 1. */
int main(void) {
    unsigned char crc = 0;
    int byte;
    while ((byte = getchar()) != EOF) {
        crc = crc ^ byte;
        for (int bit = 0; bit < 8; bit++) {
            if (crc & 0x80)
                crc = (crc << 1) ^ 7;
            else
                crc = crc << 1;
        }
    }
    return crc;
}
