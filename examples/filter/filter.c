#include <stdio.h>

/* Shows a text with a capital at the front of each word, and gives the number of words. */
int main(void) {
    int words = 0;
    int inside = 0;
    int byte;
    while ((byte = getchar()) != EOF) {
        if (byte == ' ' || byte == '\n') {
            inside = 0;
        } else if (inside == 0) {
            inside = 1;
            words++;
            if ((unsigned) (byte - 'a') < 26)
                byte = byte - 'a' + 'A';
        }
        putchar(byte);
    }
    return words;
}
