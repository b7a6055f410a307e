static int squares;

/* Counts in `squares` the numbers whose least divisor above 1 is their root. */
static int is_prime(int n) {
    for (int d = 2; d * d <= n; d++) {
        if (n % d == 0) {
            if (d * d == n)
                squares++;
            return 0;
        }
    }
    return 1;
}

int main(void) {
    int primes = 0;
    for (int n = 2; n < 60; n++)
        primes += is_prime(n);
    return primes * 10 + squares;
}
