/* Recursion and calls at the end of a function, which gcc turns into jumps at -O2. */
#include "start.h"

static int depth;

int odd(int n);

int even(int n) { return n == 0 ? 1 : odd(n - 1); }

int odd(int n) { return n == 0 ? 0 : even(n - 1); }

int fibonacci(int n) { return n < 2 ? n : fibonacci(n - 1) + fibonacci(n - 2); }

int ackermann(int m, int n) {
    if (m == 0) return n + 1;
    if (n == 0) return ackermann(m - 1, 1);
    return ackermann(m - 1, ackermann(m, n - 1));
}

int leaf(int a) { return a * 3 + 1; }

int forward(int a, int b) { return leaf(a + b); }

int choose(int a) {
    if (a > 100) return forward(a, 1);
    if (a < -100) return leaf(-a);
    depth++;
    return a;
}

int never(int a) {
    while (a != depth) a = leaf(a);
    for (;;) depth = choose(a);
}

int sum(int n, ...) {
    __builtin_va_list rest;
    int all = 0;
    __builtin_va_start(rest, n);
    while (n-- > 0) all += __builtin_va_arg(rest, int);
    __builtin_va_end(rest);
    return all;
}

int main_part(int seed) {
    if (seed == 77) return never(seed);
    return even(seed & 15) + fibonacci(seed & 7) + ackermann(1, seed & 3) + choose(seed) + sum(3, seed, 1, 2);
}
