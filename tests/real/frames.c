/* Frames of all kinds: large ones, ones of varying size, none; many saved registers. */
#include "start.h"

static int store[256];

int none(int x) { return x + 1; }

int large(int x) {
    volatile int room[3000];
    room[x & 1023] = x;
    room[2999] = none(x);
    return room[x & 1023] + room[2999];
}

int varying(int n) {
    volatile int *room = __builtin_alloca(4 * (unsigned)n);
    for (int i = 0; i < n; i++) room[i] = none(i);
    return room[n - 1];
}

int many(int a, int b, int c, int d, int e, int f, int g, int h) {
    int s = 0;
    for (int i = 0; i < 8; i++) {
        s += none(a) * b + none(c) * d;
        a = b + none(e), b = c, c = d, d = e, e = f, f = g, g = h, h = s;
    }
    return s + a + b + c + d + e + f + g + h;
}

void fill(int n) {
    for (int i = 0; i < 256; i++) store[i] = n * i;
}

int early(int x) {
    if (x < 0) return -1;
    if (store[x & 255] == 0) return 0;
    int y = none(x);
    if (y > 10) return large(y);
    return varying(y + 1);
}

int main_part(int seed) {
    fill(seed);
    return early(seed) + many(1, 2, 3, 4, 5, 6, 7, seed);
}
