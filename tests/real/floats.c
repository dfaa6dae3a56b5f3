/* Floating point: saved registers, loops in loops, early returns. */
#include "start.h"

static double a[4][4], b[4][4], c[4][4];

double power(double x, int n) {
    double y = 1;
    for (; n > 0; n >>= 1, x *= x)
        if (n & 1) y *= x;
    return y;
}

double root(double x) {
    double y = x > 1 ? x : 1;
    for (int i = 0; i < 20; i++) {
        double next = (y + x / y) / 2;
        if (next == y) return y;
        y = next;
    }
    return y;
}

void multiply(void) {
    for (int i = 0; i < 4; i++)
        for (int j = 0; j < 4; j++) {
            double s = 0;
            for (int k = 0; k < 4; k++) s += a[i][k] * b[k][j];
            c[i][j] = s;
        }
}

float clamp(float x, float low, float high) {
    if (x < low) return low;
    if (x > high) return high;
    return x;
}

double norm(void) {
    double s = 0;
    for (int i = 0; i < 4; i++)
        for (int j = 0; j < 4; j++) s += power(c[i][j], 2);
    return root(s);
}

int main_part(int seed) {
    for (int i = 0; i < 16; i++) {
        a[i / 4][i % 4] = seed + i;
        b[i % 4][i / 4] = clamp((float)seed, -10, 10) / (i + 1);
    }
    multiply();
    return (int)norm();
}
