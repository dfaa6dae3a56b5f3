/* Switches, dense and sparse: gcc makes jump tables of the dense ones. */
#include "start.h"

static int state, total;

int dense(int op, int a, int b) {
    switch (op) {
    case 0: return a + b;
    case 1: return a - b;
    case 2: return a * b;
    case 3: return b ? a / b : 0;
    case 4: return a & b;
    case 5: return a | b;
    case 6: return a ^ b;
    case 7: return a << (b & 31);
    case 8: return a >> (b & 31);
    default: return 0;
    }
}

int sparse(int c) {
    switch (c) {
    case 10: return 1;
    case 1000: return 2;
    case 100000: return 3;
    case -7: return 4;
    }
    return 0;
}

/* Each case falls through or calls. */
void machine(int event) {
    switch (state) {
    case 0: state = event & 7; break;
    case 1: total += event; /* fall through */
    case 2: total += 2 * event; /* fall through */
    case 3: state = sparse(event); break;
    case 4: total = dense(event & 15, total, event); break;
    case 5: state = 6; break;
    case 6: total -= 1; state = 0; break;
    default: state = 1;
    }
}

int main_part(int seed) {
    for (int i = 0; i < 40; i++) machine(seed + i);
    return total + state;
}
