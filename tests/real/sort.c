/* Sorting three ways: a comparison by pointer, recursion, loops. */
#include "start.h"

typedef int (*compare)(int, int);

static int values[32];

int ascending(int a, int b) { return a - b; }

int descending(int a, int b) { return b - a; }

void swap(int *a, int *b) {
    int t = *a;
    *a = *b;
    *b = t;
}

void insertion(int *v, int n, compare by) {
    for (int i = 1; i < n; i++)
        for (int j = i; j > 0 && by(v[j - 1], v[j]) > 0; j--) swap(&v[j - 1], &v[j]);
}

void quick(int *v, int low, int high, compare by) {
    if (low >= high) return;
    int pivot = v[(low + high) / 2], i = low, j = high;
    while (i <= j) {
        while (by(v[i], pivot) < 0) i++;
        while (by(v[j], pivot) > 0) j--;
        if (i <= j) swap(&v[i++], &v[j--]);
    }
    quick(v, low, j, by);
    quick(v, i, high, by);
}

static void sift(int *v, int root, int n) {
    for (int child; (child = 2 * root + 1) < n; root = child) {
        if (child + 1 < n && v[child] < v[child + 1]) child++;
        if (v[root] >= v[child]) return;
        swap(&v[root], &v[child]);
    }
}

void heap(int *v, int n) {
    for (int i = n / 2 - 1; i >= 0; i--) sift(v, i, n);
    for (int i = n - 1; i > 0; i--) {
        swap(&v[0], &v[i]);
        sift(v, 0, i);
    }
}

int is_sorted(const int *v, int n) {
    for (int i = 1; i < n; i++)
        if (v[i - 1] > v[i]) return 0;
    return 1;
}

int main_part(int seed) {
    for (int i = 0; i < 32; i++) values[i] = seed = seed * 1103515245 + 12345;
    insertion(values, 16, descending);
    quick(values, 0, 31, ascending);
    heap(values, 32);
    return is_sorted(values, 32);
}
