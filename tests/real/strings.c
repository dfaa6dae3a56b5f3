/* Strings and bytes. */
#include "start.h"

typedef unsigned size;

static char line[64];
static const char digits[] = "0123456789abcdef";

void *copy(void *to, const void *from, size n) {
    char *t = to;
    const char *f = from;
    while (n--) *t++ = *f++;
    return to;
}

size length(const char *s) {
    size n = 0;
    while (s[n]) n++;
    return n;
}

int compare(const char *a, const char *b) {
    while (*a && *a == *b) a++, b++;
    return (unsigned char)*a - (unsigned char)*b;
}

const char *find(const char *s, int c) {
    for (; *s; s++)
        if (*s == (char)c) return s;
    return 0;
}

void reverse(char *s) {
    size i = 0, j = length(s);
    while (i + 1 < j) {
        char t = s[i];
        s[i++] = s[--j];
        s[j] = t;
    }
}

size number(char *to, unsigned n, unsigned base) {
    size at = 0;
    do to[at++] = digits[n % base];
    while (n /= base);
    to[at] = 0;
    reverse(to);
    return at;
}

int parse(const char *s) {
    int n = 0, sign = 1;
    if (*s == '-') {
        sign = -1;
        s++;
    }
    for (const char *d; (d = find(digits, *s)) && *s; s++) n = 10 * n + (int)(d - digits);
    return sign * n;
}

unsigned hash(const void *data, size n) {
    const unsigned char *p = data;
    unsigned h = 2166136261u;
    for (size i = 0; i < n; i++) h = (h ^ p[i]) * 16777619u;
    return h;
}

int main_part(int seed) {
    char twice[64];
    size n = number(line, (unsigned)seed, 10);
    copy(twice, line, n + 1);
    reverse(twice);
    reverse(twice);
    return parse(line) + compare(line, twice) + (int)hash(line, n);
}
