/* What each of these programs begins with: they stand alone, and end in a loop. */
extern int main_part(int);
volatile int result;
void _start(void) {
    result = main_part(result);
    for (;;) {}
}
