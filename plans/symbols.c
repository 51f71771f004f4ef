/* A shared object whose names are found by a dynamic linker (Linux, the GNU C library): functions and data in two versions of its own, a
   function that it needs of the C library in a version, and local symbols for debuggers. */
long write(int file, const void *text, unsigned long length); /* needed as write@GLIBC_2.2.5, on AArch64 as write@GLIBC_2.17 */

/* version FIRST */
int once(int x) { return x; }
int step = 20;

/* local */
static int add(int x, int y) { return x + y; }
static int (*const volatile sum)(int, int) = add;

/* version SECOND, which comes after FIRST */
int twice(int x) { return sum(x, x); }
__thread int status = 2;

/* an indirect function */
static int by_three(int x) { return 3 * x; }
static int (*chosen(void))(int) { return by_three; }
int thrice(int x) __attribute__((ifunc("chosen")));

void say(const char *text) {
    unsigned long length = 0;
    while (text[length]) length++;
    write(1, text, length);
    status += step;
}
