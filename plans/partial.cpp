/* The first of two files that become one relocatable object, which a linker makes into a program: it prints a line and ends with status 42
   (Linux on x86-64). Both files have `twice`, in a group of sections of which a linker keeps one (gABI, "Section Groups"). The file
   takes functions and data of the other one, which the object has too, and the symbol `_end`, which it leaves to the last linker. */
#include "start.h"

extern int sum; /* the other file's, zeroed */
extern char _end[];

int add(int a, int b);
int four_times(int n);

__attribute__((noinline)) inline int twice(int n) { return add(n, n); }

static const char *const halves[] = {"One object ", "of two files.\n"};
static const unsigned sizes[] = {11, 14};

int status = 1;

extern "C" void _start() {
    for (int i = 0; i < 2; i++) call(1, 1, halves[i], sizes[i]); /* write */
    if ((char *)&sum < _end) status = four_times(10) + twice(1);
    call(60, status, 0, 0); /* exit */
}
