/* Prints a line three calls deep, and ends with status 42 (Linux on x86-64). It is compiled with what debuggers read, so that one can stop in
   `answer`, and tell the lines and the calls by which the program came there. Each function has a section of its own, so that one which
   nobody calls can be left out: the debug sections tell of it too, and have 0 in place of its address. */
#include "start.h"

struct question { const char *text; unsigned length; int parts[3]; };

static const struct question asked = {"Three calls deep.\n", 18, {20, 20, 2}};

/* nobody calls it */
int left_out(const int *parts) { return parts[0] - parts[1]; }

__attribute__((noinline)) static int answer(const int *parts, int count) {
    int sum = 0;
    for (int i = 0; i < count; i++) sum += parts[i];
    return sum;
}

__attribute__((noinline)) static int ask(const struct question *question) {
    call(1, 1, question->text, question->length); /* write */
    int sum = answer(question->parts, 3);
    return sum;
}

int main(void) {
    int status = ask(&asked);
    return status;
}

void _start(void) {
    int status = main();
    call(60, status, 0, 0); /* exit */
}
