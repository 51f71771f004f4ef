/* Prints a line and ends with the status 42 (Linux on x86-64), which is the sum of what seven references find: 1, 2, 3, 5, 7, 11 and 13.
   Each is compiled for a symbol that may be in any module: it goes through a slot, by a call of `__tls_get_addr` or through a
   descriptor. There is none of these: where the symbols are is known, so each such instruction is rewritten, and nothing is left that
   a loader would fill. The program makes a block of thread-local data for its one thread, and then begins. */
#include "start.h"

/* its address is in a slot: `mov` becomes `lea` */
int one = 1;

/* called through a slot */
__attribute__((noinline)) int two(void) { return 2; }

/* a jump through a slot comes to it */
__attribute__((noinline)) int and_three(int sum) { return sum + 3; }
__attribute__((noinline)) static int and_two_and_three(int sum) { return and_three(sum + two()); }

/* thread-local data: the offset is in a slot, which `mov` reads (initial exec) */
__thread int five __attribute__((tls_model("initial-exec"))) = 5;

/* a call answers the address of the symbol (general dynamic), or where the program's own data are (local dynamic) */
__thread int seven __attribute__((tls_model("global-dynamic"))) = 7;
static __thread volatile int eleven __attribute__((tls_model("local-dynamic"))) = 11;

/* a call through a descriptor leaves the offset in rax, as the compiler has it with `-mtls-dialect=gnu2` */
__thread int thirteen = 13;

__attribute__((noinline)) static int found_by_descriptor(void) {
    int found;
    __asm__("lea thirteen@tlsdesc(%%rip), %%rax\n\tcall *thirteen@tlscall(%%rax)\n\tmov %%fs:(%%rax), %%eax" : "=a"(found) : : "cc");
    return found;
}

/* a number and no place, which the linker is told: how long the line is. `mov` of the word in a slot becomes one of the number */
extern char length[];

__attribute__((noreturn, noinline)) static void run(void) {
    call(1, 1, "Seven found without a slot.\n", (long)length); /* write */
    call(60, and_two_and_three(one) + five + seven + eleven + found_by_descriptor(), 0, 0); /* exit */
    __builtin_unreachable();
}

__attribute__((noreturn)) void _start(void) {
    word room[6];
    make_thread(__ehdr_start, &room[4]);
    __asm__ volatile("" : : "r"(room) : "memory");
    run();
}
