/* Prints a line whose halves a function gives that a resolver chooses, and ends with the status that a thread-local variable has: 42
   (Linux on x86-64). The code finds functions and data through slots of the global offset table, and the chosen function by a
   stub. Where it asks for thread-local data it is rewritten, as it has to be in a static executable. The program is loaded at a base
   that the system chooses, and nobody helps it there. So it does first what a loader does, in code that uses no slot: it adds the base
   at each place that the dynamic section tells of, and stores what the resolvers answer (gABI, "Relocation", "Relative Relocation
   Table"; x86-64 psABI, "Relocation Types", R_X86_64_IRELATIVE). Then it makes a block of thread-local data for its one thread. */
#include "start.h"

struct entry { word tag, value; };
struct rela { word place, type, addend; };

enum { DT_PLTRELSZ = 2, DT_JMPREL = 23, DT_RELRSZ = 35, DT_RELR = 36 };

extern struct entry _DYNAMIC[] HIDDEN; /* the dynamic section */

/* ---- what the program says */

/* a thread's own: its offset from the thread pointer is in a slot */
__thread int status __attribute__((tls_model("initial-exec"))) = 2;

/* a thread's own: the pair of the program's module tells where offsets in its data count from */
static __thread int left __attribute__((tls_model("local-dynamic"))) = 2;

struct pair { word module, offset; };
HIDDEN void *__tls_get_addr(struct pair *pair); /* the call that code of this model makes */

/* its address is in a slot */
int step = 20;

static const char *plain(int half) { return half ? "found through slots.\n" : "Chosen by a resolver, "; }
static const char *loud(int half) { return half ? "FOUND THROUGH SLOTS.\n" : "CHOSEN BY A RESOLVER, "; }

/* the resolver: it chooses by a feature that every x86-64 processor has, SSE2 (Intel SDM, "CPUID", leaf 1) */
static const char *(*chosen(void))(int) {
    unsigned eax = 1, ebx, ecx = 0, edx;
    __asm__("cpuid" : "+a"(eax), "=b"(ebx), "+c"(ecx), "=d"(edx));
    return edx >> 26 & 1 ? plain : loud;
}

/* an indirect function: a call of it goes to its stub, and its address, in a second slot, is the stub's */
const char *line(int half) __attribute__((ifunc("chosen")));

/* called through a slot */
__attribute__((noplt, noinline)) void say(const char *text) {
    long length = 0;
    while (text[length]) length++;
    call(1, 1, text, length); /* write */
    status += step;
    left--;
}

/* ---- what a loader does */

static word found(word tag) {
    for (struct entry *e = _DYNAMIC; e->tag; e++)
        if (e->tag == tag) return e->value;
    return 0;
}

static void add_base(word base) {
    word *words = (word *)(base + found(DT_RELR)), *next = 0;
    for (word i = 0; i < found(DT_RELRSZ) / sizeof *words; i++) {
        if (words[i] % 2 == 0) {
            next = (word *)(base + words[i]);
            *next++ += base;
        } else {
            for (int bit = 1; bit < 64; bit++)
                if (words[i] >> bit & 1) next[bit - 1] += base;
            next += 63;
        }
    }
}

static void ask_resolvers(word base) {
    struct rela *entries = (struct rela *)(base + found(DT_JMPREL));
    for (word i = 0; i < found(DT_PLTRELSZ) / sizeof *entries; i++)
        *(word *)(base + entries[i].place) = ((word(*)(void))(base + entries[i].addend))();
}

/* the program is module 1 */
void *__tls_get_addr(struct pair *pair) {
    char *block;
    __asm__("mov %%fs:8, %0" : "=r"(block));
    return pair->module == 1 ? block + pair->offset : 0;
}

__attribute__((noreturn, noinline)) static void run(void) {
    const char *(*volatile rule)(int) = line;
    say(line(0));
    say(rule(1));
    call(60, left ? 1 : status, 0, 0); /* exit */
    __builtin_unreachable();
}

__attribute__((noreturn)) void _start(void) {
    word room[6];
    add_base((word)__ehdr_start);
    ask_resolvers((word)__ehdr_start);
    make_thread(__ehdr_start, &room[4]);
    __asm__ volatile("" : : "r"(room) : "memory");
    run();
}
