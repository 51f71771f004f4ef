/* A shared object (Linux). Other modules see a function, an indirect function, data and a thread-local variable of it. Its
   constructor prints a line, once a loader has found by the dynamic section what it has to fill: slots, pairs of a module and an
   offset, words that pack addresses, and the answer of a resolver. */
long write(int file, const void *text, unsigned long length); /* another module has it */

/* the pair of this module and of the variable's offset there */
__thread int status = 2;

/* the pair of this module tells where offsets in its data count from */
static __thread int left __attribute__((tls_model("local-dynamic"))) = 2;

/* its offset from the thread pointer is in a slot, since a program has room there for libraries that it is started with */
static __thread int asked __attribute__((tls_model("initial-exec"))) = 2;

/* its address is in a slot */
int step = 20;

static const char *plain(void) { return "A library's line, chosen by a resolver.\n"; }
static const char *loud(void) { return "A LIBRARY'S LINE, CHOSEN BY A RESOLVER.\n"; }

/* the resolver: it chooses by a feature that every x86-64 processor has, SSE2 (Intel SDM, "CPUID", leaf 1), or on AArch64 by floating
   point, HWCAP_FP, which resolvers are told of */
static const char *(*chosen(unsigned long features))(void) {
#ifdef __x86_64__
    unsigned eax = 1, ebx, ecx = 0, edx;
    __asm__("cpuid" : "+a"(eax), "=b"(ebx), "+c"(ecx), "=d"(edx));
    features = edx >> 26;
#endif
    return features & 1 ? plain : loud;
}

/* an indirect function: a call of it goes to its stub, which goes to what the resolver answered */
const char *line(void) __attribute__((ifunc("chosen")));

void say(const char *text) {
    unsigned long length = 0;
    while (text[length]) length++;
    write(1, text, length);
    status += step;
    left--;
    asked--;
}

/* addresses in data, which move with the base */
static void (*const volatile rule)(const char *) = say;

__attribute__((constructor)) static void start(void) {
    say(line());
    rule(left == asked ? "Its data are found by its own tables.\n" : "Its data are lost.\n");
}
