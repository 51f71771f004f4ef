// A program that a dynamic linker starts (Linux, the GNU C and C++ libraries): it throws through functions that have to clean up, and
// catches by the type. It ends with the status that the handlers and the clean-ups add up to: 42.
extern "C" long write(int file, const void *text, unsigned long length);
extern "C" [[noreturn]] void _exit(int status);

[[gnu::section(".data")]] static volatile int cleaned = 0;

// what is left when a function ends, by a return or by an exception
struct Cleaned {
    int worth;
    ~Cleaned() { cleaned += worth; }
};

static void say(const char *text) {
    unsigned long length = 0;
    while (text[length]) length++;
    write(1, text, length);
}

[[gnu::noinline]] static void thrown(int depth) {
    Cleaned each{1};
    if (depth == 0) throw 30;
    thrown(depth - 1);
    cleaned += 100; // not reached
}

[[gnu::noinline]] static int caught() {
    try {
        thrown(3);
    } catch (char) {
        return 1;
    } catch (int worth) {
        say("Caught behind four functions.\n");
        return worth;
    }
    return 2;
}

[[gnu::noinline]] static int caught_again() {
    try {
        Cleaned each{2};
        try {
            throw 'a';
        } catch (char) {
            throw; // on to the next handler
        }
    } catch (...) {
        say("Thrown on, and caught.\n");
        return 6;
    }
}

extern "C" [[gnu::force_align_arg_pointer]] void _start() {
    int worth = caught();
    worth += caught_again();
    _exit(worth + cleaned); // 30 and 6; 4 and 2
}
