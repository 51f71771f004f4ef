/* A program that a dynamic linker starts (Linux, the GNU C library): it prints a line, and ends with the status that
   another module's data and its own thread-local data add up to: 42. The functions are the C library's: one is called by a stub,
   one through a slot, and one by an address in data. The library's variable is copied into the program, on AArch64 found
   through a slot. */
extern int optind;                                                            /* copied: 1 (POSIX, "getopt") */
long write(int file, const void *text, unsigned long length);                 /* called by a stub */
__attribute__((noplt)) int fsync(int file);                                   /* called through a slot */
__attribute__((noreturn)) void _exit(int status);                             /* called by an address in data */

/* a thread's own: its offset from the thread pointer is known */
static __thread volatile int left = 41;

static void (*volatile end)(int) = _exit;

static void say(const char *text) {
    unsigned long length = 0;
    while (text[length]) length++;
    write(1, text, length);
}

__attribute__((force_align_arg_pointer)) void _start(void) {
    say("A program's line, written by a library.\n");
    fsync(1);
    end(left + optind);
    __builtin_trap();
}
