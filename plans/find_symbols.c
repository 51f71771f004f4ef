/* Looks names up in libsymbols.so (the image of symbols.json) with the C library's dynamic linker: by name, and by name and version. Built
   by hand: gcc -o find_symbols find_symbols.c -ldl. Ends with status 0 where each is found that is there, and none that is not. */
#define _GNU_SOURCE
#include <dlfcn.h>
#include <stdio.h>

static int wrong;

static void *ask(void *library, const char *name, const char *version, int there) {
    void *found = version ? dlvsym(library, name, version) : dlsym(library, name);
    printf("%s%s%s: %s\n", name, version ? "@" : "", version ? version : "", found ? "found" : "none");
    wrong |= (found != 0) != there;
    return found;
}

int main(void) {
    void *library = dlopen("./libsymbols.so", RTLD_NOW);
    if (!library) { puts(dlerror()); return 1; }
    int (*once)(int) = (int (*)(int))ask(library, "once", 0, 1);
    int (*twice)(int) = (int (*)(int))ask(library, "twice", 0, 1);
    int (*thrice)(int) = (int (*)(int))ask(library, "thrice", 0, 1);
    void (*say)(const char *) = (void (*)(const char *))ask(library, "say", 0, 1);
    int *step = (int *)ask(library, "step", 0, 1);
    int *status = (int *)ask(library, "status", 0, 1);
    ask(library, "once", "FIRST", 1);
    ask(library, "once", "SECOND", 0);
    ask(library, "twice", "SECOND", 1);
    ask(library, "twice", "FIRST", 0);
    ask(library, "add", 0, 0);
    ask(library, "nothing", 0, 0);
    if (wrong) return 2;
    say("Found by name and version.\n");
    printf("%d %d %d %d %d\n", once(1), twice(1), thrice(1), *step, *status);
    return once(1) == 1 && twice(1) == 2 && thrice(1) == 3 && *step == 20 && *status == 22 ? 0 : 3;
}
