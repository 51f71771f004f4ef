/* Runs a function of a plan in this process, as a just-in-time compiler does. It reserves memory where the kernel puts it, asks the program for the
   plan's memory at that base (docs/PLACER.md), maps it and calls the function.

       run_placed WRITER PLAN SIZE ADDRESS NUMBER

   WRITER is the program that knows `place`. PLAN is a file with a plan whose addresses begin at 0 and need SIZE bytes. ADDRESS is that of a function
   in the plan, which takes and returns a long. It prints the base, and what the function answers to NUMBER. plans/check_placed.py makes such plans. */
#define _GNU_SOURCE
#include <stdio.h>
#include <stdlib.h>
#include <string.h>
#include <sys/mman.h>
#include <sys/wait.h>
#include <unistd.h>

static void stop(const char *what) {
    fprintf(stderr, "run_placed: %s\n", what);
    exit(1);
}

/* The base is a multiple of this: a page of either machine is no larger. */
#define PAGE 65536ul

static int digit(int c) { return c <= '9' ? c - '0' : c - 'a' + 10; }

/* Writes the request: the plan, and a world that has a base and nothing else. */
static FILE *request(const char *plan, unsigned long base) {
    FILE *from = fopen(plan, "r"), *to = tmpfile();
    int c;
    if (!from || !to) stop("the plan is not read");
    fputs("{\"plan\":", to);
    while ((c = getc(from)) != EOF) putc(c, to);
    fprintf(to, ",\"world\":{\"base\":%lu}}", base);
    fclose(from);
    rewind(to);
    return to;
}

/* The text of `place`, which is read while the writer runs. */
static FILE *text(const char *writer, FILE *from, pid_t *child) {
    int ends[2];
    if (pipe(ends)) stop("no pipe");
    fflush(0);
    *child = fork();
    if (*child < 0) stop("no process");
    if (*child == 0) {
        lseek(fileno(from), 0, SEEK_SET);
        dup2(fileno(from), 0);
        dup2(ends[1], 1);
        close(ends[0]);
        execl(writer, writer, "place", "1", (char *)0);
        _exit(127);
    }
    close(ends[1]);
    return fdopen(ends[0], "r");
}

/* Puts the file's bytes of each segment at its address. The rest of a segment is zero, as the kernel gave it. */
static void put(FILE *from, unsigned char *base, size_t size) {
    char *line = 0;
    size_t room = 0;
    ssize_t length;
    unsigned long address, count;
    unsigned char *next = base, *end = base;
    while ((length = getline(&line, &room, from)) > 0) {
        if (sscanf(line, "at %lu %lu", &address, &count) == 2) {
            if (next != end) stop("a segment has too few bytes");
            if (address < (unsigned long)base || address - (unsigned long)base + count > size) stop("a segment is outside");
            next = (unsigned char *)address;
            end = next + count;
            continue;
        }
        for (ssize_t i = 0; i + 2 < length; i += 2) {
            if (next == end) stop(line);
            *next++ = digit(line[i]) * 16 + digit(line[i + 1]);
        }
    }
    if (next != end) stop("a segment has too few bytes");
    free(line);
}

int main(int argc, char **argv) {
    if (argc != 6) stop("WRITER PLAN SIZE ADDRESS NUMBER");
    size_t size = strtoul(argv[3], 0, 0);
    unsigned char *room = mmap(0, size + PAGE, PROT_READ | PROT_WRITE, MAP_PRIVATE | MAP_ANONYMOUS, -1, 0);
    if (room == MAP_FAILED) stop("no memory");
    unsigned char *base = (unsigned char *)(((unsigned long)room + PAGE - 1) / PAGE * PAGE);
    pid_t child;
    int status;
    FILE *from = text(argv[1], request(argv[2], (unsigned long)base), &child);
    put(from, base, size);
    if (waitpid(child, &status, 0) != child || status) stop("the plan is not placed");
    if (mprotect(base, size, PROT_READ | PROT_WRITE | PROT_EXEC)) stop("the memory may not run");
    __builtin___clear_cache((char *)base, (char *)base + size);
    long (*function)(long) = (long (*)(long))(base + strtoul(argv[4], 0, 0));
    printf("base %p\nanswer %ld\n", (void *)base, function(strtol(argv[5], 0, 0)));
    return 0;
}
