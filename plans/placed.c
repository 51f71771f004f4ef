/* Code for `plans/run_placed.c`: a machine with a stack, whose instructions are functions in a table. The table has addresses that move with the base, the
   program is data that is written to, and the count is in memory that has no bytes in the file. */
typedef long (*Instruction)(long);

static long runs;
static long increment(long n) { return n + 1; }
static long twice(long n) { return 2 * n; }
static long square(long n) { return n * n; }
static const Instruction table[] = {increment, twice, square};
static const char *names[] = {"increment", "twice", "square"};
static unsigned char program[] = {0, 1, 2, 0};

static long length(const char *text) {
    long n = 0;
    while (text[n]) n++;
    return n;
}

/* ((2 (n + 1)) ^ 2 + 1) * 100 + the letters of the names + the runs so far */
long answer(long n) {
    long letters = 0;
    for (unsigned i = 0; i < sizeof program; i++) n = table[program[i]](n);
    for (unsigned i = 0; i < 3; i++) letters += length(names[i]);
    program[0] = 0;
    return 100 * n + letters + runs++;
}
