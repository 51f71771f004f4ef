/* The second of two files that become one relocatable object: see partial.cpp. */
int sum;

static volatile int two = 2;

int add(int a, int b) {
    sum = a + b;
    return sum;
}

__attribute__((noinline)) inline int twice(int n) { return add(n, n); }

int four_times(int n) { return two * twice(n); }
