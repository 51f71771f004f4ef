/* Calls of wild_write by four threads at once, and with each allocation refused in turn, alone and with all that follow, over the layout
 * that plan_to_c.py wrote.
 * Linked with --wrap=malloc and --wrap=realloc. */
#include "wild.h"
#include <pthread.h>
#include <stdio.h>
#include <stdlib.h>
#include <string.h>

enum { THREADS = 4, CALLS = 25 };

const wild_layout *planned_layout(void);
void *__real_malloc(size_t);
void *__real_realloc(void *, size_t);
void *__wrap_malloc(size_t);
void *__wrap_realloc(void *, size_t);

static long allowed = -1; /* allocations until one is refused; below 0: no one is */
static int later_too;     /* whether those after it are refused too */
static int refused;

static int refuses(void)
{
    if (allowed < 0)
        return 0;
    if (allowed > 0) {
        allowed--;
        return 0;
    }
    refused = 1;
    if (!later_too)
        allowed = -1;
    return 1;
}

void *__wrap_malloc(size_t size)
{
    return refuses() ? NULL : __real_malloc(size);
}

void *__wrap_realloc(void *block, size_t size)
{
    return refuses() ? NULL : __real_realloc(block, size);
}

typedef struct {
    uint64_t size;
    uint8_t *out;
    uint64_t *counts;
    wild_warning warning;
    wild_fault fault;
    uint32_t status;
} call;

static const wild_layout *layout;

static call prepared(uint64_t size)
{
    call c = { size, __real_malloc(size + 1), __real_malloc((layout->sections.len + 1) * sizeof(uint64_t)), { 0 }, { 0 }, 0 };
    memset(c.out, 0x5a, size + 1);
    memset(c.counts, 0x5a, (layout->sections.len + 1) * sizeof(uint64_t));
    memset(&c.warning, 0x5a, sizeof c.warning);
    memset(&c.fault, 0x5a, sizeof c.fault);
    return c;
}

static void run(call *c)
{
    c->status = wild_write(layout, c->out, c->size, c->counts, layout->sections.len, &c->warning, &c->fault);
}

static int same(const call *a, const call *b)
{
    return a->status == b->status && !memcmp(a->out, b->out, a->size + 1)
        && !memcmp(a->counts, b->counts, (layout->sections.len + 1) * sizeof(uint64_t))
        && a->warning.warning == b->warning.warning && a->fault.fault == b->fault.fault && a->fault.offset == b->fault.offset;
}

static void forget(call *c)
{
    free(c->out);
    free(c->counts);
}

static call first;

static void *work(void *wrong)
{
    for (int i = 0; i < CALLS; i++) {
        call c = prepared(first.size);
        run(&c);
        if (!same(&c, &first))
            *(int *)wrong = 1;
        forget(&c);
    }
    return NULL;
}

int main(void)
{
    layout = planned_layout();
    uint64_t size = 0;
    if (wild_image_size(layout, &size) != WILD_WRITTEN)
        return 70;
    first = prepared(size);
    run(&first);

    int wrong[THREADS] = { 0 };
    pthread_t threads[THREADS];
    for (int i = 0; i < THREADS; i++)
        pthread_create(&threads[i], NULL, work, &wrong[i]);
    for (int i = 0; i < THREADS; i++) {
        pthread_join(threads[i], NULL);
        if (wrong[i])
            return 71;
    }

    /* A call without memory says so, and changes nothing. If one allocation alone is refused, a smaller one may do. */
    call untouched = prepared(size);
    untouched.status = WILD_NO_MEMORY;
    long count = 0;
    for (later_too = 0; later_too < 2; later_too++) {
        for (count = 0;; count++) {
            call c = prepared(size);
            refused = 0;
            allowed = count;
            run(&c);
            allowed = -1;
            int is_written = same(&c, &first), is_untouched = same(&c, &untouched);
            forget(&c);
            if (refused ? !is_untouched && (later_too || !is_written) : !is_written)
                return 72 + later_too;
            if (!refused)
                break;
        }
    }
    forget(&untouched);
    forget(&first);
    printf("%d calls by %d threads; %ld allocations refused\n", THREADS * CALLS, THREADS, count);
    return 0;
}
