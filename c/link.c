/* The command `link 1` by the library: reads a plan from standard input, prints the answer, ends with its status. */
#include "wild.h"
#include <stdio.h>
#include <stdlib.h>

static uint8_t *read_all(size_t *len)
{
    size_t room = 1 << 16;
    uint8_t *text = malloc(room);
    *len = 0;
    while (text && !feof(stdin)) {
        *len += fread(text + *len, 1, room - *len, stdin);
        if (*len == room)
            text = realloc(text, room *= 2);
    }
    return text;
}

int main(void)
{
    size_t plan_len, used = 0, room = 1;
    uint8_t *plan = read_all(&plan_len), *out = malloc(room);
    if (!plan || !out)
        return WILD_NO_MEMORY;
    uint32_t status = wild_link_json(plan, plan_len, out, room, &used);
    if (status == WILD_WRONG_SIZE) {
        room = used;
        free(out);
        out = malloc(room);
        if (!out)
            return WILD_NO_MEMORY;
        status = wild_link_json(plan, plan_len, out, room, &used);
    }
    if (status != WILD_NO_MEMORY)
        fwrite(out, 1, used, stdout);
    free(out);
    free(plan);
    return (int)status;
}
