/* Prints what `place` prints for the layout that plan_to_c.py wrote, in a world with base 0 and without answers. */
#include "wild.h"
#include <stdio.h>
#include <stdlib.h>
#include <string.h>

enum { PT_LOAD = 1, MOST = 1 << 28 };

const wild_layout *planned_layout(void);

int main(void)
{
    const wild_layout *layout = planned_layout();
    const wild_world world = WILD_WORLD_INIT;
    wild_fault fault;
    wild_load_fault load_fault;
    uint64_t size = 0;
    for (size_t i = 0; i < layout->segments.len; i++)
        if (layout->segments.at[i].kind == PT_LOAD)
            size += layout->segments.at[i].mem_size;
    if (size > MOST)
        size = 0;
    uint8_t *out = malloc(size + 1);
    if (!out)
        return WILD_NO_MEMORY;
    memset(out, 0x5a, size + 1);
    uint32_t status = wild_place(layout, &world, out, size + 1, &fault, &load_fault);
    for (size_t i = 0; i <= size; i++)
        if (status == WILD_WRITTEN || out[i] != 0x5a)
            return 71;
    status = wild_place(layout, &world, out, size, &fault, &load_fault);
    if (out[size] != 0x5a)
        return 72;
    if (status == WILD_NOT_PLACED)
        printf("not placed %u %llu\n", load_fault.fault, (unsigned long long)load_fault.value);
    const uint8_t *bytes = out;
    for (size_t i = 0; status == WILD_WRITTEN && i < layout->segments.len; i++) {
        const wild_segment *segment = &layout->segments.at[i];
        if (segment->kind != PT_LOAD)
            continue;
        printf("at %llu %llu\n", (unsigned long long)segment->address, (unsigned long long)segment->file_size);
        for (uint64_t k = 0; k < segment->file_size; k++)
            printf("%02x%s", bytes[k], k % 32 == 31 || k + 1 == segment->file_size ? "\n" : "");
        bytes += segment->mem_size;
    }
    free(out);
    return (int)status;
}
