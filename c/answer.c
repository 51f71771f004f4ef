/* Prints what `link` prints for the layout that plan_to_c.py wrote. The image is written twice: with 1 byte too few in `out`, which has
 * to change nothing, and then whole. */
#include "wild.h"
#include <stdio.h>
#include <stdlib.h>
#include <string.h>

enum { MOST = 1 << 28 };

const wild_layout *planned_layout(void);

static void print_warning(const wild_layout *layout, const wild_warning *warning)
{
    if (warning->warning == WILD_NO_WARNING)
        return;
    wild_bytes name = layout->symbols.at[warning->symbol].name;
    printf("warning cannot find entry symbol `%.*s`", (int)name.len, (const char *)name.at);
    if (warning->warning == WILD_ENTRY_DEFAULTED)
        printf(", defaulting to 0x%llx\n", (unsigned long long)warning->address);
    else
        printf(" and .text is empty, not setting entry point\n");
}

int main(void)
{
    const wild_layout *layout = planned_layout();
    uint64_t size = 0;
    wild_warning warning = { 7, 7, 7 };
    wild_fault fault;
    memset(&fault, 7, sizeof fault);
    uint32_t status = wild_image_size(layout, &size);
    if (status != WILD_WRITTEN || size > MOST)
        size = 0; /* a fault of the layout, which is found with any buffer */
    uint8_t *out = malloc(size + 1);
    uint64_t *counts = malloc((layout->sections.len + 1) * sizeof *counts);
    if (!out || !counts)
        return WILD_NO_MEMORY;
    memset(out, 0x5a, size + 1);
    status = wild_write(layout, out, size ? size - 1 : 1, counts, layout->sections.len, &warning, &fault);
    for (size_t i = 0; i <= size; i++)
        if (out[i] != 0x5a || (status != WILD_WRONG_SIZE && status != WILD_REFUSED) || warning.warning != 7)
            return 71;
    status = wild_write(layout, out, size, counts, layout->sections.len, &warning, &fault);
    if (out[size] != 0x5a)
        return 72;
    if (status == WILD_REFUSED) {
        uint8_t text[WILD_FAULT_TEXT];
        size_t used = 0;
        if (wild_fault_text(&fault, text, sizeof text, &used) != WILD_WRITTEN)
            return 73;
        fwrite(text, 1, used, stdout);
    } else if (status == WILD_WRITTEN) {
        printf("image %llu\n", (unsigned long long)size);
        print_warning(layout, &warning);
        for (size_t i = 0; i < layout->sections.len; i++)
            if (counts[i])
                printf("count %zu %llu\n", i, (unsigned long long)counts[i]);
        for (size_t i = 0; i < size; i++)
            printf("%02x%s", out[i], i % 32 == 31 || i + 1 == size ? "\n" : "");
    }
    free(out);
    free(counts);
    return (int)status;
}
