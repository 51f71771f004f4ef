/* Prints the line of wild_fault_text for each fault, and tries structs that have none, and buffers that are too short. */
#include "wild.h"
#include <stdio.h>
#include <string.h>

/* The line has that status; in a buffer of its length it is written, in a shorter one nothing is. */
static int is_written(const wild_fault *fault, int prints)
{
    uint8_t text[WILD_FAULT_TEXT], same[WILD_FAULT_TEXT];
    size_t used = 7, needed = 7;
    memset(text, 0x5a, sizeof text);
    memcpy(same, text, sizeof text);
    if (wild_fault_text(fault, text, 0, &needed) != WILD_WRONG_SIZE || memcmp(text, same, sizeof text))
        return 0;
    if (wild_fault_text(fault, text, needed - 1, &used) != WILD_WRONG_SIZE || used != needed || memcmp(text, same, sizeof text))
        return 0;
    if (wild_fault_text(fault, text, needed, &used) != WILD_WRITTEN || used != needed || memcmp(text + needed, same, sizeof text - needed))
        return 0;
    if (prints)
        fwrite(text, 1, used, stdout);
    return text[needed - 1] == '\n';
}

/* The struct has no fault. */
static int is_none(const wild_fault *fault)
{
    uint8_t text[WILD_FAULT_TEXT];
    size_t used = 7;
    text[0] = 0x5a;
    return wild_fault_text(fault, text, sizeof text, &used) == WILD_NO_LAYOUT && used == 7 && text[0] == 0x5a;
}

int main(void)
{
    wild_fault fault;
    memset(&fault, 0xff, sizeof fault); /* the longest numbers, and no place */
    for (fault.fault = WILD_MALFORMED_LAYOUT; fault.fault <= WILD_OVERLAPPING_SITES; fault.fault++) {
        uint32_t most = fault.fault == WILD_MISSING_RESOLUTION ? 5 : fault.fault == WILD_BAD_FRAME_DATA ? 7 : 0;
        for (uint32_t n = 0; n < most; n++) {
            fault.number = n;
            if (!is_written(&fault, 1))
                return 70;
        }
        fault.number = most ? most : UINT32_MAX;
        if (most ? !is_none(&fault) : !is_written(&fault, 1))
            return 71;
    }
    fault.number = UINT32_MAX;
    if (!is_none(&fault)) /* one past the last fault */
        return 72;
    fault.fault = 0;
    if (!is_none(&fault))
        return 73;
    fault.fault = WILD_INSUFFICIENT_ALLOCATION; /* the longest line */
    fault.group = fault.file = fault.section = fault.offset = WILD_ABSENT - 1;
    return is_written(&fault, 0) ? 0 : 74;
}
