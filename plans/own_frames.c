/* Finds the frame of one of its functions by the search table, as an unwinder does, prints a line, and ends with status 42 (Linux on
   x86-64; LSB, "The .eh_frame section", "The .eh_frame_hdr section"). Each function has a section of its own, so that one which
   nobody calls can be left out, with its frame. */
#include "start.h"

struct entry { int code, frame; };                                                          /* both from the table's start */
struct table { unsigned char version, encodings[3]; int frames; unsigned count; struct entry entries[]; };
struct frame { unsigned length, cie; int code; unsigned size; };                            /* the code from where it is told */

extern const struct table __GNU_EH_FRAME_HDR HIDDEN;

/* nobody calls it */
int left_out(const int *numbers) { return numbers[0] + numbers[1]; }

__attribute__((noinline)) int answer(void) {
    __asm__ volatile("");
    return 42;
}

/* the last entry whose code begins at an address or before it, by halves */
__attribute__((noinline)) static const struct entry *entry_of(const struct table *table, word address) {
    unsigned from = 0, to = table->count;
    while (from < to) {
        unsigned half = (from + to) / 2;
        if ((word)table + table->entries[half].code <= address) from = half + 1;
        else to = half;
    }
    return from ? &table->entries[from - 1] : 0;
}

/* whether the code has a frame that tells of it */
__attribute__((noinline)) static int has_frame(word address) {
    const struct table *table = &__GNU_EH_FRAME_HDR;
    const struct entry *entry = entry_of(table, address);
    if (!entry) return 0;
    const struct frame *frame = (const struct frame *)((word)table + entry->frame);
    word code = (word)&frame->code + frame->code;
    const unsigned *cie = (const unsigned *)((word)&frame->cie - frame->cie);
    return code <= address && address < code + frame->size && cie[1] == 0;
}

void _start(void) {
    static const char text[] = "A function has its frame.\n";
    int status = 1;
    if (has_frame((word)answer)) {
        call(1, 1, text, sizeof text - 1); /* write */
        status = answer();
    }
    call(60, status, 0, 0); /* exit */
}
