/* Lays out a program that prints a line, writes its image, and saves it: ./hello OUTPUT */
#include "wild.h"
#include <stdio.h>
#include <stdlib.h>
#include <sys/stat.h>

#define BASE 0x400000u
#define COUNT(list) (sizeof(list) / sizeof *(list))
#define BYTES(text) { (const uint8_t *)(text), sizeof(text) - 1 }

/* lea rsi, [rip + message]; mov edi, 1; mov edx, 14; mov eax, 1; syscall; xor edi, edi; mov eax, 60; syscall */
static const uint8_t code[] = { 0x48, 0x8d, 0x35, 0, 0, 0, 0, 0xbf, 1, 0, 0, 0, 0xba, 14, 0, 0, 0, 0xb8, 1, 0, 0, 0, 0x0f, 5,
                                0x31, 0xff, 0xb8, 60, 0, 0, 0, 0x0f, 5 };
enum { CODE = sizeof code, MESSAGE = 14, NAMES = 17, TEXT = CODE + MESSAGE, STRINGS = 128 + TEXT, HEADERS = 192 };

/* What the file holds: two headers, the text with the message, the names of sections, the section headers. */
static const wild_part parts[] = {
    { WILD_FILE_HEADER, 0, 0, BASE, 64, 8 },
    { WILD_PROGRAM_HEADERS, 0, 64, BASE + 64, 56, 8 },
    { WILD_RAW, 1, 128, BASE + 128, TEXT, 1 },
    { WILD_SHSTRTAB, 2, STRINGS, 0, NAMES, 1 },
    { WILD_SECTION_HEADERS, 0, HEADERS, 0, 192, 8 },
};
static const uint64_t part_sizes[] = { 64, 56, TEXT, NAMES, 192 };
static const wild_section sections[] = {
    WILD_SECTION_INIT,
    { .name = BYTES(".text"), .kind = 1, .flags = 6, .address = BASE + 128, .offset = 128, .size = TEXT, .align = 1 },
    { .name = BYTES(".shstrtab"), .kind = 3, .offset = STRINGS, .size = NAMES, .align = 1 },
};
static const wild_segment segments[] = { { 1, 5, 0, BASE, BASE, STRINGS, STRINGS, 4096 } };

int main(int argc, char **argv)
{
    /* the message is a symbol, and the code refers to it: R_X86_64_PC32 */
    wild_symbol message = WILD_SYMBOL_INIT;
    message.name = (wild_bytes)BYTES("message");
    message.place = WILD_IN_SECTION, message.place_index = 1, message.flags = WILD_FLAG_NON_INTERPOSABLE;
    wild_relocation reference = { .offset = 3, .addend = -4, .symbol = 0, .number = 2 };
    wild_input_section inputs[] = { WILD_INPUT_SECTION_INIT, WILD_INPUT_SECTION_INIT };
    inputs[0].slot = inputs[1].slot = WILD_LOADED, inputs[0].part = inputs[1].part = 2, inputs[0].flags = inputs[1].flags = 6;
    inputs[0].address = BASE + 128, inputs[0].size = CODE, inputs[0].bytes = (wild_bytes){ code, CODE };
    inputs[0].relocations = (wild_relocations){ &reference, 1 };
    inputs[1].address = BASE + 128 + CODE, inputs[1].size = MESSAGE, inputs[1].bytes = (wild_bytes)BYTES("Hello from C.\n");
    wild_file files[] = { WILD_FILE_INIT, WILD_FILE_INIT, WILD_FILE_INIT };
    files[0].role = WILD_PRELUDE, files[2].role = WILD_EPILOGUE;
    files[1].symbol_count = 1, files[1].sections = (wild_input_sections){ inputs, 2 };
    wild_group group = WILD_GROUP_INIT;
    group.files = (wild_files){ files, 3 }, group.part_sizes = (wild_numbers){ part_sizes, COUNT(part_sizes) };

    wild_layout layout = WILD_LAYOUT_INIT;
    layout.options.strip_all = 1, layout.page_size = 4096;
    layout.parts = (wild_parts){ parts, COUNT(parts) }, layout.sections = (wild_sections){ sections, COUNT(sections) };
    layout.segments = (wild_segments){ segments, 1 }, layout.symbols = (wild_symbols){ &message, 1 };
    layout.groups = (wild_groups){ &group, 1 }, layout.entry_kind = WILD_ENTRY_ADDRESS, layout.entry = BASE + 128;

    uint8_t image[HEADERS + 192];
    uint64_t counts[COUNT(sections)];
    wild_warning warning;
    wild_fault fault;
    uint32_t status = wild_write(&layout, image, sizeof image, counts, COUNT(counts), &warning, &fault);
    if (status != WILD_WRITTEN)
        return fprintf(stderr, "status %u, fault %u %u\n", status, fault.fault, fault.number), (int)status;
    const char *path = argc > 1 ? argv[1] : "hello";
    FILE *file = fopen(path, "wb");
    return file && fwrite(image, sizeof image, 1, file) == 1 && !fclose(file) && !chmod(path, 0755) ? 0 : 1;
}
