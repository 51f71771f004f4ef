// Lays out a program that prints a line, writes its image, and saves it: ./hello OUTPUT
#include "wild.h"
#include <fstream>
#include <iostream>
#include <string>
#include <sys/stat.h>
#include <vector>

// A list of wild.h that has the items of a vector or a string.
template <typename List, typename Items> List list(const Items &items)
{
    return { reinterpret_cast<decltype(List::at)>(items.data()), items.size() };
}

constexpr uint64_t base = 0x400000, text = base + 128;
// lea rsi, [rip + message]; mov edi, 1; mov edx, 16; mov eax, 1; syscall; xor edi, edi; mov eax, 60; syscall
const std::vector<uint8_t> code = { 0x48, 0x8d, 0x35, 0, 0, 0, 0, 0xbf, 1, 0, 0, 0, 0xba, 16, 0, 0, 0, 0xb8, 1, 0, 0, 0, 0x0f, 5,
                                    0x31, 0xff, 0xb8, 60, 0, 0, 0, 0x0f, 5 };
const std::string message = "Hello from C++.\n", text_name = ".text", names_name = ".shstrtab";

static wild_section section(const std::string &name, uint32_t kind, uint64_t flags, const wild_part &part)
{
    wild_section made = WILD_SECTION_INIT;
    made.name = list<wild_bytes>(name), made.kind = kind, made.flags = flags;
    made.address = part.address, made.offset = part.offset, made.size = part.size, made.align = part.align;
    return made;
}

static wild_input_section input(uint64_t address, wild_bytes bytes)
{
    wild_input_section made = WILD_INPUT_SECTION_INIT;
    made.slot = WILD_LOADED, made.part = 2, made.flags = 6, made.address = address, made.size = bytes.len, made.bytes = bytes;
    return made;
}

int main(int argc, char **argv)
{
    const uint64_t size = code.size() + message.size(), strings = 128 + size, headers = 200;
    const std::vector<wild_part> parts = {
        { WILD_FILE_HEADER, 0, 0, base, 64, 8 }, { WILD_PROGRAM_HEADERS, 0, 64, base + 64, 56, 8 },
        { WILD_RAW, 1, 128, text, size, 1 },     { WILD_SHSTRTAB, 2, strings, 0, 17, 1 },
        { WILD_SECTION_HEADERS, 0, headers, 0, 192, 8 },
    };
    const std::vector<wild_section> sections = { WILD_SECTION_INIT, section(text_name, 1, 6, parts[2]), section(names_name, 3, 0, parts[3]) };
    const std::vector<wild_segment> segments = { { 1, 5, 0, base, base, strings, strings, 4096 } };
    std::vector<wild_symbol> symbols = { WILD_SYMBOL_INIT }; // the message: the code refers to it by R_X86_64_PC32
    symbols[0].place = WILD_IN_SECTION, symbols[0].place_index = 1, symbols[0].flags = WILD_FLAG_NON_INTERPOSABLE;
    const std::vector<wild_relocation> references = { { 3, -4, 0, 2, 0 } };
    std::vector<wild_input_section> inputs = { input(text, list<wild_bytes>(code)), input(text + code.size(), list<wild_bytes>(message)) };
    inputs[0].relocations = list<wild_relocations>(references);
    std::vector<wild_file> files = { WILD_FILE_INIT, WILD_FILE_INIT, WILD_FILE_INIT };
    files[0].role = WILD_PRELUDE, files[2].role = WILD_EPILOGUE;
    files[1].symbol_count = 1, files[1].sections = list<wild_input_sections>(inputs);
    const std::vector<uint64_t> shares = { 64, 56, size, 17, 192 };
    std::vector<wild_group> groups = { WILD_GROUP_INIT };
    groups[0].files = list<wild_files>(files), groups[0].part_sizes = list<wild_numbers>(shares);

    wild_layout layout = WILD_LAYOUT_INIT;
    layout.options.strip_all = 1, layout.page_size = 4096, layout.entry_kind = WILD_ENTRY_ADDRESS, layout.entry = text;
    layout.parts = list<wild_parts>(parts), layout.sections = list<wild_sections>(sections);
    layout.segments = list<wild_segments>(segments), layout.symbols = list<wild_symbols>(symbols), layout.groups = list<wild_groups>(groups);

    std::vector<uint8_t> image(headers + 192);
    std::vector<uint64_t> counts(sections.size());
    wild_warning warning;
    wild_fault fault;
    const uint32_t status = wild_write(&layout, image.data(), image.size(), counts.data(), counts.size(), &warning, &fault);
    if (status != WILD_WRITTEN)
        return std::cerr << "status " << status << "\n", int(status);
    const char *path = argc > 1 ? argv[1] : "hello";
    std::ofstream(path, std::ios::binary).write(reinterpret_cast<const char *>(image.data()), long(image.size()));
    return chmod(path, 0755) ? 1 : 0;
}
