/* wild.h: the image writer in process, for C11 and C++17.
 *
 * Memory. The caller owns all of it. A call reads the layout and writes into the caller's buffers; it keeps no pointer and gives none
 * out, so there is nothing to free. While it runs it allocates with malloc and frees what it allocated.
 *
 * Threads. A call has no state and starts no thread. Calls may run at the same time in several threads; no other thread may read or
 * write the output of a call that runs, or write its input.
 *
 * Pointers. None may be NULL. A list without items has length 0 and any aligned pointer, such as WILD_EMPTY makes. Begin each struct
 * with its WILD_.._INIT: lists are empty, optional numbers are absent, other members have the defaults of docs/PLAN.md, which says
 * what each member means.
 *
 * Numbers. An optional number that is not there is WILD_ABSENT. A flag is set if it is not 0. A number of an enum is
 * checked: the answer to any other number is WILD_NO_LAYOUT.
 *
 * Link with libwild_c.a and the toolchain's liblibc_c.a (three functions over malloc, realloc and free): docs/EMBED.md. */
#ifndef WILD_H
#define WILD_H
#include <stddef.h>
#include <stdint.h>

#ifdef __cplusplus
static_assert(sizeof(size_t) == 8, "a machine of 64 bits");
extern "C" {
#else
_Static_assert(sizeof(size_t) == 8, "a machine of 64 bits");
#endif

#define WILD_VERSION 1u         /* of these structs: the first member of wild_layout */
#define WILD_ABSENT UINT64_MAX  /* an optional number that is not there */

/* A list of a type: a pointer to the first item, and the number of items. */
#define WILD_LIST(NAME, TYPE) typedef struct { const TYPE *at; size_t len; } NAME
#define WILD_EMPTY(TYPE) { (const TYPE *)16, 0 }

WILD_LIST(wild_bytes, uint8_t);
WILD_LIST(wild_numbers, uint64_t);
WILD_LIST(wild_bytes_list, wild_bytes);

/* ---- output: parts, sections, segments */

/* What a part holds: the role of docs/PLAN.md. */
enum {
    WILD_RAW, WILD_FILE_HEADER, WILD_PROGRAM_HEADERS, WILD_SECTION_HEADERS, WILD_SHSTRTAB, WILD_GOT, WILD_GOT_RELR, WILD_PLT_GOT,
    WILD_RELA_PLT, WILD_RELA_DYN_RELATIVE, WILD_RELA_DYN_GENERAL, WILD_RELR_DYN, WILD_DYNSYM, WILD_DYNSTR, WILD_GNU_VERSION,
    WILD_GNU_VERSION_D, WILD_GNU_VERSION_R, WILD_SYSV_HASH, WILD_GNU_HASH, WILD_EH_FRAME, WILD_EH_FRAME_HDR, WILD_DYNAMIC,
    WILD_SYMTAB_LOCAL, WILD_SYMTAB_GLOBAL, WILD_SYMTAB_SHNDX_LOCAL, WILD_SYMTAB_SHNDX_GLOBAL, WILD_STRTAB, WILD_INTERP,
    WILD_BUILD_ID, WILD_PROPERTY
};

typedef struct {
    uint32_t role;
    uint64_t section; /* a header index; 0 for a part outside all sections */
    uint64_t offset, address, size, align;
} wild_part;
#define WILD_PART_INIT { WILD_RAW, 0, 0, 0, 0, 1 }
WILD_LIST(wild_parts, wild_part);

typedef struct {
    wild_bytes name;
    uint32_t kind, link, info; /* sh_type, sh_link, sh_info */
    uint8_t fill[4];           /* the bytes with which padding is filled, if has_fill is set */
    uint8_t has_fill, section_symbol;
    uint64_t flags, address, offset, size, align, entsize;
} wild_section;
#define WILD_SECTION_INIT { WILD_EMPTY(uint8_t), 0, 0, 0, { 0, 0, 0, 0 }, 0, 0, 0, 0, 0, 0, 0, 0 }
WILD_LIST(wild_sections, wild_section);

typedef struct {
    uint32_t kind, flags; /* p_type, p_flags */
    uint64_t offset, address, physical, file_size, mem_size, align;
} wild_segment;
#define WILD_SEGMENT_INIT { 0, 0, 0, 0, 0, 0, 0, 0 }
WILD_LIST(wild_segments, wild_segment);

/* ---- symbols */

/* Where a symbol is defined: in input section place_index of its file, or in output section place_index, or nowhere. */
enum { WILD_UNDEFINED, WILD_ABSOLUTE, WILD_COMMON, WILD_IN_SECTION, WILD_IN_OUTPUT };

/* The properties of a symbol: the flags of docs/PLAN.md. */
enum {
    WILD_FLAG_ABSOLUTE = 1, WILD_FLAG_DYNAMIC = 2, WILD_FLAG_IFUNC = 4, WILD_FLAG_NON_INTERPOSABLE = 8,
    WILD_FLAG_UNDEFINED_WEAK = 16, WILD_FLAG_GOT = 32, WILD_FLAG_PLT = 64, WILD_FLAG_GOT_TLS_OFFSET = 128,
    WILD_FLAG_GOT_TLS_MODULE = 256, WILD_FLAG_GOT_TLS_DESCRIPTOR = 512, WILD_FLAG_COPY_RELOCATION = 1024,
    WILD_FLAG_EXPORT_DYNAMIC = 2048, WILD_FLAG_DOWNGRADE_TO_LOCAL = 4096, WILD_FLAG_CANONICAL_PLT = 8192,
    WILD_FLAG_IFUNC_GOT_FOR_ADDRESS = 16384, WILD_FLAG_CANONICAL_PLT_GOT_FOR_ADDRESS = 32768
};

typedef struct {
    wild_bytes name;
    uint64_t definition; /* the symbol that defines it, or WILD_ABSENT */
    uint64_t size, value;
    uint32_t place, flags;
    uint64_t place_index;
    uint8_t info, other, emit, has_resolution;
    uint16_t version;
    /* the resolution, if has_resolution is set; each of the last three or WILD_ABSENT */
    uint64_t raw_value, dynamic_symbol_index, got_address, plt_address;
} wild_symbol;
#define WILD_SYMBOL_INIT \
    { WILD_EMPTY(uint8_t), WILD_ABSENT, 0, 0, WILD_UNDEFINED, 0, 0, 0, 0, 0, 0, 0, 0, WILD_ABSENT, WILD_ABSENT, WILD_ABSENT }
WILD_LIST(wild_symbols, wild_symbol);

/* ---- input: groups of files, their sections and relocations */

typedef struct {
    uint64_t offset;
    int64_t addend;
    uint64_t symbol; /* or WILD_ABSENT */
    uint32_t number; /* the machine's relocation type */
    uint8_t malformed;
} wild_relocation;
#define WILD_RELOCATION_INIT { 0, 0, WILD_ABSENT, 0, 0 }
WILD_LIST(wild_relocations, wild_relocation);

typedef struct { uint64_t offset, address; } wild_merged_string;
WILD_LIST(wild_merged_strings, wild_merged_string);

/* How an input section is written. */
enum { WILD_DISCARD, WILD_LOADED, WILD_SORTED, WILD_DEBUG, WILD_FRAME, WILD_MERGE, WILD_RELA, WILD_GROUP_SLOT };

typedef struct {
    uint32_t slot;
    uint8_t nobits, reversed;
    wild_bytes name;
    uint64_t part, address, size, flags;
    uint64_t singleton; /* a header index, or WILD_ABSENT */
    uint64_t target;
    wild_numbers members;
    wild_bytes bytes;
    wild_merged_strings strings;
    wild_relocations relocations;
} wild_input_section;
#define WILD_INPUT_SECTION_INIT \
    { WILD_DISCARD, 0, 0, WILD_EMPTY(uint8_t), 0, 0, 0, 0, WILD_ABSENT, 0, WILD_EMPTY(uint64_t), WILD_EMPTY(uint8_t), \
      WILD_EMPTY(wild_merged_string), WILD_EMPTY(wild_relocation) }
WILD_LIST(wild_input_sections, wild_input_section);

typedef struct {
    wild_bytes name;
    uint16_t index;
} wild_needed_version;
#define WILD_NEEDED_VERSION_INIT { WILD_EMPTY(uint8_t), 0 }
WILD_LIST(wild_needed_versions, wild_needed_version);

/* The role of a file. */
enum { WILD_OBJECT, WILD_PRELUDE, WILD_LIBRARY, WILD_SCRIPT, WILD_SYNTHETIC, WILD_EPILOGUE, WILD_NOT_LOADED };

typedef struct {
    uint32_t role;
    uint8_t owns_thunk_block, has_verneed, verneed_last;
    uint64_t first_symbol, symbol_count, thunk_block;
    wild_bytes lib_name;
    wild_input_sections sections;
    wild_numbers copies;
    wild_needed_versions verneed; /* if has_verneed is set */
} wild_file;
#define WILD_FILE_INIT \
    { WILD_OBJECT, 0, 0, 0, 0, 0, 0, WILD_EMPTY(uint8_t), WILD_EMPTY(wild_input_section), WILD_EMPTY(uint64_t), \
      WILD_EMPTY(wild_needed_version) }
WILD_LIST(wild_files, wild_file);

typedef struct {
    wild_files files;
    wild_numbers part_sizes;
    uint64_t dynstr_start, strtab_start, eh_frame_start, symtab_local_start, symtab_global_start;
} wild_group;
#define WILD_GROUP_INIT { WILD_EMPTY(wild_file), WILD_EMPTY(uint64_t), 0, 0, 0, 0, 0 }
WILD_LIST(wild_groups, wild_group);

/* ---- dynamic linking, thunks, and what an output has once */

typedef struct {
    uint64_t symbol;
    wild_bytes name;
    uint16_t version;
} wild_dynamic_symbol;
#define WILD_DYNAMIC_SYMBOL_INIT { 0, WILD_EMPTY(uint8_t), 0 }
WILD_LIST(wild_dynamic_symbols, wild_dynamic_symbol);

typedef struct {
    wild_bytes name;
    uint64_t parent; /* or WILD_ABSENT */
} wild_version_definition;
#define WILD_VERSION_DEFINITION_INIT { WILD_EMPTY(uint8_t), WILD_ABSENT }
WILD_LIST(wild_version_definitions, wild_version_definition);

typedef struct { uint64_t symbol, address; } wild_thunk;
WILD_LIST(wild_thunk_block, wild_thunk);
WILD_LIST(wild_thunk_blocks, wild_thunk_block);

typedef struct { uint64_t group, file, section; } wild_sorted_section;
WILD_LIST(wild_sorted_sections, wild_sorted_section);

typedef struct {
    uint64_t part;
    wild_bytes_list strings;
} wild_merged;
#define WILD_MERGED_INIT { 0, WILD_EMPTY(wild_bytes) }
WILD_LIST(wild_merged_list, wild_merged);

/* A program property: platform and version if is_pointer_authentication is set, else word. */
typedef struct {
    uint32_t ptype, word;
    uint64_t platform, version;
    uint8_t is_pointer_authentication;
} wild_property;
#define WILD_PROPERTY_INIT { 0, 0, 0, 0, 0 }
WILD_LIST(wild_properties, wild_property);

/* ---- the layout */

/* Flags, by the names of docs/PLAN.md; rpath and soname are there if their flags are set. */
typedef struct {
    uint8_t relax, relr, strip_all, eh_frame_hdr, terminator, bti, versions, got_plt_syms, execstack, new_dtags, origin, nodelete,
        interpose, textrel, static_tls, variant_pcs, only_keep_debug, new_tombstones, has_rpath, has_soname;
    wild_bytes rpath, soname;
    wild_bytes_list auxiliary;
} wild_options;
#define WILD_OPTIONS_INIT \
    { 0, 0, 0, 0, 0, 0, 0, 0, 0, 0, 0, 0, 0, 0, 0, 0, 0, 0, 0, 0, WILD_EMPTY(uint8_t), WILD_EMPTY(uint8_t), WILD_EMPTY(wild_bytes) }

enum { WILD_X86_64 = 62, WILD_AARCH64 = 183 }; /* ELF's numbers of machines */
enum { WILD_STATIC, WILD_STATIC_PIE, WILD_DYNAMIC_EXECUTABLE, WILD_DYNAMIC_PIE, WILD_SHARED, WILD_PARTIAL }; /* kinds of output */
enum { WILD_NO_ENTRY, WILD_ENTRY_ADDRESS, WILD_ENTRY_SYMBOL };

typedef struct {
    uint32_t version; /* WILD_VERSION */
    uint32_t machine, kind, entry_kind;
    uint64_t entry; /* an address or the index of a symbol, as entry_kind says */
    wild_options options;
    uint64_t page_size;
    wild_parts parts;
    wild_sections sections;
    wild_segments segments;
    uint64_t tls_start, tls_end, tls_align, got_base, got_header;
    uint64_t tlsld; /* or WILD_ABSENT */
    uint64_t primary_part;
    wild_symbols symbols;
    wild_groups groups;
    wild_dynamic_symbols dynsyms;
    uint8_t has_sysv_hash, has_gnu_hash, has_build_id;
    uint32_t sysv_buckets, gnu_buckets, gnu_bloom_count, gnu_bloom_shift, gnu_base;
    wild_version_definitions verdefs;
    wild_thunk_blocks thunk_blocks;
    wild_sorted_sections sorted;
    wild_merged_list merged;
    uint64_t identity_part;
    wild_bytes identity, interp;
    wild_properties properties;
    wild_bytes build_id;
} wild_layout;
#define WILD_LAYOUT_INIT \
    { WILD_VERSION, WILD_X86_64, WILD_STATIC, WILD_NO_ENTRY, 0, WILD_OPTIONS_INIT, 0, WILD_EMPTY(wild_part), \
      WILD_EMPTY(wild_section), WILD_EMPTY(wild_segment), 0, 0, 1, 0, 0, WILD_ABSENT, 0, WILD_EMPTY(wild_symbol), \
      WILD_EMPTY(wild_group), WILD_EMPTY(wild_dynamic_symbol), 0, 0, 0, 0, 0, 0, 0, 0, WILD_EMPTY(wild_version_definition), \
      WILD_EMPTY(wild_thunk_block), WILD_EMPTY(wild_sorted_section), WILD_EMPTY(wild_merged), 0, WILD_EMPTY(uint8_t), \
      WILD_EMPTY(uint8_t), WILD_EMPTY(wild_property), WILD_EMPTY(uint8_t) }

/* ---- calls */

enum {
    WILD_WRITTEN = 0,    /* the call did what its name says */
    WILD_REFUSED = 1,    /* the layout has faults; the first one was written */
    WILD_NO_LAYOUT = 3,  /* a number is none of its enum, or the version is another; of wild_link_json: the text is no plan; of
                            wild_fault_text: the struct has no fault */
    WILD_NO_MEMORY = 6,  /* out of memory */
    WILD_WRONG_SIZE = 8, /* the size of a buffer is not that of the output */
    WILD_NOT_PLACED = 10 /* of wild_place: the loader does not load the image */
};

/* Faults: the names of docs/FAULTS.md, in its order. */
enum {
    WILD_MALFORMED_LAYOUT = 1, WILD_INSUFFICIENT_ALLOCATION, WILD_EXCESSIVE_ALLOCATION, WILD_UNSUPPORTED_RELOCATION,
    WILD_RECOMPILE_WITH_PIC, WILD_MISSING_RESOLUTION, WILD_UNKNOWN_SEQUENCE, WILD_IFUNC_ADDEND, WILD_NO_THUNK,
    WILD_THUNK_OUT_OF_RANGE, WILD_THUNK_ADDEND, WILD_PLT_TOO_FAR, WILD_TLS_OUT_OF_SEGMENT, WILD_STATIC_TLS_DESC,
    WILD_BAD_FRAME_DATA, WILD_FRAME_OFFSET_OVERFLOW, WILD_OUT_OF_RANGE, WILD_OVERLAPPING_SITES
};

/* Why a layout has no image, and where. A member that the fault has not is 0; a place that it has not is WILD_ABSENT. */
typedef struct {
    uint32_t fault;  /* one of the faults */
    uint32_t number; /* clause; relocation type; what is missing (address, slot, stub, dynamic symbol, section: 0 to 4); what is wrong
                        with frames (malformed, unsorted, cut, short, PC Begin, CIE, field: 0 to 6) */
    uint64_t index;  /* of an item, a part or a symbol */
    uint64_t share_group, given, needed; /* the group whose share of the part is wrong, the share, and what it writes */
    uint64_t value;  /* a value, a distance or an offset */
    int64_t addend;
    uint64_t group, file, section, offset; /* where */
} wild_fault;

/* A warning about an image that was written nevertheless: the entry point is a symbol without an address. */
enum { WILD_NO_WARNING, WILD_ENTRY_DEFAULTED /* to `address`, the start of .text */, WILD_NO_ENTRY_POINT /* .text is empty */ };
typedef struct {
    uint32_t warning;
    uint64_t symbol, address;
} wild_warning;

/* The world in which an image is loaded (docs/PLACER.md): the base, an answer for each dynamic symbol index, what resolvers return, and
   where the thread-local data of modules is. */
typedef struct {
    uint64_t address; /* of the symbol */
    uint64_t module, offset; /* of its thread-local data */
    uint64_t size;
    wild_bytes bytes; /* at first */
} wild_answer;
#define WILD_ANSWER_INIT { 0, 0, 0, 0, WILD_EMPTY(uint8_t) }
WILD_LIST(wild_answers, wild_answer);

typedef struct { uint64_t address, answer; } wild_resolver;
WILD_LIST(wild_resolvers, wild_resolver);

typedef struct { uint64_t module; int64_t distance; } wild_module; /* the distance of its data from the thread pointer */
WILD_LIST(wild_modules, wild_module);

typedef struct {
    uint64_t base;
    wild_answers symbols;
    wild_resolvers resolvers;
    wild_modules modules;
    uint64_t own_module;
} wild_world;
#define WILD_WORLD_INIT { 0, WILD_EMPTY(wild_answer), WILD_EMPTY(wild_resolver), WILD_EMPTY(wild_module), 0 }

/* Why an image is not loaded: the names of docs/PLACER.md. The value is an offset, a tag, a number, an index, a value or an address. */
enum {
    WILD_NOT_ELF = 1, WILD_CUT, WILD_NO_TABLE, WILD_UNKNOWN_DYNAMIC, WILD_UNKNOWN_SYMBOL, WILD_NO_ANSWER, WILD_UNLOADED, WILD_WRAPS,
    WILD_OVERLAP
};
typedef struct {
    uint32_t fault;
    uint64_t value;
} wild_load_fault;

/* The size of the image in bytes. WILD_WRONG_SIZE: it is 2^64 or more. */
uint32_t wild_image_size(const wild_layout *layout, uint64_t *size);

/* Writes the image into `out`, and the number of relocations read for each section into `counts`. They must have the image's size and
   the number of sections. Only WILD_WRITTEN changes `out`, `counts` and `warning`, only WILD_REFUSED changes `fault`. */
uint32_t wild_write(const wild_layout *layout, uint8_t *out, size_t out_len, uint64_t *counts, size_t counts_len,
                    wild_warning *warning, wild_fault *fault);

/* How many bytes each group needs of each part: with P parts, sizes[G * P + K] is what group G needs of part K (docs/EXPLAIN.md).
   `sizes` must have P numbers for each group. */
uint32_t wild_needs(const wild_layout *layout, uint64_t *sizes, size_t sizes_len);

/* The line that `link` prints for a fault (docs/FAULTS.md), with its final newline, into the front of `out`, and its length into `used`.
   WILD_NO_LAYOUT: a number of the struct is that of no fault. WILD_WRONG_SIZE: the line is longer than `out`; only `used` was written.
   No line is longer than WILD_FAULT_TEXT. */
#define WILD_FAULT_TEXT 256u
uint32_t wild_fault_text(const wild_fault *fault, uint8_t *out, size_t out_len, size_t *used);

/* Writes the memory of the layout in the world into `out`: the bytes of the loaded segments, of each as many as its mem_size, one segment
   after another. `out` must have the sum of these sizes. Only WILD_WRITTEN changes `out`, only WILD_REFUSED changes `fault`, only
   WILD_NOT_PLACED changes `load_fault`. In libwild_c_place.a. */
uint32_t wild_place(const wild_layout *layout, const wild_world *world, uint8_t *out, size_t out_len, wild_fault *fault,
                    wild_load_fault *load_fault);

/* The text that `link 1` prints for a plan in JSON (docs/PLAN.md), into the front of `out`, and its length into `used`. The status is that of
   `link`: 0, 1 or 3. WILD_WRONG_SIZE: the text is longer than `out`; only `used` was written. In libwild_json_c.a. */
uint32_t wild_link_json(const uint8_t *plan, size_t plan_len, uint8_t *out, size_t out_len, size_t *used);

#ifdef __cplusplus
}
#endif
#endif
