//! Lays out a program that prints a line, writes its image, and saves it: `cargo run --example hello OUTPUT`.

use std::os::unix::fs::PermissionsExt;
use wild_image_writer::shim::alloc::Global;
use wild_image_writer::wild_types::*;

const BASE: u64 = 0x400000;
// lea rsi, [rip + message]; mov edi, 1; mov edx, 17; mov eax, 1; syscall; xor edi, edi; mov eax, 60; syscall
const CODE: &[u8] = b"\x48\x8d\x35\0\0\0\0\xbf\x01\0\0\0\xba\x11\0\0\0\xb8\x01\0\0\0\x0f\x05\x31\xff\xb8\x3c\0\0\0\x0f\x05";
const MESSAGE: &[u8] = b"Hello from Rust.\n";
const NAMES: u64 = b"\0.text\0.shstrtab\0".len() as u64;
const R_X86_64_PC32: u32 = 2;

fn part(role: Role, section: usize, offset: u64, size: u64, align: u64) -> Part {
    let address = if offset < 178 { BASE + offset } else { 0 };
    Part { role, section: SectionIndex(section), offset, address, size, align }
}

fn section(name: &str, kind: u32, flags: u64, part: &Part) -> Section {
    let Part { offset, address, size, align, .. } = *part;
    let name = name.as_bytes().to_vec().into();
    Section { name, kind, flags, address, offset, size, link: 0, info: 0, align, entsize: 0, fill: None, section_symbol: false }
}

fn input(name: &str, address: u64, bytes: &[u8], relocations: Vec<InputRelocation>) -> InputSection {
    InputSection {
        slot: Slot::Loaded,
        name: name.as_bytes().to_vec().into(),
        part: 2,
        address,
        size: bytes.len() as u64,
        flags: 6, // SHF_ALLOC, SHF_EXECINSTR
        nobits: false,
        reversed: false,
        singleton: None,
        target: 0,
        members: vec![].into(),
        bytes: bytes.to_vec().into(),
        strings: vec![].into(),
        relocations: relocations.into(),
    }
}

fn file(role: FileRole, symbol_count: usize, sections: Vec<InputSection>) -> File {
    File {
        role,
        first_symbol: SymbolIndex(0),
        symbol_count,
        sections: sections.into(),
        thunk_block: 0,
        owns_thunk_block: false,
        lib_name: vec![].into(),
        copies: vec![].into(),
        verneed: None,
    }
}

fn layout() -> Layout {
    let start = BASE + 128;
    let message = start + CODE.len() as u64;
    let text_size = (CODE.len() + MESSAGE.len()) as u64;
    let parts = vec![
        part(Role::FileHeader, 0, 0, 64, 8),
        part(Role::ProgramHeaders, 0, 64, 56, 8),
        part(Role::Raw, 1, 128, text_size, 1),
        part(Role::Shstrtab, 2, 178, NAMES, 1),
        part(Role::SectionHeaders, 0, 200, 192, 8),
    ];
    let none = Part { size: 0, align: 0, ..part(Role::Raw, 0, 200, 0, 0) };
    let sections = vec![
        Section { offset: 0, ..section("", 0, 0, &none) },
        section(".text", 1, 6, &parts[2]),
        section(".shstrtab", 3, 0, &parts[3]),
    ];
    let size = 128 + text_size;
    let segment =
        Segment { kind: 1, flags: 5, offset: 0, address: BASE, physical: BASE, file_size: size, mem_size: size, align: 4096 };
    let flags = ValueFlags::NON_INTERPOSABLE;
    let symbol = Symbol {
        name: b"message".to_vec().into(),
        definition: None,
        info: 0,
        other: 0,
        size: 0,
        value: 0,
        place: Place::Section(1),
        flags,
        version: 0,
        emit: false,
        resolution: Some(Resolution {
            raw_value: message,
            flags,
            dynamic_symbol_index: None,
            got_address: None,
            plt_address: None,
        }),
    };
    let reference =
        InputRelocation { offset: 3, number: R_X86_64_PC32, symbol: Some(SymbolIndex(0)), addend: -4, malformed: false };
    let object = file(
        FileRole::Object,
        1,
        vec![input(".text", start, CODE, vec![reference]), input(".rodata", message, MESSAGE, vec![])],
    );
    let group = Group {
        part_sizes: parts.iter().map(|part| part.size).collect::<Vec<u64>>().into(),
        files: vec![file(FileRole::Prelude, 0, vec![]), object, file(FileRole::Epilogue, 0, vec![])].into(),
        dynstr_start: 0,
        strtab_start: 0,
        eh_frame_start: 0,
        symtab_local_start: 0,
        symtab_global_start: 0,
    };
    Layout {
        options: Options { strip_all: true, ..Options::none(Global) },
        page_size: 4096,
        parts: parts.into(),
        sections: sections.into(),
        segments: vec![segment].into(),
        symbols: vec![symbol].into(),
        groups: vec![group].into(),
        entry: Some(Entry::Address(start)),
        ..Layout::empty(Global)
    }
}

fn main() -> std::io::Result<()> {
    let output = std::env::args().nth(1).unwrap_or("hello".to_string());
    match wild_image_writer::write(&layout(), 1) {
        Ok(image) => {
            std::fs::write(&output, image.out.as_slice())?;
            std::fs::set_permissions(&output, std::fs::Permissions::from_mode(0o755))
        }
        Err(error) => {
            let line = wild_image_writer::line_of(error).unwrap_or_default();
            Err(std::io::Error::other(line))
        }
    }
}
