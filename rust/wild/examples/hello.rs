//! Lays out a program that prints a line, writes its image, and saves it: `cargo run --example hello OUTPUT`.
use std::os::unix::fs::PermissionsExt;
use wild::*;

const BASE: u64 = 0x400000;
const TEXT: u64 = BASE + 128;
// lea rsi, [rip + message]; mov edi, 1; mov edx, 17; mov eax, 1; syscall; xor edi, edi; mov eax, 60; syscall
const CODE: &[u8] = b"\x48\x8d\x35\0\0\0\0\xbf\x01\0\0\0\xba\x11\0\0\0\xb8\x01\0\0\0\x0f\x05\x31\xff\xb8\x3c\0\0\0\x0f\x05";
const MESSAGE: &[u8] = b"Hello from Rust.\n";
const SIZE: u64 = (CODE.len() + MESSAGE.len()) as u64;
const STRINGS: u64 = 128 + SIZE;
const NAMES: u64 = b"\0.text\0.shstrtab\0".len() as u64;
const HEADERS: u64 = (STRINGS + NAMES).next_multiple_of(8);

fn section(name: &str, kind: u32, flags: u64, part: Part) -> Section<'_> {
    let Part { offset, address, size, align, .. } = part;
    Section { name: name.into(), kind, flags, address, offset, size, align, ..Section::default() }
}

fn input(address: u64, bytes: &[u8]) -> InputSection<'_> {
    let size = bytes.len() as u64;
    InputSection { slot: Slot::Loaded, part: 2, flags: 6, address, size, bytes: bytes.into(), ..InputSection::default() }
}

fn main() -> Result<(), Box<dyn std::error::Error>> {
    let part = |role, section, offset, address, size, align| Part { role, section, offset, address, size, align };
    let parts = [
        part(Role::FileHeader, 0, 0, BASE, 64, 8),
        part(Role::ProgramHeaders, 0, 64, BASE + 64, 56, 8),
        part(Role::Raw, 1, 128, TEXT, SIZE, 1),
        part(Role::Shstrtab, 2, STRINGS, 0, NAMES, 1),
        part(Role::SectionHeaders, 0, HEADERS, 0, 192, 8),
    ];
    let sections = [Section::default(), section(".text", 1, 6, parts[2]), section(".shstrtab", 3, 0, parts[3])];
    let segments = [Segment {
        kind: 1, flags: 5, offset: 0, address: BASE, physical: BASE, file_size: STRINGS, mem_size: STRINGS, align: 4096,
    }];
    // the message is a symbol, and the code refers to it: R_X86_64_PC32
    let symbols =
        [Symbol { place: Place::Section, place_index: 1, flags: flags::NON_INTERPOSABLE, ..Symbol::default() }];
    let references = [Relocation { offset: 3, number: 2, symbol: Optional::some(0), addend: -4, malformed: false }];
    let text = InputSection { relocations: references[..].into(), ..input(TEXT, CODE) };
    let inputs = [text, input(TEXT + CODE.len() as u64, MESSAGE)];
    let files = [
        File { role: FileRole::Prelude, ..File::default() },
        File { symbol_count: 1, sections: inputs[..].into(), ..File::default() },
        File { role: FileRole::Epilogue, ..File::default() },
    ];
    let shares = parts.map(|part| part.size);
    let groups = [Group { files: files[..].into(), part_sizes: shares[..].into(), ..Group::default() }];
    let image = wild::write(&Layout {
        options: Options { strip_all: true, ..Options::default() },
        page_size: 4096,
        parts: parts[..].into(),
        sections: sections[..].into(),
        segments: segments[..].into(),
        symbols: symbols[..].into(),
        groups: groups[..].into(),
        entry_kind: EntryKind::Address,
        entry: TEXT,
        ..Layout::default()
    })?;
    let output = std::env::args().nth(1).unwrap_or("hello".to_string());
    std::fs::write(&output, &image.bytes)?;
    Ok(std::fs::set_permissions(&output, std::fs::Permissions::from_mode(0o755))?)
}
