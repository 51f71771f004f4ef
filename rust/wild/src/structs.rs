//! The structs of `c/wild.h`, member by member in its order.
use crate::List;

/// Bytes.
pub type Bytes<'a> = List<'a, u8>;

impl<'a> From<&'a str> for Bytes<'a> {
    fn from(text: &'a str) -> Self {
        text.as_bytes().into()
    }
}

/// A number that may be absent; `u64::MAX` is the one that is never there.
#[repr(transparent)]
#[derive(Clone, Copy, Debug, PartialEq, Eq)]
pub struct Optional(u64);

impl Optional {
    pub const NONE: Optional = Optional(u64::MAX);

    pub const fn some(number: u64) -> Optional {
        Optional(number)
    }

    pub fn get(self) -> Option<u64> {
        (self != Optional::NONE).then_some(self.0)
    }
}

impl Default for Optional {
    fn default() -> Self {
        Optional::NONE
    }
}

impl From<Option<u64>> for Optional {
    fn from(number: Option<u64>) -> Self {
        number.map_or(Optional::NONE, Optional)
    }
}

/// An enum whose numbers are those of `c/wild.h`; the first variant is the default.
macro_rules! choices {
    ($(#[$doc:meta])* $name:ident: $first:ident $(= $n:literal)?, $($variant:ident $(= $m:literal)?),* $(,)?) => {
        $(#[$doc])*
        #[repr(u32)]
        #[derive(Clone, Copy, Debug, Default, PartialEq, Eq)]
        pub enum $name {
            #[default]
            $first $(= $n)?,
            $($variant $(= $m)?),*
        }
    };
}

choices! {
    /// What a part holds.
    Role: Raw, FileHeader, ProgramHeaders, SectionHeaders, Shstrtab, Got, GotRelr, PltGot, RelaPlt, RelaDynRelative, RelaDynGeneral,
    RelrDyn, Dynsym, Dynstr, GnuVersion, GnuVersionD, GnuVersionR, SysvHash, GnuHash, EhFrame, EhFrameHdr, Dynamic, SymtabLocal,
    SymtabGlobal, SymtabShndxLocal, SymtabShndxGlobal, Strtab, Interp, BuildId, Property,
}

choices! {
    /// Where a symbol is defined.
    Place: Undefined, Absolute, Common, Section, Output,
}

choices! {
    /// How an input section is written.
    Slot: Discard, Loaded, Sorted, Debug, Frame, Merge, Rela, Group,
}

choices! {
    /// The role of a file.
    FileRole: Object, Prelude, Library, Script, Synthetic, Epilogue, NotLoaded,
}

choices! {
    /// The machine.
    Machine: X86_64 = 62, AArch64 = 183,
}

choices! {
    /// The kind of output.
    Kind: Static, StaticPie, Dynamic, DynamicPie, Shared, Partial,
}

choices! {
    /// What `entry` is.
    EntryKind: None, Address, Symbol,
}

/// The properties of a symbol: the flags of `docs/PLAN.md`.
pub mod flags {
    pub const ABSOLUTE: u32 = 1;
    pub const DYNAMIC: u32 = 2;
    pub const IFUNC: u32 = 4;
    pub const NON_INTERPOSABLE: u32 = 8;
    pub const UNDEFINED_WEAK: u32 = 16;
    pub const GOT: u32 = 32;
    pub const PLT: u32 = 64;
    pub const GOT_TLS_OFFSET: u32 = 128;
    pub const GOT_TLS_MODULE: u32 = 256;
    pub const GOT_TLS_DESCRIPTOR: u32 = 512;
    pub const COPY_RELOCATION: u32 = 1024;
    pub const EXPORT_DYNAMIC: u32 = 2048;
    pub const DOWNGRADE_TO_LOCAL: u32 = 4096;
    pub const CANONICAL_PLT: u32 = 8192;
    pub const IFUNC_GOT_FOR_ADDRESS: u32 = 16384;
    pub const CANONICAL_PLT_GOT_FOR_ADDRESS: u32 = 32768;
}

/// A part of the image.
#[repr(C)]
#[derive(Clone, Copy, Debug)]
pub struct Part {
    pub role: Role,
    pub section: u64,
    pub offset: u64,
    pub address: u64,
    pub size: u64,
    pub align: u64,
}

impl Default for Part {
    fn default() -> Self {
        Part { role: Role::Raw, section: 0, offset: 0, address: 0, size: 0, align: 1 }
    }
}

/// A section of the output.
#[repr(C)]
#[derive(Clone, Copy, Debug, Default)]
pub struct Section<'a> {
    pub name: Bytes<'a>,
    pub kind: u32,
    pub link: u32,
    pub info: u32,
    pub fill: [u8; 4],
    pub has_fill: bool,
    pub section_symbol: bool,
    pub flags: u64,
    pub address: u64,
    pub offset: u64,
    pub size: u64,
    pub align: u64,
    pub entsize: u64,
}

/// A segment.
#[repr(C)]
#[derive(Clone, Copy, Debug, Default)]
pub struct Segment {
    pub kind: u32,
    pub flags: u32,
    pub offset: u64,
    pub address: u64,
    pub physical: u64,
    pub file_size: u64,
    pub mem_size: u64,
    pub align: u64,
}

/// A symbol. Its resolution, if `has_resolution` is set, is the last four members.
#[repr(C)]
#[derive(Clone, Copy, Debug, Default)]
pub struct Symbol<'a> {
    pub name: Bytes<'a>,
    pub definition: Optional,
    pub size: u64,
    pub value: u64,
    pub place: Place,
    pub flags: u32,
    pub place_index: u64,
    pub info: u8,
    pub other: u8,
    pub emit: bool,
    pub has_resolution: bool,
    pub version: u16,
    pub raw_value: u64,
    pub dynamic_symbol_index: Optional,
    pub got_address: Optional,
    pub plt_address: Optional,
}

/// A relocation of an input section.
#[repr(C)]
#[derive(Clone, Copy, Debug, Default)]
pub struct Relocation {
    pub offset: u64,
    pub addend: i64,
    pub symbol: Optional,
    pub number: u32,
    pub malformed: bool,
}

/// Where a string of a merged section was placed.
#[repr(C)]
#[derive(Clone, Copy, Debug, Default)]
pub struct MergedString {
    pub offset: u64,
    pub address: u64,
}

/// A section of an input file.
#[repr(C)]
#[derive(Clone, Copy, Debug, Default)]
pub struct InputSection<'a> {
    pub slot: Slot,
    pub nobits: bool,
    pub reversed: bool,
    pub name: Bytes<'a>,
    pub part: u64,
    pub address: u64,
    pub size: u64,
    pub flags: u64,
    pub singleton: Optional,
    pub target: u64,
    pub members: List<'a, u64>,
    pub bytes: Bytes<'a>,
    pub strings: List<'a, MergedString>,
    pub relocations: List<'a, Relocation>,
}

/// A version that the output needs from a library.
#[repr(C)]
#[derive(Clone, Copy, Debug, Default)]
pub struct NeededVersion<'a> {
    pub name: Bytes<'a>,
    pub index: u16,
}

/// An input file.
#[repr(C)]
#[derive(Clone, Copy, Debug, Default)]
pub struct File<'a> {
    pub role: FileRole,
    pub owns_thunk_block: bool,
    pub has_verneed: bool,
    pub verneed_last: bool,
    pub first_symbol: u64,
    pub symbol_count: u64,
    pub thunk_block: u64,
    pub lib_name: Bytes<'a>,
    pub sections: List<'a, InputSection<'a>>,
    pub copies: List<'a, u64>,
    pub verneed: List<'a, NeededVersion<'a>>,
}

/// Files that are written together.
#[repr(C)]
#[derive(Clone, Copy, Debug, Default)]
pub struct Group<'a> {
    pub files: List<'a, File<'a>>,
    pub part_sizes: List<'a, u64>,
    pub dynstr_start: u64,
    pub strtab_start: u64,
    pub eh_frame_start: u64,
    pub symtab_local_start: u64,
    pub symtab_global_start: u64,
}

/// A defined symbol of the dynamic symbol table.
#[repr(C)]
#[derive(Clone, Copy, Debug, Default)]
pub struct DynamicSymbol<'a> {
    pub symbol: u64,
    pub name: Bytes<'a>,
    pub version: u16,
}

/// A version that the output defines.
#[repr(C)]
#[derive(Clone, Copy, Debug, Default)]
pub struct VersionDefinition<'a> {
    pub name: Bytes<'a>,
    pub parent: Optional,
}

/// A thunk.
#[repr(C)]
#[derive(Clone, Copy, Debug, Default)]
pub struct Thunk {
    pub symbol: u64,
    pub address: u64,
}

/// An input section that is placed by sort order.
#[repr(C)]
#[derive(Clone, Copy, Debug, Default)]
pub struct SortedSection {
    pub group: u64,
    pub file: u64,
    pub section: u64,
}

/// The merged strings of a part.
#[repr(C)]
#[derive(Clone, Copy, Debug, Default)]
pub struct Merged<'a> {
    pub part: u64,
    pub strings: List<'a, Bytes<'a>>,
}

/// A program property. Its value is `platform` and `version` if `is_pointer_authentication` is set, else `word`.
#[repr(C)]
#[derive(Clone, Copy, Debug, Default)]
pub struct Property {
    pub ptype: u32,
    pub word: u32,
    pub platform: u64,
    pub version: u64,
    pub is_pointer_authentication: bool,
}

/// The options of the link.
#[repr(C)]
#[derive(Clone, Copy, Debug, Default)]
pub struct Options<'a> {
    pub relax: bool,
    pub relr: bool,
    pub strip_all: bool,
    pub eh_frame_hdr: bool,
    pub terminator: bool,
    pub bti: bool,
    pub versions: bool,
    pub got_plt_syms: bool,
    pub execstack: bool,
    pub new_dtags: bool,
    pub origin: bool,
    pub nodelete: bool,
    pub interpose: bool,
    pub textrel: bool,
    pub static_tls: bool,
    pub variant_pcs: bool,
    pub only_keep_debug: bool,
    pub new_tombstones: bool,
    pub has_rpath: bool,
    pub has_soname: bool,
    pub rpath: Bytes<'a>,
    pub soname: Bytes<'a>,
    pub auxiliary: List<'a, Bytes<'a>>,
}

/// A finished layout.
#[repr(C)]
#[derive(Clone, Copy, Debug)]
pub struct Layout<'a> {
    /// Of the structs: 1.
    pub version: u32,
    pub machine: Machine,
    pub kind: Kind,
    pub entry_kind: EntryKind,
    pub entry: u64,
    pub options: Options<'a>,
    pub page_size: u64,
    pub parts: List<'a, Part>,
    pub sections: List<'a, Section<'a>>,
    pub segments: List<'a, Segment>,
    pub tls_start: u64,
    pub tls_end: u64,
    pub tls_align: u64,
    pub got_base: u64,
    pub got_header: u64,
    pub tlsld: Optional,
    pub primary_part: u64,
    pub symbols: List<'a, Symbol<'a>>,
    pub groups: List<'a, Group<'a>>,
    pub dynsyms: List<'a, DynamicSymbol<'a>>,
    pub has_sysv_hash: bool,
    pub has_gnu_hash: bool,
    pub has_build_id: bool,
    pub sysv_buckets: u32,
    pub gnu_buckets: u32,
    pub gnu_bloom_count: u32,
    pub gnu_bloom_shift: u32,
    pub gnu_base: u32,
    pub verdefs: List<'a, VersionDefinition<'a>>,
    pub thunk_blocks: List<'a, List<'a, Thunk>>,
    pub sorted: List<'a, SortedSection>,
    pub merged: List<'a, Merged<'a>>,
    pub identity_part: u64,
    pub identity: Bytes<'a>,
    pub interp: Bytes<'a>,
    pub properties: List<'a, Property>,
    pub build_id: Bytes<'a>,
}

impl Default for Layout<'_> {
    fn default() -> Self {
        Layout {
            version: 1,
            machine: Machine::default(),
            kind: Kind::default(),
            entry_kind: EntryKind::default(),
            entry: 0,
            options: Options::default(),
            page_size: 0,
            parts: List::default(),
            sections: List::default(),
            segments: List::default(),
            tls_start: 0,
            tls_end: 0,
            tls_align: 1,
            got_base: 0,
            got_header: 0,
            tlsld: Optional::NONE,
            primary_part: 0,
            symbols: List::default(),
            groups: List::default(),
            dynsyms: List::default(),
            has_sysv_hash: false,
            has_gnu_hash: false,
            has_build_id: false,
            sysv_buckets: 0,
            gnu_buckets: 0,
            gnu_bloom_count: 0,
            gnu_bloom_shift: 0,
            gnu_base: 0,
            verdefs: List::default(),
            thunk_blocks: List::default(),
            sorted: List::default(),
            merged: List::default(),
            identity_part: 0,
            identity: List::default(),
            interp: List::default(),
            properties: List::default(),
            build_id: List::default(),
        }
    }
}

/// Why a layout has no image, and where. `docs/FAULTS.md` lists the faults; `fault` is the place of its name there, from 1 on. A
/// member that the fault has not is 0.
#[repr(C)]
#[derive(Clone, Copy, Debug, Default, PartialEq, Eq)]
pub struct Fault {
    pub fault: u32,
    /// A clause, a relocation type, what is missing, or what is wrong with frames.
    pub number: u32,
    /// The index of an item, a part or a symbol.
    pub index: u64,
    pub share_group: u64,
    pub given: u64,
    pub needed: u64,
    pub value: u64,
    pub addend: i64,
    pub group: Optional,
    pub file: Optional,
    pub section: Optional,
    pub offset: Optional,
}

#[repr(C)]
#[derive(Default)]
pub(crate) struct RawWarning {
    warning: u32,
    symbol: u64,
    address: u64,
}

/// A warning about an image that was written nevertheless: the entry point is a symbol without an address.
#[derive(Clone, Copy, Debug, PartialEq, Eq)]
pub enum Warning {
    /// Execution begins at that address, the start of `.text`.
    EntryDefaulted { symbol: u64, address: u64 },
    /// `.text` is empty, so the image has no entry point.
    NoEntryPoint { symbol: u64 },
}

impl RawWarning {
    pub(crate) fn read(&self) -> Option<Warning> {
        match self.warning {
            1 => Some(Warning::EntryDefaulted { symbol: self.symbol, address: self.address }),
            2 => Some(Warning::NoEntryPoint { symbol: self.symbol }),
            _ => None,
        }
    }
}
