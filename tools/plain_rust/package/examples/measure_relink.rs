//! The time of a change beside that of a whole image: `measure_relink GROUPS COUNT`, over the layout that `make` makes. Prints lines of a name
//! and a number: nanoseconds, bytes, or 1 if it holds. `plans/measure_relink.py` runs it.
use std::alloc::{GlobalAlloc, Layout as Size, System};
use std::sync::atomic::{AtomicI64, Ordering::Relaxed};
use std::time::Instant;
use wild_image_writer::shim::alloc::Global;
use wild_image_writer::shim::ledger::{Blank, Brand};
use wild_image_writer::wild_image::{Alone, ElfX86_64, Steps, write};
use wild_image_writer::wild_relinker::{Change, Linked, RelinkFault, relink};
use wild_image_writer::wild_sample_layouts::make_plan;
use wild_image_writer::wild_types::{InputRelocation, SymbolIndex};

/// Counts the bytes that are allocated, and the most at one time.
struct Counted;

static LIVE: AtomicI64 = AtomicI64::new(0);
static MOST: AtomicI64 = AtomicI64::new(0);

fn add(bytes: i64) {
    MOST.fetch_max(LIVE.fetch_add(bytes, Relaxed) + bytes, Relaxed);
}

unsafe impl GlobalAlloc for Counted {
    unsafe fn alloc(&self, size: Size) -> *mut u8 {
        add(size.size() as i64);
        unsafe { System.alloc(size) }
    }

    unsafe fn dealloc(&self, place: *mut u8, size: Size) {
        add(-(size.size() as i64));
        unsafe { System.dealloc(place, size) }
    }

    unsafe fn realloc(&self, place: *mut u8, size: Size, next: usize) -> *mut u8 {
        add(next as i64 - size.size() as i64);
        unsafe { System.realloc(place, size, next) }
    }
}

#[global_allocator]
static ALLOCATOR: Counted = Counted;

/// What is changed: bytes and a target alone, or that and something for which the change is refused.
#[derive(Clone, Copy)]
enum Kind {
    Accepted,
    WrongType,
    WrongLength,
    FieldPastEnd,
}

/// A change of the code of a group.
fn change(linked: &Linked, group: usize, round: usize, kind: Kind) -> Change {
    let layout = linked.layout();
    let file = if group == 0 { 1 } else { 0 };
    let section = &layout.groups.as_slice()[group].files.as_slice()[file].sections.as_slice()[0];
    let mut bytes: Vec<u8> = section.bytes.as_slice().to_vec();
    let mut relocations: Vec<InputRelocation> = section.relocations.as_slice().to_vec();
    bytes[5] = (round % 251) as u8;
    relocations[1].symbol = Some(SymbolIndex((round * 7919) % layout.symbols.as_slice().len()));
    match kind {
        Kind::Accepted => {}
        Kind::WrongType => relocations[0].number = 99,
        Kind::WrongLength => bytes.truncate(63),
        Kind::FieldPastEnd => relocations[7].offset = 61,
    }
    Change { group, file, section: 0, bytes: bytes.into(), relocations: relocations.into() }
}

/// The mean time of a change, in nanoseconds. The change itself is made before.
fn mean(linked: &mut Linked, count: usize, kind: Kind, group_of: impl Fn(usize) -> usize) -> f64 {
    let mut steps = Steps::<Brand>::new(Blank::new(1));
    let mut spent = 0.0;
    for round in 0..count {
        let change = change(linked, group_of(round), round, kind);
        let start = Instant::now();
        let answer = relink::<ElfX86_64, _, Brand>(&Alone, Global, linked, change, &mut steps);
        spent += start.elapsed().as_secs_f64();
        let is_right = match kind {
            Kind::Accepted => answer == Ok(()),
            Kind::WrongLength => matches!(answer, Err(RelinkFault::Length { .. })),
            Kind::WrongType | Kind::FieldPastEnd => matches!(answer, Err(RelinkFault::Write(_))),
        };
        assert!(is_right, "{answer:?}");
    }
    spent * 1e9 / count as f64
}

fn main() {
    let mut words = std::env::args().skip(1).map(|word| word.parse::<usize>().unwrap());
    let (groups, count) = (words.next().unwrap(), words.next().unwrap());
    let layout = make_plan(Global, groups as u32).ok().unwrap();
    let start = Instant::now();
    for _ in 0..3 {
        write::<ElfX86_64, _>(&Alone, Global, &layout, 1).ok().unwrap();
    }
    println!("write {:.0}", start.elapsed().as_secs_f64() * 1e9 / 3.0);
    let before = LIVE.load(Relaxed);
    let start = Instant::now();
    let mut linked = Linked::link::<ElfX86_64, _>(&Alone, Global, layout, 1).ok().unwrap();
    println!("link {:.0}", start.elapsed().as_secs_f64() * 1e9);
    let image = linked.out().len() as i64;
    println!("image {image}");
    println!("kept {}", LIVE.load(Relaxed) - before - image);
    let spread = |round: usize| (round * 40503) % groups;
    MOST.store(0, Relaxed);
    let live = LIVE.load(Relaxed);
    println!("accepted {:.0}", mean(&mut linked, count, Kind::Accepted, spread));
    println!("most {}", MOST.load(Relaxed) - live);
    println!("first {:.0}", mean(&mut linked, count, Kind::Accepted, |_| 0));
    println!("last {:.0}", mean(&mut linked, count, Kind::Accepted, |_| groups - 1));
    println!("by_length {:.0}", mean(&mut linked, count, Kind::WrongLength, spread));
    println!("by_group {:.0}", mean(&mut linked, count, Kind::WrongType, spread));
    println!("by_clause {:.0}", mean(&mut linked, 20, Kind::FieldPastEnd, spread));
    let again = write::<ElfX86_64, _>(&Alone, Global, linked.layout(), 1).ok().unwrap();
    let is_same = again.out.as_slice() == linked.out() && again.counts.as_slice() == linked.counts();
    println!("same {}", is_same as u8);
}
