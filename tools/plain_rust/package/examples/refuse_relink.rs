//! Refuses each allocation of a change in turn: the change has to be answered with `OutOfMemory`, and the linked layout has to be as before,
//! also for the next change. Prints how many were refused.
use std::alloc::{GlobalAlloc, Layout as Size, System};
use std::ptr::null_mut;
use std::sync::atomic::{AtomicI64, Ordering::Relaxed};
use wild_image_writer::shim::alloc::Global;
use wild_image_writer::shim::ledger::{Blank, Brand};
use wild_image_writer::wild_image::{Alone, ElfX86_64, Steps, write};
use wild_image_writer::wild_relinker::{Change, Linked, RelinkFault, relink};
use wild_image_writer::wild_sample_layouts::make_plan;

/// Refuses an allocation when the count reaches 0; below 0 nothing is counted.
struct Refusing;

static LEFT: AtomicI64 = AtomicI64::new(-1);

fn is_refused() -> bool {
    let left = LEFT.load(Relaxed);
    if left >= 0 {
        LEFT.store(left - 1, Relaxed);
    }
    left == 0
}

unsafe impl GlobalAlloc for Refusing {
    unsafe fn alloc(&self, size: Size) -> *mut u8 {
        if is_refused() { null_mut() } else { unsafe { System.alloc(size) } }
    }

    unsafe fn dealloc(&self, place: *mut u8, size: Size) {
        unsafe { System.dealloc(place, size) }
    }

    unsafe fn realloc(&self, place: *mut u8, size: Size, next: usize) -> *mut u8 {
        if is_refused() { null_mut() } else { unsafe { System.realloc(place, size, next) } }
    }
}

#[global_allocator]
static ALLOCATOR: Refusing = Refusing;

/// Other bytes for the code of a group.
fn change(linked: &Linked, group: usize, byte: u8) -> Change {
    let file = if group == 0 { 1 } else { 0 };
    let section = &linked.layout().groups.as_slice()[group].files.as_slice()[file].sections.as_slice()[0];
    Change {
        group,
        file,
        section: 0,
        bytes: vec![byte; section.bytes.len()].into(),
        relocations: section.relocations.as_slice()[1..].to_vec().into(),
    }
}

fn relinked(linked: &mut Linked, change: Change) -> Result<(), RelinkFault> {
    let mut steps = Steps::<Brand>::new(Blank::new(1));
    relink::<ElfX86_64, _, Brand>(&Alone, Global, linked, change, &mut steps)
}

fn is_as_written(linked: &Linked) -> bool {
    let image = write::<ElfX86_64, _>(&Alone, Global, linked.layout(), 1).ok().unwrap();
    image.out.as_slice() == linked.out() && image.counts.as_slice() == linked.counts() && image.warnings.as_slice() == linked.warnings()
}

fn main() {
    let mut refused = 0;
    for group in 0..4 {
        let mut call = 0;
        loop {
            let layout = make_plan(Global, 4).ok().unwrap();
            let mut linked = Linked::link::<ElfX86_64, _>(&Alone, Global, layout, 1).ok().unwrap();
            let (image, counts) = (linked.out().to_vec(), linked.counts().to_vec());
            let first = change(&linked, group, 0x91);
            LEFT.store(call, Relaxed);
            let answer = relinked(&mut linked, first);
            let was_refused = LEFT.swap(-1, Relaxed) < 0;
            if !was_refused {
                assert_eq!(answer, Ok(()), "group {group}, after the last allocation");
                break;
            }
            assert_eq!(answer, Err(RelinkFault::OutOfMemory), "group {group}, allocation {call}");
            assert!(linked.out() == image && linked.counts() == counts && is_as_written(&linked), "group {group}, allocation {call}");
            let second = change(&linked, (group + 1) % 4, 0x92);
            assert_eq!(relinked(&mut linked, second), Ok(()), "group {group}, after allocation {call}");
            assert!(linked.out() != image && is_as_written(&linked), "group {group}, after allocation {call}");
            refused += 1;
            call += 1;
        }
    }
    println!("{refused} refusals");
}
