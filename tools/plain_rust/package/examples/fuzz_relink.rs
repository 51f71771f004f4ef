//! Changes of each section of plans, compared with `write_layout` of the changed layout.
use wild_image_writer::shim::alloc::Global;
use wild_image_writer::shim::ledger::{Blank, Brand};
use wild_image_writer::wild_change::Change;
use wild_image_writer::wild_image::{Alone, ElfAArch64, ElfX86_64, Steps, write_layout};
use wild_image_writer::wild_relinker::{Linked, RelinkFault, relink};
use wild_image_writer::wild_types::*;

struct Rng(u64);
impl Rng {
    fn next(&mut self) -> u64 { self.0 ^= self.0 << 13; self.0 ^= self.0 >> 7; self.0 ^= self.0 << 17; self.0 }
    fn below(&mut self, n: usize) -> usize { (self.next() % n.max(1) as u64) as usize }
}

fn changeable(s: Slot) -> bool { matches!(s, Slot::Loaded | Slot::Debug) }

fn link(l: Layout) -> Result<Linked, Error> {
    match l.machine {
        Machine::X86_64 => Linked::link::<ElfX86_64, _>(&Alone, Global, l, 1),
        Machine::AArch64 => Linked::link::<ElfAArch64, _>(&Alone, Global, l, 1),
    }
}
fn change(k: &mut Linked, c: Change, steps: &mut Steps<Brand>) -> Result<(), RelinkFault> {
    match k.layout().machine {
        Machine::X86_64 => relink::<ElfX86_64, _, Brand>(&Alone, Global, k, c, steps),
        Machine::AArch64 => relink::<ElfAArch64, _, Brand>(&Alone, Global, k, c, steps),
    }
}

fn main() {
    let mut steps = Steps::<Brand>::new(Blank::new(1));
    let mut total = [0usize; 4];
    for path in std::env::args().skip(1) {
        let text = std::fs::read(&path).unwrap();
        let make = || wild_image_writer::read_plan(&text).ok();
        let Some(l) = make() else { println!("{path}: no plan"); continue };
        let Some(mut mirror) = make() else { continue };
        let Ok(mut linked) = link(l) else { println!("{path}: not linked"); continue };
        let mut places = vec![];
        for (g, group) in linked.layout().groups.as_slice().iter().enumerate() {
            for (f, file) in group.files.as_slice().iter().enumerate() {
                for (s, section) in file.sections.as_slice().iter().enumerate() {
                    places.push((g, f, s, changeable(section.slot)));
                }
            }
        }
        let mut rng = Rng(0x9e3779b97f4a7c15 ^ text.len() as u64);
        let mut done = [0usize; 4];
        let symbols = linked.layout().symbols.as_slice().len();
        for turn in 0..(200.min(places.len() * 12)).max(20) {
            if places.is_empty() { break; }
            let (g, f, s, _) = places[rng.below(places.len())];
            let section = &linked.layout().groups.as_slice()[g].files.as_slice()[f].sections.as_slice()[s];
            let mut bytes: Vec<u8> = section.bytes.as_slice().to_vec();
            let mut relocations: Vec<InputRelocation> = section.relocations.as_slice().to_vec();
            match rng.below(12) {
                0 => {}
                1 => { if !bytes.is_empty() { let n = rng.below(bytes.len()); bytes[n] = rng.next() as u8; } }
                2 => { relocations.clear(); }
                3 => { relocations.pop(); }
                4 => { if !relocations.is_empty() { let n = rng.below(relocations.len()); relocations[n].addend += 8; } }
                5 => { if !relocations.is_empty() && symbols > 0 { let n = rng.below(relocations.len()); relocations[n].symbol = Some(SymbolIndex(rng.below(symbols))); } }
                6 => { if !relocations.is_empty() { let n = rng.below(relocations.len()); relocations[n].number = [1, 2, 10, 24, 99, 257, 4, 9, 0][rng.below(9)]; } }
                7 => { if !relocations.is_empty() { let r = relocations[rng.below(relocations.len())]; relocations.push(r); } }
                8 => { bytes.push(0); }
                9 => { if !relocations.is_empty() { let n = rng.below(relocations.len()); relocations[n].offset = rng.below(bytes.len() + 4) as u64; } }
                10 => { if symbols > 0 && bytes.len() >= 8 { relocations.push(InputRelocation { offset: rng.below(bytes.len() - 7) as u64, number: [1u32, 2, 0, 10][rng.below(4)], symbol: Some(SymbolIndex(rng.below(symbols))), addend: 0, malformed: rng.below(9) == 0 }); } }
                _ => { if !relocations.is_empty() && symbols > 0 { let n = rng.below(relocations.len()); relocations[n].symbol = Some(SymbolIndex(symbols + rng.below(2))); } }
            }
            let old_out = linked.out().to_vec();
            let old_counts = linked.counts().to_vec();
            let slot_ok = changeable(section.slot);
            let same = bytes.len() == section.bytes.as_slice().len();
            // the mirror layout with that change
            let old_bytes = section.bytes.as_slice().to_vec();
            let old_relocations = section.relocations.as_slice().to_vec();
            let put = |m: &mut Layout, b: &Vec<u8>, r: &Vec<InputRelocation>| {
                let mut groups = std::mem::replace(&mut m.groups, vec![].into()).into_vec();
                let mut files = std::mem::replace(&mut groups[g].files, vec![].into()).into_vec();
                let mut sections = std::mem::replace(&mut files[f].sections, vec![].into()).into_vec();
                sections[s].bytes = b.clone().into();
                sections[s].relocations = r.clone().into();
                files[f].sections = wild_image_writer::wild_words::Items::from_vec(sections);
                groups[g].files = wild_image_writer::wild_words::Items::from_vec(files);
                m.groups = wild_image_writer::wild_words::Items::from_vec(groups);
            };
            put(&mut mirror, &bytes, &relocations);
            let expected = write_layout(&Alone, Global, &mirror, 1);
            let r = change(&mut linked, Change { group: g, file: f, section: s, bytes: bytes.clone().into(), relocations: relocations.clone().into() }, &mut steps);
            let ok = match (&r, &expected) {
                (Err(RelinkFault::NoSection), _) => { done[2] += 1; !slot_ok }
                (Err(RelinkFault::Length { given, needed }), _) => { done[2] += 1; slot_ok && !same && *given == bytes.len() && *needed == old_bytes.len() }
                (Err(RelinkFault::Write(e)), Err(x)) => { done[1] += 1; slot_ok && same && e == x }
                (Ok(()), Ok(o)) => { done[0] += 1; slot_ok && same && o.out.as_slice() == linked.out() && o.counts.as_slice() == linked.counts() }
                _ => false,
            };
            if !ok { done[3] += 1; println!("{path} turn {turn} at {g} {f} {s}: {r:?} but {:?}", expected.as_ref().map(|_| ()).map_err(|e| *e)); }
            if r.is_err() {
                put(&mut mirror, &old_bytes, &old_relocations);
                if old_out != linked.out() || old_counts != linked.counts() { println!("{path}: a refusal changed the image"); done[3] += 1; }
            }
        }
        println!("{path}: {} ok, {} refused by write, {} refused before, {} wrong", done[0], done[1], done[2], done[3]);
        for i in 0..4 { total[i] += done[i]; }
    }
    println!("all: {total:?}");
}
