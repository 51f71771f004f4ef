use wild_image_writer::shim::alloc::Global;
use wild_image_writer::shim::ledger::{Blank, Brand};
use wild_image_writer::wild_change::Change;
use wild_image_writer::wild_image::{Alone, ElfAArch64, ElfX86_64, Steps};
use wild_image_writer::wild_relinker::{Linked, RelinkFault, relink};
use wild_image_writer::wild_types::*;

fn main() {
    let a: Vec<String> = std::env::args().collect();
    let text = std::fs::read(&a[1]).unwrap();
    let l = wild_image_writer::read_plan(&text).unwrap();
    let n = |i: usize| a[i].parse::<usize>().unwrap();
    let bytes: Vec<u8> = (0..a[5].len() / 2).map(|i| u8::from_str_radix(&a[5][2 * i..2 * i + 2], 16).unwrap()).collect();
    let relocations: Vec<InputRelocation> = a[6].split(';').filter(|s| !s.is_empty()).map(|s| {
        let p: Vec<&str> = s.split(',').collect();
        InputRelocation { offset: p[0].parse().unwrap(), number: p[1].parse().unwrap(), symbol: p[2].parse().ok().map(SymbolIndex), addend: p[3].parse().unwrap(), malformed: p[4] == "1" }
    }).collect();
    let c = Change { group: n(2), file: n(3), section: n(4), bytes: bytes.into(), relocations: relocations.into() };
    let mut steps = Steps::<Brand>::new(Blank::new(1));
    let x86 = matches!(l.machine, Machine::X86_64);
    let k = if x86 { Linked::link::<ElfX86_64, _>(&Alone, Global, l, 1) } else { Linked::link::<ElfAArch64, _>(&Alone, Global, l, 1) };
    let mut k = match k { Ok(k) => k, Err(e) => { println!("refused {e:?}"); return } };
    let r = if x86 { relink::<ElfX86_64, _, Brand>(&Alone, Global, &mut k, c, &mut steps) } else { relink::<ElfAArch64, _, Brand>(&Alone, Global, &mut k, c, &mut steps) };
    match r {
        Ok(()) => {
            println!("rewritten 1\nimage {}", k.out().len());
            for (i, c) in k.counts().iter().enumerate() { if *c != 0 { println!("count {i} {c}"); } }
            for line in k.out().chunks(32) { println!("{}", line.iter().map(|b| format!("{b:02x}")).collect::<String>()); }
        }
        Err(RelinkFault::NoSection) => println!("no change section"),
        Err(RelinkFault::Length { given, needed }) => println!("no change length given={given} needed={needed}"),
        Err(e) => println!("refused {e:?}"),
    }
}
