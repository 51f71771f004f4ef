use std::collections::HashMap; use std::thread;
fn main(){ let mut m=HashMap::new(); for w in "a b a c b a".split(' '){*m.entry(w).or_insert(0)+=1;} let mut v:Vec<_>=m.into_iter().collect(); v.sort(); let h=thread::spawn(||{ std::panic::catch_unwind(||{panic!("boom")}).is_err()}); println!("{:?} {}",v,h.join().unwrap()); }
