//! Plans with changes, and what the programs print for them.

mod answers;
mod row;

use crate::shim::alloc::Global;
use crate::shim::thread::Process;

#[test]
fn rows() {
    let rows = include_str!("../../tests/rows.txt");
    let mut base = "";
    for block in rows.split("\n\n") {
        if let Some(plan) = block.strip_prefix("base ") {
            base = plan;
            continue;
        }
        let row = block.replace("plan base\n", &format!("text {base}\n"));
        assert_eq!(row::row_holds(&Process, Global, &row), Ok(true), "{row}");
    }
}
