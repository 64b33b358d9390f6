//! Tables without a choice of outcome.
use crate::table::Table;
use alloc::collections::BTreeMap;

/// Whether each job has one row for each of its moves.
pub fn without_choice(table: &Table) -> bool {
    let mut rows = BTreeMap::new();
    (0..table.count).all(|r| {
        let row = table.after(r);
        *rows.entry((table.job(r), table.action(r))).or_insert(row) == row
    })
}
