//! Lists whose records take as many bytes as they can.

use super::calls::{Call, RELLEB_WRITE};
use super::case::Case;

/// The write of a list for APA1 or RELLEB: 20 bytes a record, and 30 in
/// RELLEB's class 8. Each record is as far as can be from the one before it.
pub fn list(call: u8, class: u32, records: usize) -> Case {
    assert!(Call::of(call).columns[3], "no addends");
    let far = if class == 4 { 1 << 31 } else { 1 << 63 };
    let turns = |far: u64| (0..records).map(move |index| if index % 2 == 0 { far } else { 0 });
    let addends: Vec<i64> = turns(far).map(|offset| (offset as i64).wrapping_neg()).collect();
    let mut list = Case::write(call, class, &turns(far).collect::<Vec<_>>(), 0);
    list.addends = addends;
    if call == RELLEB_WRITE {
        list.types = turns(1 << 31).map(|kind| kind as u32).collect();
        list.symbols = vec![u32::MAX; records];
    }
    list
}
