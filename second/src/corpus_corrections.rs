//! The fixed corpus of lists of corrections.

use crate::cases::Case;
use crate::corpus_record::some_faulty;
use crate::known_corrections::{list, lists, to};
use crate::record::Version;

pub fn edit_all_cases() -> Vec<Case> {
    lists().into_iter().map(|(case, _)| case).chain(on_faulty()).collect()
}

/// Two corrections of records with every fault.
fn on_faulty() -> Vec<Case> {
    let faulty = some_faulty(Version::Second);
    faulty.iter().map(|record| list(record, &[to(11, 5), to(12, 6)])).collect()
}
