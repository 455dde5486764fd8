//! The same random nights through the C interface and through the second program, which must not differ in a line or
//! in a byte of the store.

use crate::support::numbered::Numbered;
use crate::support::{compare, Calls};
use oracle::refusal::FAULTS;
use oracle::tally::Tally;
use rnic::Device;

const MIB: usize = 1 << 20;

/// Compares nights of some lines over a store of a size, which must reach every kind of answer.
fn nights<D: Calls>(new: fn() -> D, size: usize, seeds: std::ops::Range<u64>, lines: u64) {
    let mut tally = Tally::default();
    for seed in seeds {
        compare(new(), size, seed, lines, &mut tally);
    }
    for kind in [
        "opened",
        "done",
        "closed",
        "read",
        "live",
        "free",
        "wait",
        "taken",
        "taken send",
        "taken send stag",
        "taken terminate",
        "took",
        "took taken",
        "took taken send",
        "took taken send stag",
        "took taken terminate",
        "held",
        "quiet",
        "steady",
        "falling",
        "state closed",
        "state open",
        "state ended",
        "state terminated",
    ] {
        assert!(tally.count_all(kind) >= 10, "{kind}:\n{tally}");
    }
    let local = (1..=11)
        .chain([16, 19])
        .map(|number| format!("refused {number}"));
    let faults = FAULTS.iter().map(|fault| format!("refused {fault}"));
    for kind in local.chain(faults) {
        assert!(tally.count_all(&kind) >= 3, "{kind}:\n{tally}");
    }
}

#[test]
fn a_store_of_4096_bytes() {
    nights(Device::new, 4096, 1..21, 2000);
}

#[test]
fn a_store_of_1_mib() {
    nights(Device::new, MIB, 21..41, 2000);
}

#[test]
fn a_store_of_16_mib() {
    nights(Device::new, 16 * MIB, 41..46, 8000);
}

#[test]
fn by_number_over_4096_bytes() {
    nights(Numbered::new, 4096, 46..66, 2000);
}

#[test]
fn by_number_over_16_mib() {
    nights(Numbered::new, 16 * MIB, 66..71, 8000);
}
