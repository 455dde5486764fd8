//! Where in a domain's part there is room for what peers are to write to.

use std::ops::Range;

use crate::state::Device;

/// Gives the ranges of a domain's part, each of a byte or more, that no write window and no waiting buffer of it has.
pub(super) fn gaps(device: &Device, domain: usize) -> Vec<Range<u64>> {
    let part = device.parts[domain];
    let mut taken: Vec<Range<u64>> = device.written(domain).collect();
    taken.sort_by_key(|range| range.start);
    taken.push(part.end..part.end);
    let mut gaps = Vec::new();
    let mut from = part.start;
    for range in taken {
        if from < range.start {
            gaps.push(from..range.start);
        }
        from = range.end;
    }
    gaps
}
