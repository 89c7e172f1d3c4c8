//! How many boundaries the ids of a chunk have: worked by hand, and of random runs.

use alloc::vec::Vec;

use super::set_models::Numbers;
use crate::slices::chunk::bounds::count_in_ids;

/// Counts the boundaries of the numbers of some ranges, each to its last one, in the first chunk, in another one and in the last.
fn has_bounds(ranges: &[(u32, u32)], bounds: usize) {
    for base in [0, 3 << 16, 65535 << 16] {
        let ids: Vec<u32> = ranges.iter().flat_map(|(begin, last)| base + begin..=base + last).collect();
        assert_eq!(count_in_ids(&ids), bounds, "from {base} on: {ranges:?}");
    }
}

#[test]
fn by_hand() {
    has_bounds(&[(0, 0)], 2);
    has_bounds(&[(65534, 65534)], 2);
    has_bounds(&[(65535, 65535)], 1);
    has_bounds(&[(3, 5), (9, 9)], 4);
    has_bounds(&[(0, 0), (65535, 65535)], 3);
    has_bounds(&[(0, 65535)], 1);
    // Over two slices, and with a number left out on each side of the edge.
    has_bounds(&[(250, 260)], 2);
    has_bounds(&[(250, 254), (256, 260)], 4);
    has_bounds(&[(250, 255), (257, 260)], 4);
    // Each other number, up to 65534.
    let each: Vec<(u32, u32)> = (0..32768).map(|half| (2 * half, 2 * half)).collect();
    has_bounds(&each, 65536);
}

#[test]
fn of_random_runs() {
    let mut random = Numbers(1);
    for _ in 0..100 {
        let (mut ranges, mut next, mut bounds) = (Vec::new(), random.below(3000), 0);
        while next < 65536 {
            let most = [2, 20, 300, 9000][random.below(4) as usize];
            let end = (next + 1 + random.below(most)).min(65536);
            ranges.push((next, end - 1));
            bounds += if end < 65536 { 2 } else { 1 };
            let gap = [2, 500, 20_000][random.below(3) as usize];
            next = end + 1 + random.below(gap);
        }
        has_bounds(&ranges, bounds);
    }
}
