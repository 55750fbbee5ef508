//! Document 02, request N7: the promised ceiling for lookups. "Show it for every
//! sound table."

/// "With n keys, n at least 1, the root's rank is at most (n − 1)/(α − 1) rounded
/// up": that number, and 0 for no keys, which have no root.
pub fn rank_ceiling(order: u64, keys: u64) -> u64 {
    if keys == 0 {
        return 0;
    }
    let (above, below) = (keys - 1, order - 1);
    let rest = u64::from(above % below != 0);
    above / below + rest
}

/// "and a lookup meets at most that many blocks, or one when the rank is 0": the most
/// blocks, for the rank that the root has; it is no matter where there are no keys.
pub fn blocks_ceiling(order: u64, keys: u64, root_rank: u64) -> u64 {
    match (keys, root_rank) {
        // "An empty one meets none."
        (0, _) => 0,
        (_, 0) => 1,
        _ => rank_ceiling(order, keys),
    }
}
