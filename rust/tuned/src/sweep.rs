//! Who holds a permission throughout a jump, without going through its minutes.

/// Those of some users who hold a permission at a minute, and how long what they hold it by lasts.
pub struct Held {
    pub users: u64,
    /// It lasts to before this minute.
    pub until: u32,
    /// It comes again in each cycle to before this minute.
    pub era: u32,
}

/// Those of `open` who hold a permission at each minute from `first` to before `end`. `held` says
/// which of some users hold one at a minute.
///
/// What they hold it by is all that counts: while it lasts they stay, whatever else begins or
/// ends. What a whole cycle rests on comes again until the first part of it is over, so that the
/// next cycle that is looked at begins there.
pub fn staying(
    cycle: u32,
    mut open: u64,
    first: u32,
    end: u32,
    mut held: impl FnMut(u32, u64) -> Held,
) -> u64 {
    let mut from = first;
    while from < end {
        let turn = end.min(from + cycle);
        let (mut t, mut era) = (from, end);
        while t < turn {
            let now = held(t, open);
            open = now.users;
            if open == 0 {
                return 0;
            }
            t = now.until;
            era = era.min(now.era);
        }
        from = t.max(era);
    }
    open
}

/// `partition_point`, looked for from a place that is likely to be near it.
pub fn partition_near<T>(items: &[T], near: usize, is_before: impl Fn(&T) -> bool) -> usize {
    let (mut low, mut high, mut step) = (near, near, 1);
    // The point lies from `low` to `high`; either is moved in steps that grow.
    if items.get(near).is_some_and(&is_before) {
        while high < items.len() && is_before(&items[high]) {
            low = high + 1;
            high = (high + step).min(items.len());
            step *= 2;
        }
    } else {
        while low > 0 && !is_before(&items[low - 1]) {
            high = low - 1;
            low = low.saturating_sub(step);
            step *= 2;
        }
    }
    low + items[low..high].partition_point(is_before)
}

#[cfg(test)]
mod tests {
    use super::partition_near;

    #[test]
    fn from_anywhere_it_is_the_partition_point() {
        for count in 0..40 {
            let items: Vec<usize> = (0..count).collect();
            for point in 0..=count {
                for near in 0..=count {
                    assert_eq!(partition_near(&items, near, |&item| item < point), point);
                }
            }
        }
    }
}
