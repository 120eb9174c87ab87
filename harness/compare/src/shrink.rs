//! Makes a difference's list small.
use crate::difference::{Difference, LayoutCall};
use crate::layouts::{Comparer, Rooms};
use crate::lists::ROW_BYTES;
use std::time::{Duration, Instant};

/// A difference on as few rows as dropping rows leads to, with options nearer to the defaults where they differ too.
pub fn smaller(found: Difference) -> Difference {
    let Some(call) = &found.call else { return found };
    let rows = call.rows.chunks(ROW_BYTES).collect();
    let with_rows = |rows: &[&[u8]]| LayoutCall { rows: rows.concat(), ..call.clone() };
    let mut small = with_rows(&fewest(rows, |rows| differs(&with_rows(rows)).is_some()));
    for (i, value) in [(0, 1), (1, 4), (1, 0), (2, 40), (2, 0), (3, 40), (3, 0)] {
        let mut other = small.clone();
        other.options[i] = value;
        if differs(&other).is_some() {
            small = other;
        }
    }
    differs(&small).unwrap_or(found)
}

/// A difference on the call's list under any output size.
fn differs(call: &LayoutCall) -> Option<Difference> {
    let rooms = match call.rows.len() / ROW_BYTES {
        0..200 => Rooms::All,
        200..5000 => Rooms::Edges,
        _ => Rooms::Two(0),
    };
    let mut comparer = Comparer::new(None);
    match &call.source {
        Some(source) => comparer.compare_source(&call.rows, &call.text, source, rooms).err(),
        None => comparer.compare(&call.rows, &call.text, &[call.options], rooms, 0).err(),
    }
}

/// How long a difference is made smaller.
const PATIENCE: Duration = Duration::from_secs(20);

/// As few items as still fail, by dropping ever shorter runs of them until nothing more can go, or time is up.
pub fn fewest<T: Clone>(items: Vec<T>, fails: impl Fn(&[T]) -> bool) -> Vec<T> {
    let end = Instant::now() + PATIENCE;
    let fails = |items: &[T]| Instant::now() < end && fails(items);
    let mut kept = items;
    let mut run = kept.len().next_power_of_two();
    while run > 0 && Instant::now() < end {
        let fewer = without_runs(&kept, run, &fails);
        if run > 1 || fewer.len() == kept.len() {
            run /= 2;
        }
        kept = fewer;
    }
    kept
}

fn without_runs<T: Clone>(items: &[T], run: usize, fails: &impl Fn(&[T]) -> bool) -> Vec<T> {
    let mut kept = items.to_vec();
    let mut at = 0;
    while at < kept.len() {
        let mut fewer = kept.clone();
        fewer.drain(at..kept.len().min(at + run));
        if fails(&fewer) {
            kept = fewer;
        } else {
            at += run;
        }
    }
    kept
}

#[cfg(test)]
mod tests {
    #[test]
    fn fewest_keeps_what_fails() {
        let fails = |items: &[u32]| items.contains(&7) && items.contains(&40);
        assert_eq!(super::fewest((0..100).collect(), fails), [7, 40]);
        assert_eq!(super::fewest(vec![7, 40], fails), [7, 40]);
        assert_eq!(super::fewest(vec![1, 2], |_| true), []);
    }
}
