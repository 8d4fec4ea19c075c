//! A cycle and an image held against each other: which of the cycle's buckets
//! are altered or missing, and which of the image's are surplus.

use std::ops::Range;

use pansdaoh::BUCKET;

use crate::bucket::Bucket;

#[derive(Clone, Copy)]
pub enum Difference {
    /// The image has another bucket where this one of the cycle is due.
    Altered { due: usize, found: usize },
    /// The image lacks this bucket of the cycle.
    Missing { due: usize },
    /// The cycle has no such bucket here.
    Surplus { found: usize },
}

/// The place in a cycle where exactly this bucket stands; it prints its position.
pub fn place_in(cycle: &[u8], bucket: &[u8]) -> Option<usize> {
    let position = Bucket(bucket).position()? as usize;
    let due = cycle.chunks_exact(BUCKET).nth(position)?;
    (due == bucket).then_some(position)
}

/// The differences, from the first bucket on.
pub fn differences(cycle: &[u8], image: &[u8]) -> Vec<Difference> {
    let places: Vec<Option<usize>> =
        image.chunks_exact(BUCKET).map(|bucket| place_in(cycle, bucket)).collect();
    let mut differences = Vec::new();
    let (mut due, mut found) = (0, 0);
    for kept in rising(&places) {
        let place = places[kept].unwrap_or_default();
        add_gap(&mut differences, image, due..place, found..kept);
        (due, found) = (place + 1, kept + 1);
    }
    add_gap(&mut differences, image, due..cycle.len() / BUCKET, found..places.len());
    differences
}

/// A longest choice of the image's buckets that stand in the cycle's order.
fn rising(places: &[Option<usize>]) -> Vec<usize> {
    // By length of the choice: its last bucket, with the least place; and for
    // each bucket the one chosen before it.
    let mut ends: Vec<(usize, usize)> = Vec::new();
    let mut before = vec![None; places.len()];
    for (found, &place) in places.iter().enumerate() {
        let Some(place) = place else {
            continue;
        };
        let length = ends.partition_point(|&(end, _)| end < place);
        before[found] = length.checked_sub(1).map(|shorter| ends[shorter].1);
        match ends.get_mut(length) {
            // Of a bucket sent twice the first is kept.
            Some(end) if end.0 == place => {}
            Some(end) => *end = (place, found),
            None => ends.push((place, found)),
        }
    }
    let last = ends.last().map(|&(_, found)| found);
    let mut chosen: Vec<usize> = std::iter::successors(last, |&found| before[found]).collect();
    chosen.reverse();
    chosen
}

/// Buckets of the cycle and of the image between two that agree. They are
/// paired in order; where their numbers differ, by the positions printed.
fn add_gap(
    differences: &mut Vec<Difference>,
    image: &[u8],
    mut due: Range<usize>,
    mut found: Range<usize>,
) {
    while !due.is_empty() && !found.is_empty() {
        let printed = Bucket::at(image, found.start).position().map(|place| place as usize);
        let missing = due.len().saturating_sub(found.len());
        let surplus = found.len().saturating_sub(due.len());
        let (first_due, first_found) = (due.start, found.start);
        if printed.is_some_and(|place| first_due < place && place <= first_due + missing) {
            differences.push(Difference::Missing { due: first_due });
            due.start += 1;
        } else if surplus > 0 && printed != Some(first_due) {
            differences.push(Difference::Surplus { found: first_found });
            found.start += 1;
        } else {
            differences.push(Difference::Altered { due: first_due, found: first_found });
            due.start += 1;
            found.start += 1;
        }
    }
    differences.extend(due.map(|due| Difference::Missing { due }));
    differences.extend(found.map(|found| Difference::Surplus { found }));
}
