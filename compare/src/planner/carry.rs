//! Carrying back: a table of a trimmed plan, under the numbers that its states had before.
use super::plan::{Size, NONE};
use super::refusal::{need, Refusal};

/// Whether the entries rise, each of them below `n`. All are looked at, which takes less time than to stop at the first that does not rise.
fn rises_below(n: usize, olds: &[u16]) -> bool {
    let pairs = olds.iter().zip(olds.iter().skip(1));
    let rises = pairs.fold(true, |rises, (before, old)| rises & (before < old));
    rises && olds.last().map_or(true, |&last| usize::from(last) < n)
}

/// Carries a table back to `n` states: entry i goes to the place that entry i of the map names, and NONE to the places of all other
/// states. It is not inlined, so that calls with the same map do not share its test.
#[inline(never)]
pub fn carry(n: usize, olds: &[u16], table: &[u16], places: &mut [u16]) -> Result<(), Refusal> {
    need((1..=Size::STATES).contains(&n), Refusal::Unsound)?;
    need(table.len() >= olds.len(), Refusal::Unsound)?;
    need(rises_below(n, olds), Refusal::Unsound)?;
    need(places.len() >= n, Refusal::Cramped)?;
    let places = &mut places[..n];
    places.fill(NONE);
    for (&old, &entry) in olds.iter().zip(table) {
        places[usize::from(old)] = entry;
    }
    Ok(())
}
