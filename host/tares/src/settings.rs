//! Settings in words.

use std::ops::RangeInclusive;

use pansdaoh::Settings;

/// Settings as the command line has them.
pub fn settings_text(Settings { n, p, layout, copies }: Settings) -> String {
    format!("--n {n} --p {p} --layout {layout} --copies {copies}")
}

/// Settings that differ in n and p alone, all of two ranges.
#[derive(PartialEq)]
struct Block {
    n: RangeInclusive<u64>,
    p: RangeInclusive<u64>,
    layout: u64,
    copies: u64,
}

/// Many settings, those with neighbouring n and p taken together.
pub fn settings_texts(settings: &[Settings]) -> Vec<String> {
    let mut settings = settings.to_vec();
    settings.sort_by_key(|s| (s.layout, s.copies, s.p, s.n));
    let one = |s: &Settings| {
        let Settings { n, p, layout, copies } = *s;
        Block { n: n..=n, p: p..=p, layout, copies }
    };
    let alike = |a: &Block, b: &Block| (a.layout, a.copies) == (b.layout, b.copies);
    let blocks = merged(settings.iter().map(one).collect(), |a, b| {
        let next = alike(a, b) && a.p == b.p && a.n.end() + 1 == *b.n.start();
        next.then(|| Block { n: *a.n.start()..=*b.n.end(), p: a.p.clone(), ..*a })
    });
    let blocks = merged(blocks, |a, b| {
        let next = alike(a, b) && a.n == b.n && a.p.end() + 1 == *b.p.start();
        next.then(|| Block { n: a.n.clone(), p: *a.p.start()..=*b.p.end(), ..*a })
    });
    blocks.iter().map(block_text).collect()
}

/// Each block taken together with the one before it, if they can be.
fn merged(blocks: Vec<Block>, join: impl Fn(&Block, &Block) -> Option<Block>) -> Vec<Block> {
    let mut merged: Vec<Block> = Vec::new();
    for block in blocks {
        match merged.last_mut().and_then(|last| Some((join(last, &block)?, last))) {
            Some((joined, last)) => *last = joined,
            None => merged.push(block),
        }
    }
    merged
}

fn block_text(Block { n, p, layout, copies }: &Block) -> String {
    let range = |range: &RangeInclusive<u64>| match (range.start(), range.end()) {
        (start, end) if start == end => start.to_string(),
        (start, end) => format!("{start} to {end}"),
    };
    format!("--n {} --p {} --layout {layout} --copies {copies}", range(n), range(p))
}
