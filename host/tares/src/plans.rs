//! Figures for a planner: the size of a cycle and the mean wait, with their names,
//! and those of different settings side by side.

use std::iter::successors;

use pansdaoh::{Mean, Refusal, Settings, Size};

use crate::words::counted;

/// The figures of a cycle, for a tag that lies in `c` data buckets.
pub fn size_text(size: Size, c: u64) -> String {
    let Size { k, d, n, bytes, heard } = size;
    // "A C above D is taken as D."
    let within = counted(c.min(d) as usize, "data bucket");
    format!(
        "index levels (k): {k}\n\
         data buckets (D): {d}\n\
         buckets of the cycle (N): {n}\n\
         bytes of the image: {bytes}\n\
         buckets heard at most: {heard}, for a tag in {within}\n"
    )
}

pub fn size_table(sizes: &[(Settings, Size)]) -> String {
    let row = |size: &Size| vec![size.k, size.d, size.n, size.bytes, size.heard];
    let rows = sizes.iter().map(|(settings, size)| (*settings, texts(row(size))));
    table(&["k", "D", "N", "bytes", "heard"], rows)
}

/// The mean wait of a list with so many different tags.
pub fn mean_text(mean: Mean, tags: usize) -> String {
    let Mean { sum, divisor, quotient, remainder } = mean;
    let tune_ins = counted(divisor as usize / tags, "tune-in");
    let tags = counted(tags, "tag");
    format!(
        "sum: {sum}\n\
         divisor: {divisor}, {tune_ins} x {tags}\n\
         quotient: {quotient}\n\
         remainder: {remainder}\n\
         mean wait: {} buckets\n",
        decimal(mean)
    )
}

pub fn mean_table(means: &[(Settings, Mean)]) -> String {
    let row = |mean: &Mean| {
        let mut row = texts(vec![mean.sum, mean.divisor, mean.quotient, mean.remainder]);
        row.push(decimal(*mean));
        row
    };
    let rows = means.iter().map(|(settings, mean)| (*settings, row(mean)));
    table(&["sum", "divisor", "quotient", "remainder", "mean"], rows)
}

/// The mean with two decimals, rounded down.
fn decimal(Mean { divisor, quotient, remainder, .. }: Mean) -> String {
    format!("{quotient}.{:02}", 100 * remainder / divisor)
}

fn texts(figures: Vec<u64>) -> Vec<String> {
    figures.iter().map(u64::to_string).collect()
}

/// Rows of figures with their settings, under their names.
fn table(names: &[&str], rows: impl Iterator<Item = (Settings, Vec<String>)>) -> String {
    let names = ["layout", "copies"].iter().chain(names).map(|name| name.to_string());
    let mut table = vec![names.collect::<Vec<String>>()];
    table.extend(rows.map(|(settings, figures)| {
        [texts(vec![settings.layout, settings.copies]), figures].concat()
    }));
    let width = |column: usize| table.iter().map(|row| row[column].len()).max().unwrap_or(0);
    let widths: Vec<usize> = (0..table[0].len()).map(width).collect();
    let cell = |(text, width): (&String, &usize)| format!("{text:>width$}");
    let line = |row: &Vec<String>| row.iter().zip(&widths).map(cell).collect::<Vec<_>>().join("  ");
    table.iter().map(|row| line(row) + "\n").collect()
}

/// What a call answered for different settings, or by what it refused which.
type Answers<T> = Result<Vec<(Settings, T)>, (Settings, Refusal)>;

/// What a call answers for n and p with each r that is allowed, and with m = 1, 2, 4,
/// 8 and so on; and for the settings given, if any.
pub fn compared<T>(
    n: u64,
    p: u64,
    given: Option<Settings>,
    call: impl Fn(Settings) -> Result<T, Refusal>,
) -> Answers<T> {
    let distributed = (0..).map(|copies| Settings { n, p, layout: 1, copies });
    let doubled = successors(Some(1), |copies| Some(2 * copies));
    let mut answers = allowed(distributed, &call)?;
    answers.extend(allowed(doubled.map(|copies| Settings { n, p, layout: 2, copies }), &call)?);
    if let Some(given) = given.filter(|given| answers.iter().all(|(other, _)| other != given)) {
        answers.push((given, call(given).map_err(|refusal| (given, refusal))?));
        answers.sort_by_key(|(settings, _)| (settings.layout, settings.copies));
    }
    Ok(answers)
}

/// The answers as far as 5 and 6 allow.
fn allowed<T>(
    settings: impl Iterator<Item = Settings>,
    call: impl Fn(Settings) -> Result<T, Refusal>,
) -> Answers<T> {
    let mut answers = Vec::new();
    for settings in settings {
        match call(settings) {
            Ok(answer) => answers.push((settings, answer)),
            Err(Refusal { number: 5 | 6, .. }) => break,
            Err(refusal) => return Err((settings, refusal)),
        }
    }
    Ok(answers)
}
