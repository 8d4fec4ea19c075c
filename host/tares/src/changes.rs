//! A line put into a list or taken out of it, and the changed list's cycle.

use pansdaoh::{Settings, BUCKET, LINE};

use crate::lists::{lines, printed, Line};
use crate::refusals::{refused, refused_lengths, Given};
use crate::room::image_room;
use crate::words::counts;
use crate::Failure;

#[derive(Clone, Copy)]
pub enum Change {
    Add,
    Remove,
}

/// A changed list, its cycle, and what to say of it.
pub struct Changed {
    pub list: Vec<u8>,
    pub image: Vec<u8>,
    pub text: String,
}

impl Change {
    /// How many lines a list of so many has after the change.
    pub fn lines_after(self, lines: usize) -> usize {
        match self {
            Change::Add => lines + 1,
            Change::Remove => lines.saturating_sub(1),
        }
    }

    pub fn make(self, list: &[u8], line: Line, settings: Settings) -> Result<Changed, Failure> {
        refused_lengths(list, settings)?;
        let call = match self {
            Change::Add => pansdaoh::arrive,
            Change::Remove => pansdaoh::take_out,
        };
        // With a place for one line more.
        let mut held = [list, &[b' '; LINE]].concat();
        let mut image = image_room();
        let count = (list.len() / LINE) as u64;
        let changed =
            call(&mut held, count, &printed(&[line]), settings, &mut image).map_err(|refusal| {
                refused(refusal, Given::Change { list, change: self, line, settings })
            })?;
        held.truncate(LINE * changed.lines as usize);
        image.truncate(BUCKET * changed.n as usize);
        let told = self.told(&lines(list), line);
        let counts = counts(changed.lines as usize, changed.n as usize);
        let text = format!("{told}; {counts}, k {}, D {}\n", changed.k, changed.d);
        Ok(Changed { list: held, image, text })
    }

    /// Where the line stands in the changed list, or stood in the former one.
    fn told(self, former: &[Line], line: Line) -> String {
        match self {
            // "behind all lines of its tag"
            Change::Add => {
                let before = former.partition_point(|other| other[0] <= line[0]);
                format!("added as line {}", before + 1)
            }
            // "the first whose four numbers equal those of the one given"
            Change::Remove => {
                let before = former.iter().take_while(|&&other| other != line).count();
                format!("line {} taken out", before + 1)
            }
        }
    }
}
