//! The command line.

use std::collections::VecDeque;
use std::ffi::{OsStr, OsString};
use std::ops::RangeInclusive;

use pansdaoh::Settings;

use crate::changes::Change;
use crate::files::File;
use crate::help::{Usage, COMMANDS, HELP, SEVERAL, VERSION};
use crate::lists::Line;
use crate::search::Wanted;
use crate::Failure;

pub enum Command {
    Print(&'static str),
    Check { list: File, image: File, wanted: Wanted, all: bool },
    Build { list: File, image: File, settings: Settings },
    Read { image: File, out: File, settings: Settings, force: bool },
    Import { csv: File, list: File },
    Change { change: Change, list: File, image: File, line: Line, settings: Settings },
    Size { lines: u64, settings: Settings, c: u64 },
    Sizes { lines: u64, n: u64, p: u64, c: u64 },
    Mean { list: File, settings: Settings },
    Means { list: File, n: u64, p: u64, given: Option<Settings> },
    Lookup { image: File, tag: u64, tune_in: u64, out: Option<File> },
    Table { image: File, tag: u64 },
    Follow { image: File, tag: u64, tune_in: u64, lost: Vec<u64> },
    Show { image: File, buckets: Option<RangeInclusive<u64>> },
}

/// Reads the words behind the program's name.
pub fn parse(mut words: impl Iterator<Item = OsString>) -> Result<Command, Failure> {
    let Some(name) = words.next() else {
        return wrong("no command given", "");
    };
    match name.to_str() {
        Some("--help" | "-h") => return Ok(Command::Print(HELP)),
        Some("--version" | "-V") => return Ok(Command::Print(VERSION)),
        Some("help") => return help(words),
        _ => {}
    }
    let usage = usage(&name)?;
    let words = match Words::split(words, usage) {
        Ok(Some(words)) => words,
        Ok(None) => return Ok(Command::Print(usage.help)),
        Err(message) => return wrong(&message, usage.name),
    };
    words.command(usage.name).or_else(|message| wrong(&message, usage.name))
}

/// Help of a command, or of the whole.
fn help(mut words: impl Iterator<Item = OsString>) -> Result<Command, Failure> {
    let text = match words.next() {
        Some(command) => usage(&command)?.help,
        None => HELP,
    };
    match words.next() {
        Some(word) => wrong(&format!("one word too many: {}", word.display()), ""),
        None => Ok(Command::Print(text)),
    }
}

fn usage(name: &OsStr) -> Result<&'static Usage, Failure> {
    match COMMANDS.iter().find(|usage| name == usage.name) {
        Some(usage) => Ok(usage),
        None => wrong(&format!("no command {}", name.display()), ""),
    }
}

fn wrong<T>(message: &str, command: &str) -> Result<T, Failure> {
    let space = if command.is_empty() { "" } else { " " };
    Err(Failure::WrongUse(format!("{message}\nTry: tares{space}{command} --help")))
}

/// The words behind a command.
struct Words {
    operands: VecDeque<OsString>,
    /// The options with their numbers, mostly one.
    numbers: Vec<(&'static str, Vec<u64>)>,
    flags: Vec<&'static str>,
}

impl Words {
    /// Tells options from operands; None if help is asked for.
    fn split(
        mut words: impl Iterator<Item = OsString>,
        usage: &Usage,
    ) -> Result<Option<Words>, String> {
        let mut split = Words { operands: VecDeque::new(), numbers: Vec::new(), flags: Vec::new() };
        while let Some(word) = words.next() {
            let text = word.to_string_lossy();
            match &*text {
                "--help" | "-h" => return Ok(None),
                "--" => split.operands.extend(words.by_ref()),
                text if text.starts_with('-') && text != "-" => {
                    split.option(text, usage, &mut words)?
                }
                _ => split.operands.push_back(word),
            }
        }
        Ok(Some(split))
    }

    /// Takes an option with its number, which stands behind = or is the next word.
    fn option(
        &mut self,
        word: &str,
        usage: &Usage,
        words: &mut impl Iterator<Item = OsString>,
    ) -> Result<(), String> {
        let (name, value) = match word.split_once('=') {
            Some((name, value)) => (name, Some(OsString::from(value))),
            None => (word, None),
        };
        if let Some(&name) = usage.flags.iter().find(|&&flag| flag == name) {
            self.flags.push(name);
            return match value {
                Some(_) => Err(format!("{name} takes no value")),
                None => Ok(()),
            };
        }
        let Some(&name) = usage.numbers.iter().find(|&&option| option == name) else {
            return Err(format!("no option {name}"));
        };
        if self.is_given(name) {
            return Err(format!("{name} is given twice"));
        }
        let value = value.or_else(|| words.next()).ok_or(format!("{name} needs a number"))?;
        let numbers = match SEVERAL.contains(&name) {
            true => numbers(name, &value)?,
            false => vec![number(name, &value)?],
        };
        self.numbers.push((name, numbers));
        Ok(())
    }

    fn command(mut self, name: &str) -> Result<Command, String> {
        let command = match name {
            "check" => Command::Check {
                list: self.file("LIST")?,
                image: self.file("IMAGE")?,
                wanted: self.wanted(),
                all: self.flag("--all"),
            },
            "build" => Command::Build {
                list: self.file("LIST")?,
                image: self.file("IMAGE")?,
                settings: self.settings()?,
            },
            "read" => Command::Read {
                image: self.file("IMAGE")?,
                out: self.file("OUT")?,
                settings: self.settings()?,
                force: self.flag("--force"),
            },
            "import" => Command::Import { csv: self.file("CSV")?, list: self.file("LIST")? },
            "add" => self.change(Change::Add)?,
            "remove" => self.change(Change::Remove)?,
            "size" => self.size()?,
            "mean" => self.mean()?,
            "show" => Command::Show { image: self.file("IMAGE")?, buckets: self.buckets()? },
            _ => self.listening(name)?,
        };
        match (self.operands.front(), &command) {
            (Some(word), _) => Err(format!("one word too many: {}", word.display())),
            (None, Command::Check { list: File::Standard, image: File::Standard, .. }) => {
                Err("LIST and IMAGE are both standard input".to_string())
            }
            (None, Command::Change { list: File::Standard, image: File::Standard, .. }) => {
                Err("LIST and IMAGE are both standard output".to_string())
            }
            (None, _) => Ok(command),
        }
    }

    fn change(&mut self, change: Change) -> Result<Command, String> {
        Ok(Command::Change {
            change,
            list: self.file("LIST")?,
            image: self.file("IMAGE")?,
            line: [
                self.figure("TAG")?,
                self.figure("TARE")?,
                self.figure("MATERIAL")?,
                self.figure("WEIGHING")?,
            ],
            settings: self.settings()?,
        })
    }

    fn size(&self) -> Result<Command, String> {
        let (lines, [n, p]) = (self.needed("--lines")?, self.shape()?);
        let c = self.number("--in").unwrap_or(1);
        Ok(match self.given()? {
            Some(settings) => Command::Size { lines, settings, c },
            None => Command::Sizes { lines, n, p, c },
        })
    }

    fn mean(&mut self) -> Result<Command, String> {
        let (list, [n, p]) = (self.file("LIST")?, self.shape()?);
        Ok(match self.given()? {
            Some(settings) if !self.flag("--compare") => Command::Mean { list, settings },
            given => Command::Means { list, n, p, given },
        })
    }

    /// The commands that listen for a tag.
    fn listening(&mut self, name: &str) -> Result<Command, String> {
        let image = self.file("IMAGE")?;
        let tag = self.figure("TAG")?;
        if name == "table" {
            return Ok(Command::Table { image, tag });
        }
        let tune_in = self.needed("--tune-in")?;
        if name == "follow" {
            let lost = self.numbers("--lost").to_vec();
            return Ok(Command::Follow { image, tag, tune_in, lost });
        }
        let out = self.operands.pop_front().map(File::new);
        Ok(Command::Lookup { image, tag, tune_in, out })
    }

    fn operand(&mut self, name: &str) -> Result<OsString, String> {
        self.operands.pop_front().ok_or(format!("{name} is missing"))
    }

    fn file(&mut self, name: &str) -> Result<File, String> {
        self.operand(name).map(File::new)
    }

    fn figure(&mut self, name: &str) -> Result<u64, String> {
        number(name, self.operand(name)?)
    }

    /// BUCKET or FROM-TO, if given.
    fn buckets(&mut self) -> Result<Option<RangeInclusive<u64>>, String> {
        let Some(word) = self.operands.pop_front() else {
            return Ok(None);
        };
        let text = word.to_string_lossy();
        let (from, to) = text.split_once('-').unwrap_or((&text, &text));
        let (from, to) = (number("BUCKET", from)?, number("BUCKET", to)?);
        if from > to {
            return Err(format!("{text} is no range: {from} is above {to}"));
        }
        Ok(Some(from..=to))
    }

    fn flag(&self, name: &str) -> bool {
        self.flags.contains(&name)
    }

    fn is_given(&self, name: &str) -> bool {
        !self.numbers(name).is_empty()
    }

    /// None if the option is not given.
    fn numbers(&self, name: &str) -> &[u64] {
        let given = self.numbers.iter().find(|option| option.0 == name);
        given.map_or(&[], |option| &option.1)
    }

    fn number(&self, name: &str) -> Option<u64> {
        self.numbers(name).first().copied()
    }

    fn needed(&self, name: &str) -> Result<u64, String> {
        self.number(name).ok_or(format!("{name} is missing"))
    }

    /// n and p.
    fn shape(&self) -> Result<[u64; 2], String> {
        Ok([self.needed("--n")?, self.needed("--p")?])
    }

    fn settings(&self) -> Result<Settings, String> {
        let [n, p] = self.shape()?;
        Ok(Settings { n, p, layout: self.needed("--layout")?, copies: self.needed("--copies")? })
    }

    /// The settings, unless both layout and copies are left out.
    fn given(&self) -> Result<Option<Settings>, String> {
        match self.is_given("--layout") || self.is_given("--copies") {
            true => self.settings().map(Some),
            false => Ok(None),
        }
    }

    fn wanted(&self) -> Wanted {
        Wanted {
            n: self.number("--n"),
            p: self.number("--p"),
            layout: self.number("--layout"),
            copies: self.number("--copies"),
        }
    }
}

/// Numbers with commas between them.
fn numbers(name: &str, word: &OsStr) -> Result<Vec<u64>, String> {
    let text = word.to_string_lossy();
    let numbers: Result<_, String> = text.split(',').map(|word| number(name, word)).collect();
    numbers.map_err(|_| format!("{name} takes numbers with commas between them alone: {text}"))
}

/// Digits alone. Which numbers a call takes is for the call to say.
fn number(name: &str, word: impl AsRef<OsStr>) -> Result<u64, String> {
    let text = word.as_ref().to_string_lossy();
    let digits = text.bytes().all(|byte| byte.is_ascii_digit());
    let number = text.parse().ok().filter(|_| digits);
    number.ok_or(format!("{name} is no number from 0 to {}: {text}", u64::MAX))
}
