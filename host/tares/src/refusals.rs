//! What a refused command tells: the refusal in the library's words, the line
//! or bucket in question with the reason, and the remedy.

use pansdaoh::{Refusal, Settings, LINE};

use crate::changes::Change;
use crate::lists::Line;
use crate::reasons::*;
use crate::settings::settings_text;
use crate::Failure;

/// What a refused call was given.
pub enum Given<'a> {
    List { list: &'a [u8], settings: Settings },
    Lines { lines: u64, settings: Settings },
    Change { list: &'a [u8], change: Change, line: Line, settings: Settings },
    Image { image: &'a [u8], settings: Settings },
    Lookup { image: &'a [u8], tag: u64, tune_in: u64, lost: &'a [usize] },
}

pub fn refused(refusal: Refusal, given: Given) -> Failure {
    let mut text = refusal.to_string();
    for line in details(refusal, given) {
        text += "\n  ";
        text += &line;
    }
    Failure::Refused(text)
}

/// The library's refusal of an image by 11.
pub fn refused_image(image: &[u8]) -> Result<(), Failure> {
    refused_tune_in(image, 0)
}

/// The library's refusal of an image by 11, or of a tune-in by 12.
pub fn refused_tune_in(image: &[u8], tune_in: u64) -> Result<(), Failure> {
    match pansdaoh::lookup(image, 0, tune_in, &mut []) {
        Err(refusal) if matches!(refusal.number, 11 | 12) => {
            Err(refused(refusal, Given::Lookup { image, tag: 0, tune_in, lost: &[] }))
        }
        _ => Ok(()),
    }
}

/// The library's refusal of settings by 1, or of a list's length by 2.
pub fn refused_lengths(list: &[u8], settings: Settings) -> Result<(), Failure> {
    match pansdaoh::build(list, settings, &mut []) {
        Err(refusal) if matches!(refusal.number, 1 | 2) => {
            Err(refused(refusal, Given::List { list, settings }))
        }
        _ => Ok(()),
    }
}

/// The library's refusal of a list by 2 to 4: with no room at all a list that is good is refused by 7.
pub fn refused_list(list: &[u8]) -> Result<(), Failure> {
    let settings = Settings { n: 8, p: 8, layout: 1, copies: 0 };
    match pansdaoh::build(list, settings, &mut []) {
        Err(refusal) if refusal.number != 7 => {
            Err(refused(refusal, Given::List { list, settings }))
        }
        _ => Ok(()),
    }
}

fn details(Refusal { number, place }: Refusal, given: Given) -> Vec<String> {
    match given {
        Given::List { list, settings } => of_list(number, place as usize, list, settings),
        Given::Lines { lines, settings } => of_lines(number, lines, settings),
        Given::Change { list, change, line, settings } => {
            let lines = list.len() / LINE;
            match number {
                2 => given_length(line),
                3 if place as usize == lines => given_line(line),
                3 | 4 => of_list(number, place as usize, list, settings),
                15 => not_in_list(list, line),
                16 => vec![format!("{lines} lines are the most of a list")],
                _ => of_lines(number, change.lines_after(lines) as u64, settings),
            }
        }
        Given::Image { image, settings } => match number {
            1 => out_of_range(settings),
            11 => image_length(image),
            13 => no_list(image, settings),
            _ => vec![settings_text(settings)],
        },
        Given::Lookup { image, tag, tune_in, lost } => match number {
            11 => image_length(image),
            12 => late(image, tune_in),
            8..=10 => unheard(number, image, tag, tune_in, lost),
            _ => vec![format!("tag {tag}, tune-in {tune_in}")],
        },
    }
}

/// What a list is refused for.
fn of_list(number: u64, place: usize, list: &[u8], settings: Settings) -> Vec<String> {
    match number {
        2 => list_length(list),
        3 => misprinted_line(list, place),
        4 => falling_tag(list, place),
        _ => of_lines(number, (list.len() / LINE) as u64, settings),
    }
}

/// What settings, or a number of lines with them, are refused for.
fn of_lines(number: u64, lines: u64, settings: Settings) -> Vec<String> {
    match number {
        1 => out_of_range(settings),
        2 => vec![format!("{lines} lines are more than 40000, the most of a list")],
        5 => copies(lines, settings),
        6 => too_long(lines, settings),
        17 => vec!["a wait is for a tag, and a list without lines has none".to_string()],
        _ => vec![settings_text(settings)],
    }
}
