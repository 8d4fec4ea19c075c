//! The tool, run as a person runs it.

mod changes;
mod check;
mod commands;
mod files;
mod follow;
mod full_size;
mod import;
mod plans;
mod readme;
mod refusals;
mod run;
mod search;
mod show;
mod table;
mod wrong_use;
