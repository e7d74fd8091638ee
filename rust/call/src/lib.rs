//! `call`, a command for people and programs: it makes calls from text, shows them as text or JSON, explains refusals and
//! proposes sheets. It never decides; the answers are the proved library's. Read the files in this order:
//!
//! - `words`, `form`, `number`, `line`: text as words with line and column, the kinds of line, numbers, one line
//! - `draft`, `reader`, `lines`, `sets`, `limits`, `assemble`, `bytes`: what a text says, how it is read, and its bytes
//! - `library`: the proved library's answer, v and σ
//! - `layout`, `parts`, `sums`: where fields stand, a call taken apart, both sides of each question
//! - `show`, `show_book`, `show_sheet`, `rows`: a call as text, figures beside it
//! - `asked`, `explain`: the questions' words, and what is said of a refusal
//! - `place`, `range`, `places_head`, `places_book`, `places_sheet`, `places_balance`: where each question fails
//! - `json`, `report`, `report_sheet`: the same as one JSON object
//! - `propose`: a sheet for a book
//! - `files`, `help`, `options`, `command`: the command line

#![forbid(unsafe_code)]

pub mod asked;
pub mod assemble;
pub mod bytes;
pub mod command;
pub mod draft;
pub mod explain;
pub mod files;
pub mod form;
pub mod help;
pub mod json;
pub mod layout;
pub mod library;
pub mod limits;
pub mod line;
pub mod lines;
pub mod number;
pub mod options;
pub mod parts;
pub mod place;
pub mod places_balance;
pub mod places_book;
pub mod places_head;
pub mod places_sheet;
pub mod propose;
pub mod range;
pub mod reader;
pub mod report;
pub mod report_sheet;
pub mod rows;
pub mod sets;
pub mod show;
pub mod show_book;
pub mod show_sheet;
pub mod sums;
pub mod words;
