//! `answer`: the second implementation's answer as text.

use crate::records;
use crate::second::{self, Refusal, Stage, Supplied};
use crate::text;

/// What an answer is wanted of, with what the call supplies.
pub enum Wanted {
    Sew(Supplied),
    Stage(Stage, Supplied),
    Loop(u32),
}

impl Wanted {
    /// `sew`, a stage's name, or `loop` with a number; after `sew` and `walk`
    /// perhaps `table` with its entries, after `sew` perhaps `print-shop`.
    pub fn of_words(words: &[String]) -> Result<Self, String> {
        match words {
            [name, number] if name == "loop" => {
                let parsed = number.parse().map(Self::Loop);
                parsed.map_err(|_| format!("{number}: not the number of a loop"))
            }
            [name] if name == "sew" => Ok(Self::Sew(Supplied::Nothing)),
            [name, word] if word == "print-shop" => match name.as_str() {
                "sew" => Ok(Self::Sew(Supplied::PrintShop)),
                _ => Err(format!("{name}: only sew is for a print shop")),
            },
            [name] => Ok(Self::Stage(stage_named(name)?, Supplied::Nothing)),
            [name, word, entries] if word == "table" => {
                let table = Supplied::Table(table_of(entries));
                match name.as_str() {
                    "sew" => Ok(Self::Sew(table)),
                    "walk" => Ok(Self::Stage(Stage::Walk, table)),
                    _ => Err(format!("{name}: only sew and walk take a table")),
                }
            }
            _ => Err("name sew, a stage, or loop with a number".to_string()),
        }
    }
}

fn stage_named(name: &str) -> Result<Stage, String> {
    Stage::of_name(name).ok_or(format!("{name}: no such stage"))
}

/// The bytes of a table from its entries: each character's value less that of
/// `0`, and that of `/` comes to 255.
pub fn table_of(entries: &str) -> Vec<u8> {
    let entry = |byte: u8| byte.wrapping_sub(b'0');
    entries.bytes().map(entry).collect()
}

/// The entries of a table as a word; none if no text says them.
pub fn entries_of(table: &[u8]) -> Option<String> {
    let letter = |byte: &u8| byte.wrapping_add(b'0');
    let letters: Vec<u8> = table.iter().map(letter).collect();
    let word = String::from_utf8(letters).ok()?;
    (!word.contains('\0')).then_some(word)
}

/// The lines of an answer, a refusal among them.
pub fn answer(job: &[u8], wanted: Wanted, room: usize) -> String {
    lines(job, wanted, room).unwrap_or_else(|refusal| format!("{refusal}\n"))
}

fn lines(job: &[u8], wanted: Wanted, room: usize) -> Result<String, Refusal> {
    match wanted {
        Wanted::Loop(number) => {
            let fields = records::fields_of(second::request(job, number)?);
            Ok(text::field_lines(&[fields]))
        }
        Wanted::Stage(stage, supplied) => {
            let trail = second::sewn(&supplied, job)?;
            let records = second::stage_output(&trail, stage, room)?;
            Ok(text::field_lines(&records))
        }
        Wanted::Sew(supplied) => {
            let trail = second::sewn(&supplied, job)?;
            Ok(text::listing(&second::sew_output(&trail, room)?))
        }
    }
}
