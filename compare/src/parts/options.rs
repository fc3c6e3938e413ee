//! Arguments of `parts`; names of files need not be text.

use crate::cli::Failed;
use std::ffi::OsString;
use std::path::PathBuf;

#[derive(Default)]
pub struct Options {
    pub paths: Vec<PathBuf>,
    pub csv: Option<PathBuf>,
    pub html: Option<PathBuf>,
}

impl Options {
    pub fn parse(words: &[OsString]) -> Result<Self, Failed> {
        let mut options = Self::default();
        let mut words = words.iter();
        while let Some(word) = words.next() {
            let place = match word.to_str() {
                Some("--csv") => &mut options.csv,
                Some("--html") => &mut options.html,
                _ if word.as_encoded_bytes().starts_with(b"--") => {
                    return Err(format!("no option {} here", word.display()));
                }
                _ => {
                    options.paths.push(word.into());
                    continue;
                }
            };
            let file = words.next();
            *place = Some(
                file.ok_or(format!("{} needs a file", word.display()))?
                    .into(),
            );
        }
        if options.paths.is_empty() {
            return Err("name a folder of parts".to_string());
        }
        Ok(options)
    }
}
