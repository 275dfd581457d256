//! Texts of some sort, written to files of their own.

use crate::prng::Prng;
use std::{fs, io};

/// Writes numbered texts to files named by a path and their numbers: at most so many (2 or more),
/// the first and the last among them.
pub fn write_texts(
    prng: &mut Prng,
    most: usize,
    path: &str,
    mut texts: Vec<(usize, Vec<u8>)>,
) -> io::Result<()> {
    while texts.len() > most {
        texts.remove(1 + prng.below(texts.len() - 2));
    }
    texts.iter().try_for_each(|(number, text)| fs::write(format!("{path}-{number:04}"), text))
}
