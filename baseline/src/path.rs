//! Paths.

use crate::refusal::Refusal;

const PATH: usize = 1024;
const NAME: usize = 255;

/// The names to walk from the root: those of the base, then those of the path.
/// Each text has no slash at its ends; one without names is empty.
#[derive(Clone, Copy, Debug)]
pub struct Names<'a> {
    base: &'a [u8],
    path: &'a [u8],
}

impl<'a> Names<'a> {
    pub fn of(base: &'a [u8], path: &'a [u8]) -> Result<Names<'a>, Refusal> {
        if path.first() == Some(&b'/') {
            return Ok(Names { base: &[], path: absolute(path)? });
        }
        Ok(Names { base: absolute(base)?, path: good(path)? })
    }

    pub fn iter(&self) -> impl Iterator<Item = &'a [u8]> {
        names(self.base).chain(names(self.path))
    }

    /// The last name and those before it; none of the root.
    pub fn split_last(&self) -> Option<(&'a [u8], Names<'a>)> {
        if self.path.is_empty() {
            return None;
        }
        let slash = self.path.iter().rposition(|byte| *byte == b'/');
        let (path, name) = match slash {
            Some(at) => (&self.path[..at], &self.path[at + 1..]),
            None => (&[][..], self.path),
        };
        Some((name, Names { path, ..*self }))
    }
}

fn names(text: &[u8]) -> impl Iterator<Item = &[u8]> {
    text.split(|byte| *byte == b'/').filter(|name| !name.is_empty())
}

fn absolute(path: &[u8]) -> Result<&[u8], Refusal> {
    match path {
        [b'/'] => Ok(&[]),
        [b'/', rest @ ..] if path.len() <= PATH => good(rest),
        _ => Err(Refusal::BadRequest),
    }
}

/// Names of 1 to 255 bytes between single slashes, no NUL.
fn good(text: &[u8]) -> Result<&[u8], Refusal> {
    let is_good = |name: &[u8]| (1..=NAME).contains(&name.len()) && !name.contains(&0);
    if text.len() > PATH || !text.split(|byte| *byte == b'/').all(is_good) {
        return Err(Refusal::BadRequest);
    }
    Ok(text)
}
