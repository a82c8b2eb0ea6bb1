//! "Paths."

use crate::refusal::Refusal;

/// "1 to 1,024 bytes", for path and base each.
pub const PATH: usize = 1024;
/// "names of 1 to 255 bytes".
pub const NAME: usize = 255;

/// The names to walk from the root, or 8. "A path without a leading slash is
/// taken below a base path lent beside it, which must then be a good absolute
/// path; else the base isn't looked at."
pub fn names(base: &[u8], path: &[u8]) -> Result<Vec<Vec<u8>>, Refusal> {
    if is_absolute(path) {
        return absolute(path);
    }
    let below = relative(path)?;
    let mut names = absolute(base)?;
    names.extend(below);
    Ok(names)
}

fn is_absolute(path: &[u8]) -> bool {
    path.first() == Some(&b'/')
}

/// The names of a good absolute path. "\"/\" is the root."
fn absolute(path: &[u8]) -> Result<Vec<Vec<u8>>, Refusal> {
    if path == b"/" {
        return Ok(Vec::new());
    }
    if !is_absolute(path) || path.len() > PATH {
        return Err(Refusal::BadRequest);
    }
    parted(&path[1..])
}

/// The names of a path without a leading slash; "" is bad.
fn relative(path: &[u8]) -> Result<Vec<Vec<u8>>, Refusal> {
    if path.len() > PATH {
        return Err(Refusal::BadRequest);
    }
    parted(path)
}

/// "names of 1 to 255 bytes, parted by single slashes, none at the end, no
/// NUL." A doubled slash, or one at the end, leaves a name of 0 bytes.
fn parted(text: &[u8]) -> Result<Vec<Vec<u8>>, Refusal> {
    let names: Vec<Vec<u8>> = text.split(|byte| *byte == b'/').map(<[u8]>::to_vec).collect();
    let good = |name: &Vec<u8>| (1..=NAME).contains(&name.len()) && !name.contains(&0);
    if names.iter().all(good) {
        Ok(names)
    } else {
        Err(Refusal::BadRequest)
    }
}
