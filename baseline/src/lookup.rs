//! Walking a path.

use crate::layout::{is_file, LAST_DIRECTORY, ROOT};
use crate::mount::{try_mount, Volume};
use crate::path::Names;
use crate::record::{above_at, name_at};
use crate::refusal::Refusal;

/// The children of that name, of a directory that is live, as those are to which
/// a path leads from the root: so the children are, too. Their entries.
pub fn children<'a>(
    image: &'a [u8],
    volume: &'a Volume,
    directory: u32,
    name: &'a [u8],
) -> impl Iterator<Item = usize> + 'a {
    let is_child = move |place: &u32| {
        let place = *place as usize;
        above_at(image, place) == directory && name_at(image, place) == name
    };
    let places = volume.inodes.places().iter().enumerate();
    places.filter(move |(_, place)| is_child(place)).map(|(entry, _)| entry)
}

fn step(image: &[u8], volume: &Volume, at: u32, name: &[u8]) -> Result<u32, Refusal> {
    if at > LAST_DIRECTORY {
        return Err(Refusal::WrongKind);
    }
    let mut children = children(image, volume, at, name);
    let child = children.next().ok_or(Refusal::Absent)?;
    match children.next() {
        None => Ok(volume.inodes.ids()[child]),
        Some(_) => Err(Refusal::Ambiguous),
    }
}

pub fn walk(image: &[u8], volume: &Volume, names: &Names) -> Result<u32, Refusal> {
    names.iter().try_fold(ROOT, |at, name| step(image, volume, at, name))
}

/// Mounts and walks.
pub fn find(
    image: &[u8],
    areas: &[u32],
    base: &[u8],
    path: &[u8],
    volume: &mut Volume,
) -> Result<u32, Refusal> {
    try_mount(image, areas, volume)?;
    walk(image, volume, &Names::of(base, path)?)
}

/// `kind` is 0 for a directory and 1 for a file.
#[derive(Clone, Copy, Debug, Default, PartialEq, Eq)]
pub struct Lookup {
    pub number: u32,
    pub id: u32,
    pub kind: u32,
}

pub fn lookup(
    image: &[u8],
    areas: &[u32],
    base: &[u8],
    path: &[u8],
    volume: &mut Volume,
) -> Lookup {
    match find(image, areas, base, path, volume) {
        Ok(id) => Lookup { number: 0, id, kind: u32::from(is_file(id)) },
        Err(refusal) => Lookup { number: refusal.number(), ..Lookup::default() },
    }
}
