//! What is live in a volume, as the calls confirm it.

use crate::image_file::MOST;
use crate::records::{candidates, Candidate};
use nffs::{Area, Kind, Refusal};
use std::collections::BTreeSet;

pub enum What {
    Directory,
    /// Its contents.
    File(Vec<u8>),
    Broken,
}

pub struct Entry {
    pub path: Vec<u8>,
    pub id: u32,
    pub what: What,
}

/// The live inodes below a directory, each directory before what lies in it.
#[derive(Default)]
pub struct Tree {
    pub entries: Vec<Entry>,
    /// Paths that lead to two or more live inodes, and so to none.
    pub ambiguous: BTreeSet<Vec<u8>>,
    /// Paths that no call takes, of live inodes that no other path was found for, an ambiguous one
    /// neither.
    pub too_long: BTreeSet<Vec<u8>>,
    /// The ids that names at ambiguous paths are proposed for.
    shared: BTreeSet<u32>,
}

/// A path, and the id that it leads to or would lead to.
type Place = (Vec<u8>, u32);

/// The most bytes of a path, and of a base.
const PATH_MOST: usize = 1024;

/// What lies at a path and below it. Names are proposed by `records`; an entry is one whose path
/// leads to its id by a lookup, and whose kind and contents a read of that id answers.
pub fn tree(image: &[u8], areas: &[Area], path: &[u8]) -> Result<Tree, Refusal> {
    let proposed = candidates(image, areas);
    let (mut tree, deep) = walk(image, areas, &proposed, path)?;
    if deep.is_empty() {
        return Ok(tree);
    }
    // an old name may stand there of what has another path by now, anywhere in the volume
    let elsewhere = if path == b"/" {
        tree.ids(&proposed)
    } else {
        walk(image, areas, &proposed, b"/")?.0.ids(&proposed)
    };
    for (path, id) in deep {
        if !elsewhere.contains(&id) && what_is(image, areas, id)?.is_some() {
            tree.too_long.insert(path);
        }
    }
    Ok(tree)
}

/// The same, but the paths that no call takes stand beside it: all that names are proposed for.
fn walk(
    image: &[u8],
    areas: &[Area],
    proposed: &BTreeSet<Candidate>,
    path: &[u8],
) -> Result<(Tree, Vec<Place>), Refusal> {
    let found = nffs::lookup(image, areas, b"", path)?;
    let mut tree = Tree::default();
    let mut deep = Vec::new();
    // what is still to be looked at, the next one last
    let mut open = vec![(path.to_vec(), found.id)];
    while let Some((path, id)) = open.pop() {
        let Some(what) = what_is(image, areas, id)? else { continue };
        if matches!(what, What::Directory) {
            let children = proposed.iter().filter(|c| c.parent == id);
            let mut live = tree.children(image, areas, &path, children.clone())?;
            live.reverse();
            open.extend(live);
            let paths = children.map(|c| (below(&path, &c.name), c.id));
            deep.extend(paths.filter(|(path, _)| based(path).is_none()));
        }
        tree.entries.push(Entry { path, id, what });
    }
    Ok((tree, deep))
}

/// A path as base and path for a call: the path alone, or the longest base that one can have and the
/// rest; none where the rest is longer than a path may be.
fn based(path: &[u8]) -> Option<(&[u8], &[u8])> {
    if path.len() <= PATH_MOST {
        return Some((b"", path));
    }
    let slash = path[..=PATH_MOST].iter().rposition(|b| *b == b'/')?;
    let (base, rest) = (&path[..slash], &path[slash + 1..]);
    (rest.len() <= PATH_MOST).then_some((base, rest))
}

impl Tree {
    /// The ids of the entries, and of all that may stand at an ambiguous path or below it.
    fn ids(&self, proposed: &BTreeSet<Candidate>) -> BTreeSet<u32> {
        let mut ids = self.shared.clone();
        loop {
            let is_new = |c: &&Candidate| ids.contains(&c.parent) && !ids.contains(&c.id);
            let more: Vec<u32> = proposed.iter().filter(is_new).map(|c| c.id).collect();
            if more.is_empty() {
                break;
            }
            ids.extend(more);
        }
        ids.extend(self.entries.iter().map(|e| e.id));
        ids
    }

    /// The children of a directory that a lookup confirms, by path and id.
    fn children<'a>(
        &mut self,
        image: &[u8],
        areas: &[Area],
        directory: &[u8],
        proposed: impl Iterator<Item = &'a Candidate>,
    ) -> Result<Vec<Place>, Refusal> {
        let mut confirmed = Vec::new();
        for candidate in proposed {
            let path = below(directory, &candidate.name);
            let Some((base, rest)) = based(&path) else { continue };
            match nffs::lookup(image, areas, base, rest) {
                Ok(found) if found.id == candidate.id => confirmed.push((path, found.id)),
                Err(Refusal::AMBIGUOUS) => {
                    self.ambiguous.insert(path);
                    self.shared.insert(candidate.id);
                }
                // an old or damaged name
                Ok(_) | Err(Refusal::NOT_FOUND | Refusal::BAD_PATH) => {}
                Err(refusal) => return Err(refusal),
            }
        }
        Ok(confirmed)
    }
}

/// What a live id is, by a read of it; none where it is not live.
fn what_is(image: &[u8], areas: &[Area], id: u32) -> Result<Option<What>, Refusal> {
    match contents(image, areas, id, 0, MOST) {
        Ok(bytes) => Ok(Some(What::File(bytes))),
        Err(Refusal::WRONG_KIND) => Ok(Some(What::Directory)),
        Err(Refusal::BROKEN) => Ok(Some(What::Broken)),
        Err(Refusal::NOT_FOUND) => Ok(None),
        Err(refusal) => Err(refusal),
    }
}

/// Bytes of a file from a position on. A buffer for what an image can hold gets all there is.
pub fn contents(
    image: &[u8],
    areas: &[Area],
    id: u32,
    from: u32,
    length: usize,
) -> Result<Vec<u8>, Refusal> {
    let mut contents = vec![0; length.min(MOST)];
    let given = nffs::read_at(image, areas, id, from, &mut contents)?;
    contents.truncate(given.bytes);
    Ok(contents)
}

/// A name below a directory.
pub fn below(directory: &[u8], name: &[u8]) -> Vec<u8> {
    let parent = if directory == b"/" { b"" } else { directory };
    [parent, b"/", name].concat()
}

/// The directory and the name of a path that begins with a slash and is not the root's.
pub fn parted(path: &[u8]) -> (&[u8], &[u8]) {
    let slash = path.iter().rposition(|b| *b == b'/').unwrap_or(0);
    let (directory, name) = path.split_at(slash);
    (if directory.is_empty() { b"/" } else { directory }, name.get(1..).unwrap_or_default())
}

/// A path and those above it, from above; without the root, which is always there.
pub fn prefixes(path: &[u8]) -> impl Iterator<Item = &[u8]> {
    let ends = (1..path.len()).filter(|k| path[*k] == b'/').chain([path.len()]);
    ends.map(|end| &path[..end])
}

/// Whether a directory is there; a file in its place is refused.
pub fn is_directory(image: &[u8], areas: &[Area], path: &[u8]) -> Result<bool, Refusal> {
    match nffs::lookup(image, areas, b"", path) {
        Ok(found) if found.kind == Kind::Directory => Ok(true),
        Ok(_) => Err(Refusal::WRONG_KIND),
        Err(Refusal::NOT_FOUND) => Ok(false),
        Err(refusal) => Err(refusal),
    }
}
