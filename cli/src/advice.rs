//! What to do about each refusal: the one table of it.

use nffs::Refusal;

/// Number; what to do, in the words of docs/LINKING.md (a test holds them together); what this
/// program offers for it.
#[rustfmt::skip]
const TABLE: [(u32, &str, &str); 18] = [
    (1, "Give the areas that the volume was formatted with: 1 to 16, of 128 to 65,536 bytes, inside the image, none overlapping. The image has at most 65,536 bytes. Of the report of an area: ask for an index below their number.",
        "`nffs areas IMAGE` prints the areas whose valid headers it sees; --at names the place of a volume in a longer file."),
    (2, "Give the areas that the volume was formatted with. If they are these, the header of an area is damaged, by a single bit perhaps, or power was lost during a collection, for which there is no recovery call yet. Nothing can be read or written. Keep the image: the files may all be whole.",
        "`nffs check IMAGE` shows the header of each area."),
    (3, "Give the areas that the volume was formatted with. If they are these, the header of an area is damaged, by a single bit perhaps, or another writer left its reserved byte other than 0, which versions before 0.4.0 did not mind, or power was lost during a format or a collection, for which there is no recovery call yet. Nothing can be read or written. Keep the image: the files may all be whole. Format only what never was a volume.",
        "`nffs check IMAGE` shows the header of each area."),
    (4, "Give the areas that the volume was formatted with. If they are these, the header of an area is damaged. Nothing can be read or written. Keep the image: the files may all be whole.",
        "`nffs check IMAGE` shows the header of each area."),
    (5, "Ask for a report. While it answers 0, ids are used up: collecting gives back those of deleted files, an inode's mostly one collection later than those of its blocks, which still name it. Where it answers 5 too, the image holds more ids than the tables, every call but format and the report of an area answers 5, and nothing can be read, written or collected.",
        "--collect collects until it fits."),
    (6, "Two records have the same id and version and different bytes, so that neither can be trusted: nothing can be read or written. Mostly one was lost for a while (it or the header of its area was damaged, or its area not in the list), the other was written meanwhile, and now both are read. Keep the image.",
        ""),
    (7, "No record of the root is read: it or the header of its area is damaged, by a single bit perhaps, or another writer left a reserved byte in one of them other than 0, which versions before 0.4.0 did not mind, or power was lost during a format, or these are not all areas of the volume. Nothing can be read or written. Give all areas, and keep the image: the files may all be whole.",
        "`nffs areas IMAGE` prints the areas whose valid headers it sees."),
    (8, "Mend the path: \"/\", or names of 1 to 255 bytes behind single slashes, 1,024 bytes in all, and as many in the base. What a rename moved too deep for that is reached again when a directory above it is renamed to a shorter path. At most 8,192 bytes are appended or overwritten at a time. The root is neither created nor unlinked, and nothing is renamed to it.",
        ""),
    (9, "Nothing is there: look at the path, name by name, or create it. Of a handle: the file was unlinked, open it again. Where something should be there, ask for a report: its record, or one above it, may be damaged; what was renamed may have an earlier name again.",
        "`nffs check IMAGE` lists what is live."),
    (10, "Two live children have this name, so that it leads to neither: damage can bring a deleted or an earlier name back. Unlinking the directory above takes both away, and renaming it leaves its name for a new one; the root can be neither unlinked nor renamed.",
        ""),
    (11, "A file stands where a directory is needed, or the reverse: look at the path, and at the kind of what it leads to. Where that is a surprise, ask for a report: damage can bring a deleted or an earlier name back.",
        "`nffs lookup IMAGE PATH` prints the kind."),
    (12, "Take another name, or unlink what has this one first, if it is not needed. A rename takes the new path in full, the name included, and replaces nothing. Where nothing should be there, ask for a report: damage can bring a deleted or an earlier name back.",
        "--replace, of put and import, replaces a file."),
    (13, "Blocks of this file are lost. Other files can be read. Unlink it and store it anew.",
        "`nffs put IMAGE PATH FILE --replace` does both."),
    (14, "Begin the read inside the file, or just at its end. An overwrite begins and ends there: it makes no file longer, an append does. Where the file was longer, ask for a report: its last blocks may be lost.",
        "`nffs check IMAGE` prints sizes; `nffs append` makes a file longer."),
    (15, "No room in a clean file area; an overwrite needs it for a copy of each block that it touches. Ask for a report first: a stretch may mean that an older version counts, and a collection of its area removes the stretch. Then collect and call again; each call collects one area.",
        "--collect collects until it fits; `nffs rm` gives a collection something to free."),
    (16, "The inode can be neither deleted nor renamed: its sequence number is at its greatest. Unlink or rename the directory above it, or format the volume. Of an overwrite it is a block of the range that cannot be written anew: store the contents in a new file.",
        ""),
    (17, "No area can be collected into scratch: all file areas are shorter. Copy the files out, and format with areas of one length.",
        "`nffs export IMAGE FOLDER` copies all files out."),
    (18, "The root cannot be renamed, whatever the new path is. A directory cannot be moved below itself: take a new path elsewhere. What lies in either can be moved, one by one.",
        ""),
];

/// What to do where `mv` is refused with 12: not to unlink what is there, which may be the thing
/// itself, or the directory that it was meant to go to.
pub const NEW_PATH_TAKEN: &str =
    "The new path is given in full, the name included, and nothing is replaced: take one that is \
     free. Where nothing should be there, `nffs check IMAGE` tells of damage, which can bring a \
     deleted or an earlier name back.";

/// What to do, and what this program offers for it; nothing for a number that it does not know.
pub fn of(refusal: Refusal) -> Option<(&'static str, &'static str)> {
    TABLE.iter().find(|row| row.0 == refusal.number()).map(|row| (row.1, row.2))
}

/// The same as lines below a message.
pub fn lines(refusal: Refusal) -> String {
    let Some((words, here)) = of(refusal) else { return String::new() };
    let mut lines = format!("\n  {words}");
    if !here.is_empty() {
        lines = format!("{lines}\n  {here}");
    }
    lines
}

#[cfg(test)]
mod tests {
    use super::TABLE;
    use nffs::Refusal;

    #[test]
    fn each_number_is_there_once_and_in_the_words_of_the_document() {
        let document = include_str!("../../docs/LINKING.md");
        for (k, (number, words, _)) in TABLE.iter().enumerate() {
            assert_eq!(*number, k as u32 + 1);
            assert!(document.contains(&format!("\n| {number} | {words} |\n")), "{number}: {words}");
        }
        let next = Refusal::of(TABLE.len() as u32 + 1).unwrap();
        assert!(next.meaning().contains("does not know"), "no advice for {next}");
    }
}
