//! "Numbers of refusal, in order of check". Success is 0.

#[derive(Clone, Copy, Debug, PartialEq, Eq)]
pub enum Refusal {
    /// image over 65,536 bytes or descriptors not good, which have 16 entries
    /// at most (document 02, T-06); area report: the list has no such entry
    /// (T-08)
    Descriptors = 1,
    /// two file areas have one id
    SharedAreaId = 2,
    /// no file area, or not exactly one scratch area
    Areas = 3,
    /// scratch shorter than a file area
    ShortScratch = 4,
    /// more than 256 inode ids or 1,024 block ids in accepted records (document
    /// 02, T-06)
    Tables = 5,
    /// two records of one id, same sequence, different bytes
    Clash = 6,
    /// no record of id 0
    NoRoot = 7,
    /// bad path or name; over 8,192 bytes to append or to overwrite (document 02,
    /// T-05); creating or unlinking the root; rename: "A new path "/" is 8" (T-01)
    BadRequest = 8,
    /// no such child, or a handle's id isn't live
    Absent = 9,
    /// two or more live children of that name
    Ambiguous = 10,
    /// a file where a directory is needed, or the reverse
    WrongKind = 11,
    /// create: the name is there (once or oftener); rename: "the new name being
    /// there is 12" (T-01)
    NameTaken = 12,
    /// read, append or overwrite (T-05) of a broken file
    Broken = 13,
    /// read begins after the end; overwrite: "an offset or an end past the size is
    /// 14" (T-05)
    AfterEnd = 14,
    /// a record fits in no clean file area
    NoRoom = 15,
    /// unlink, rename (T-01): sequence is ffffffff; overwrite (T-05): that of a
    /// block that holds a byte of the range
    LastSequence = 16,
    /// collect: no file area is as long as the scratch area
    NoSource = 17,
    /// rename: "Moving a directory below itself, or the root, gets a new number,
    /// 18, checked after 12" (T-01)
    BelowItself = 18,
}

impl Refusal {
    pub fn number(self) -> u32 {
        self as u32
    }
}

/// The number of a call that answers nothing else.
pub fn number(result: Result<(), Refusal>) -> u32 {
    result.map_or_else(Refusal::number, |()| 0)
}
