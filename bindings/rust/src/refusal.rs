//! Why a call was refused.

use core::fmt;
use core::num::NonZeroU32;

/// Why a call was refused: a number, with a name and a meaning. The first check that fails is
/// answered; each call says which it makes, and in which order, which is not always that of the
/// numbers.
///
/// ```
/// use nffs::Refusal;
///
/// let refused = nffs::report(&[], &[]).unwrap_err();
/// assert_eq!(refused, Refusal::BAD_AREAS);
/// assert_eq!(refused.to_string(), "1, image over 65,536 bytes, or areas not good (report of an area: or no such entry)");
/// ```
#[derive(Clone, Copy, Debug, PartialEq, Eq, PartialOrd, Ord, Hash)]
pub struct Refusal(NonZeroU32);

/// One line a number: name, number, meaning. The constants and `meaning` both come of it.
macro_rules! refusals {
    ($($name:ident $number:literal $meaning:literal;)*) => {
        impl Refusal {
            $(
                #[doc = concat!($meaning, ".")]
                pub const $name: Refusal = Refusal(match NonZeroU32::new($number) {
                    Some(number) => number,
                    None => panic!("0 is no refusal"),
                });
            )*

            /// The refusal in words.
            pub const fn meaning(self) -> &'static str {
                match self.0.get() {
                    $($number => $meaning,)*
                    _ => "a number that this version does not know",
                }
            }
        }
    };
}

refusals! {
    BAD_AREAS 1 "image over 65,536 bytes, or areas not good (report of an area: or no such entry)";
    SAME_AREA_ID 2 "two file areas have one id";
    NO_FILE_OR_SCRATCH 3 "no file area, or not exactly one scratch area";
    SHORT_SCRATCH 4 "scratch shorter than a file area";
    TOO_MANY_IDS 5 "more than 256 inode ids or 1,024 block ids";
    CONFLICT 6 "two records of one id, same sequence, different bytes";
    NO_ROOT 7 "no record of the root";
    BAD_PATH 8 "bad path or name, too much to append or overwrite, or creating or unlinking the root, or renaming to it";
    NOT_FOUND 9 "no such child, or a handle's id is not live";
    AMBIGUOUS 10 "two or more live children of that name";
    WRONG_KIND 11 "a file where a directory is needed, or the reverse";
    EXISTS 12 "the name is there already";
    BROKEN 13 "the file is broken";
    PAST_END 14 "read begins after the end, or overwrite begins or ends after it";
    NO_ROOM 15 "a record fits in no clean file area";
    LAST_SEQUENCE 16 "the sequence is at its greatest";
    NO_SOURCE 17 "no file area is as long as the scratch area";
    INTO_ITSELF 18 "renaming the root, or moving a directory below itself";
}

impl Refusal {
    /// The refusal of a number; none for 0, which is success.
    pub const fn of(number: u32) -> Option<Refusal> {
        match NonZeroU32::new(number) {
            Some(number) => Some(Refusal(number)),
            None => None,
        }
    }

    /// Its number.
    pub const fn number(self) -> u32 {
        self.0.get()
    }

    /// An answer's number as a result.
    pub(crate) fn check(number: u32) -> Result<(), Refusal> {
        match Refusal::of(number) {
            None => Ok(()),
            Some(refusal) => Err(refusal),
        }
    }
}

impl fmt::Display for Refusal {
    fn fmt(&self, f: &mut fmt::Formatter<'_>) -> fmt::Result {
        write!(f, "{}, {}", self.number(), self.meaning())
    }
}

impl core::error::Error for Refusal {}
