//! The numbers with which a call is refused, and what each means.

use std::error::Error;
use std::fmt;

/// Why a call was refused: one number, whose text says in a line what it means.
///
/// ```
/// use softlode::{Refusal, Rota};
///
/// let refusal = Rota::read(b"not a rota").unwrap_err();
/// assert_eq!(refusal, Refusal::ROTA_SHORT);
/// assert_eq!(refusal.number(), 1);
/// assert_eq!(refusal.to_string(), "refused 1: the rota is shorter than its header");
/// // As an `unwrap` has it:
/// assert_eq!(format!("{refusal:?}"), "Refusal(1: the rota is shorter than its header)");
/// ```
#[derive(Clone, Copy, PartialEq, Eq, PartialOrd, Ord, Hash)]
pub struct Refusal(u32);

impl Refusal {
    /// The number.
    pub fn number(self) -> u32 {
        self.0
    }

    /// The refusal of a number that a call told: none for 0.
    pub(crate) fn judge(number: u32) -> Result<(), Refusal> {
        if number == 0 { Ok(()) } else { Err(Refusal(number)) }
    }
}

impl fmt::Display for Refusal {
    fn fmt(&self, f: &mut fmt::Formatter<'_>) -> fmt::Result {
        write!(f, "refused {}: {}", self.0, self.meaning())
    }
}

impl fmt::Debug for Refusal {
    fn fmt(&self, f: &mut fmt::Formatter<'_>) -> fmt::Result {
        write!(f, "Refusal({}: {})", self.0, self.meaning())
    }
}

impl Error for Refusal {}

/// A constant for each number, with its meaning as documentation, and the list of them all.
macro_rules! refusals {
    ($($name:ident = $number:literal: $meaning:literal;)*) => {
        impl Refusal {
            $(
                #[doc = concat!(stringify!($number), ": ", $meaning, ".")]
                pub const $name: Refusal = Refusal($number);
            )*

            /// Every refusal, by its number.
            pub const ALL: &[Refusal] = &[$(Refusal::$name),*];

            /// What the number means, in a line.
            pub fn meaning(self) -> &'static str {
                match self {
                    $(Refusal::$name => $meaning,)*
                    _ => "a number that this version does not know",
                }
            }
        }
    };
}

refusals! {
    ROTA_SHORT = 1: "the rota is shorter than its header";
    ROTA_FORMAT = 2: "this is not a rota of format 1 or 3";
    ROTA_CYCLE = 3: "the rota's cycle is not 1 to 40320 minutes";
    ROTA_COUNTS = 4: "a count of the rota is over its limit";
    HOURS_CUT = 5: "an hours record is cut off";
    HOURS_SPAN = 6: "an hours record does not begin before it ends, or ends past 2400";
    HOURS_PAIRS = 7: "an hours record has no pair, or there are more than 256 in all";
    HOURS_PAIR = 8: "a pair is empty, goes past the cycle, or does not start later than the end of the pair before it";
    ROTA_LENGTH = 9: "the rota is longer or shorter than its counts say";
    ROLE_HOURS = 10: "a role names hours that are not there";
    VOLUNTEER_ROW = 11: "a volunteer row names a volunteer, role or hours that are not there";
    RIGHT_ROW = 12: "a right row names a right, role or hours that are not there";
    AREA_TOO_SMALL = 20: "the area is too small for the table or the tidy rota";
    TABLE_SHORT = 21: "the table is shorter than its header";
    TABLE_FORMAT = 22: "this is not a table of format 2";
    TABLE_CYCLE = 23: "the table's cycle is not 1 to 40320 minutes";
    TABLE_COUNTS = 24: "a count of the table is over its limit";
    TABLE_LENGTH = 25: "the table is longer or shorter than its counts say";
    TABLE_ENTRY = 26: "a derived role has a source out of range or order, or a set that is empty or out of range";
    TABLE_ROW = 27: "a row of the table has a derived role, begin, end, offset or length out of range";
    TABLE_ORDER = 28: "a row of the table does not follow the row before it";
    NO_SUCH_MINUTE = 33: "the minute is past 2400";
    NO_SUCH_VOLUNTEER = 34: "there is no such volunteer";
    NO_SUCH_RIGHT = 35: "there is no such right";
    RECORD_UNFIT = 40: "the service record does not fit: its minute is past 2400, or someone open is no such volunteer";
    BEFORE_NOW = 41: "the minute is before now";
    ALREADY_OPEN = 42: "the volunteer's session is open already";
    NO_RIGHT_NOW = 43: "the volunteer holds no right now";
    NOT_OPEN = 44: "the volunteer's session is not open";
    NO_SUCH_DATE = 50: "the date or time does not exist or is not in 2001 to 2400";
    PAGE_TOO_LONG = 51: "a page has more than 256 questions";
    ROTA_ORDER = 52: "a row of a format 3 rota is not above the row before it";
}
