//! Why an input is turned away, and where.
use crate::raw;
use core::fmt;

/// Declares `Reason` from one table: the variant, document 01's number, the words of `Display`.
macro_rules! reasons {
    ($($name:ident = $number:literal, $words:literal;)*) => {
        /// Why an input is turned away: a number of document 01, by name.
        ///
        /// ```
        /// use nikorepum::Reason;
        ///
        /// assert_eq!(Reason::NoTarget.number(), 13);
        /// assert_eq!(Reason::from_number(13), Reason::NoTarget);
        /// assert_eq!(Reason::NoTarget.to_string(), "no instruction starts at a jump's target");
        /// ```
        #[derive(Clone, Copy, Debug, PartialEq, Eq, Hash)]
        #[non_exhaustive]
        pub enum Reason {
            $(#[doc = concat!("Number ", $number, ": ", $words, ".")] $name,)*
            /// A number that is none of the above. The library that this crate is written for gives none; one of a
            /// later library would still be a refusal, and is told by its number.
            Other(u32),
        }

        impl Reason {
            /// The reason with this number.
            pub const fn from_number(number: u32) -> Reason {
                match number {
                    $($number => Reason::$name,)*
                    _ => Reason::Other(number),
                }
            }

            /// Document 01's number.
            pub const fn number(self) -> u32 {
                match self {
                    $(Reason::$name => $number,)*
                    Reason::Other(number) => number,
                }
            }
        }

        impl fmt::Display for Reason {
            fn fmt(&self, f: &mut fmt::Formatter<'_>) -> fmt::Result {
                match self {
                    $(Reason::$name => f.write_str($words),)*
                    Reason::Other(number) => write!(f, "refused with the number {number}"),
                }
            }
        }
    };
}

reasons! {
    CodeTooLong = 1, "the code has more than 65,535 bytes";
    PoolTooLong = 2, "the pool table has more than 4,096 bytes";
    PastEnd = 3, "a read runs past the end of the code";
    NoInstruction = 4, "the byte is no instruction";
    NotAfterWide = 5, "the byte after wide is none that wide goes before";
    NoPoolEntry = 6, "a pool index is 0 or not in the table";
    WrongKind = 7, "the pool entry is not of a kind that the instruction takes";
    NotZero = 8, "the last bytes of invokeinterface or invokedynamic are not zero";
    NoArrayTag = 9, "the tag of newarray is not 4 to 11";
    BadBounds = 10, "a tableswitch has low above high, or more than 2,147,483,647 entries";
    NegativeCount = 11, "a lookupswitch has a negative number of pairs";
    TargetBelowZero = 12, "a jump's target lies below 0";
    NoTarget = 13, "no instruction starts at a jump's target";
    NoEntryLeft = 14, "the store has too few entries left for a switch";
    NoRecordLeft = 15, "the store has no record left";
    TextTooLong = 21, "the text, given or to be written, has more than 65,535 bytes";
    TypeDue = 22, "the text ends where a type is due";
    NoSuchType = 23, "no type has this letter here";
    Dimension256 = 24, "an array has more than 255 dimensions";
    EmptySegment = 25, "a segment of a class name is empty";
    BarredByte = 26, "a class name has one of . [ < >";
    NameNotEnded = 27, "the text ends before the ; of a class name";
    LoneSemicolon = 28, "a class name alone has a ;";
    NoParenthesis = 29, "a method descriptor does not start with (";
    NoParameterLeft = 30, "the store has no part left for a parameter";
    LeftOver = 31, "bytes are left after the descriptor";
    NameNotValid = 32, "the method's name is not valid";
    OutputTooShort = 33, "the output is too short";
    BrokenParts = 34, "no descriptor has these parts";
    NotSorted = 35, "records are missing, or their offsets do not strictly increase";
}

/// An input turned away: why, and where.
///
/// ```
/// use nikorepum::{decode, Reason};
///
/// let refusal = decode(&[0xa7, 0x00, 0x03], &[], &mut [0; 18], &mut []).unwrap_err();
/// assert_eq!((refusal.reason, refusal.place), (Reason::NoTarget, 0));
/// assert_eq!(refusal.to_string(), "no instruction starts at a jump's target (refusal 13 at 0)");
/// ```
#[derive(Clone, Copy, Debug, PartialEq, Eq, Hash)]
pub struct Refusal {
    /// Why.
    pub reason: Reason,
    /// The offset of the first byte of what is refused; it may lie past the end of the input.
    pub place: usize,
    /// Which jump, for [`Reason::TargetBelowZero`] and [`Reason::NoTarget`]: 0 for a plain jump or a switch's default,
    /// i + 1 for entry i of a switch. Else 0.
    pub second: u32,
}

impl Refusal {
    fn new(number: u32, place: u64, second: u32) -> Refusal {
        // A place is an offset in what was given, or just past it, so it is a `usize`.
        Refusal { reason: Reason::from_number(number), place: place as usize, second }
    }
}

impl fmt::Display for Refusal {
    fn fmt(&self, f: &mut fmt::Formatter<'_>) -> fmt::Result {
        write!(f, "{} (refusal {} at {}", self.reason, self.reason.number(), self.place)?;
        match self.second.checked_sub(1) {
            Some(entry) => write!(f, ", entry {entry} of its switch)"),
            None => f.write_str(")"),
        }
    }
}

impl core::error::Error for Refusal {}

/// An answer that is an acceptance, or the refusal that it is.
pub(crate) fn accepted(answer: raw::Answer) -> Result<raw::Answer, Refusal> {
    match answer.number {
        0 => Ok(answer),
        number => Err(Refusal::new(number, answer.place, answer.second)),
    }
}

/// Parts that are accepted, or the refusal that they are.
pub(crate) fn accepted_parts(parts: raw::Parts) -> Result<raw::Parts, Refusal> {
    match parts.number {
        0 => Ok(parts),
        number => Err(Refusal::new(number, parts.place, 0)),
    }
}

/// The length of what was written, or the refusal.
pub(crate) fn written(answer: raw::Answer) -> Result<usize, Refusal> {
    accepted(answer).map(|answer| answer.first as usize)
}
