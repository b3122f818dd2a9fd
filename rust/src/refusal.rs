//! Why a call is turned away.
use crate::MOST_LEN;
use core::error::Error;
use core::fmt;

/// Why a call is turned away. Each reason has a name and a number; a call gives the first that is met, in the order of its
/// checks. Numbers 1 to 10 are due to what is handed in, 11 to 14 to what the session or the box says.
///
/// ```
/// let refusal = mogtriz::encode(mogtriz::SIMPLEX, 9, 4, &[], &mut []).unwrap_err();
/// assert_eq!(refusal, mogtriz::Refusal::KOutOfRange);
/// assert_eq!(refusal.number(), 2);
/// assert_eq!(refusal.to_string(), "refused 2: k is outside its family's range");
/// ```
#[derive(Clone, Copy, Debug, PartialEq, Eq, Hash)]
#[non_exhaustive]
pub enum Refusal {
    /// 1: the family is not 1, 2 or 3; or, where a box is converted, not simplex.
    FamilyUnknown,
    /// 2: k is outside its family's range.
    KOutOfRange,
    /// 3: L is 0 or above [`MOST_LEN`].
    LenOutOfRange,
    /// 4: a node number is 0 or above n.
    NoSuchNode,
    /// 5: a list of nodes does not strictly rise.
    NotRising,
    /// 6: an object or nodes buffer is not of exact length, a destination is shorter than needed, or the length of a plan that is handed
    /// in is no multiple of four.
    BufferLength,
    /// 7: a box is under 8 bytes, or its length is not as its contents say.
    BoxLength,
    /// 8: a byte of 5 to 7 of a box is not zero.
    NotZero,
    /// 9: a box counts more nodes than there are.
    TooManyNodes,
    /// 10: the three nodes of a step are not related.
    NotRelated,
    /// 11: the node to repair is live.
    AlreadyLive,
    /// 12: a node to be read is missing.
    NodeMissing,
    /// 13: the session's contents are out of range or do not agree. [`Session::from_parts`](crate::Session::from_parts) has all the
    /// conditions.
    NoSuchSession,
    /// 14: a data block's node is missing at read out.
    BlockMissing {
        /// The lowest such block, from 1; 0 where it is not known, as of [`from_number`](Refusal::from_number).
        block: usize,
    },
    /// Any other number: the reason of a library that is newer than this package.
    Unnamed {
        /// The reason's number.
        number: u8,
    },
}

impl Refusal {
    /// The reason's number, 1 to 14; above it for a reason that has no name here.
    ///
    /// ```
    /// use mogtriz::Refusal;
    /// assert_eq!(Refusal::FamilyUnknown.number(), 1);
    /// assert_eq!(Refusal::BlockMissing { block: 3 }.number(), 14);
    /// ```
    #[must_use]
    pub fn number(self) -> u8 {
        match self {
            Refusal::FamilyUnknown => 1,
            Refusal::KOutOfRange => 2,
            Refusal::LenOutOfRange => 3,
            Refusal::NoSuchNode => 4,
            Refusal::NotRising => 5,
            Refusal::BufferLength => 6,
            Refusal::BoxLength => 7,
            Refusal::NotZero => 8,
            Refusal::TooManyNodes => 9,
            Refusal::NotRelated => 10,
            Refusal::AlreadyLive => 11,
            Refusal::NodeMissing => 12,
            Refusal::NoSuchSession => 13,
            Refusal::BlockMissing { .. } => 14,
            Refusal::Unnamed { number } => number,
        }
    }

    /// The reason with a number, as the lister and the refiller print it and the calls of C give it; `None` for 0, which
    /// says that a call is served. A number alone does not say which block is missing: 14 gives block 0, which is no
    /// block's number.
    ///
    /// ```
    /// use mogtriz::Refusal;
    /// assert_eq!(Refusal::from_number(7), Some(Refusal::BoxLength));
    /// assert_eq!(Refusal::from_number(14), Some(Refusal::BlockMissing { block: 0 }));
    /// assert_eq!(Refusal::from_number(15), Some(Refusal::Unnamed { number: 15 }));
    /// assert_eq!(Refusal::from_number(0), None);
    /// ```
    #[must_use]
    pub fn from_number(number: u8) -> Option<Refusal> {
        let refusal = match number {
            0 => return None,
            1 => Refusal::FamilyUnknown,
            2 => Refusal::KOutOfRange,
            3 => Refusal::LenOutOfRange,
            4 => Refusal::NoSuchNode,
            5 => Refusal::NotRising,
            6 => Refusal::BufferLength,
            7 => Refusal::BoxLength,
            8 => Refusal::NotZero,
            9 => Refusal::TooManyNodes,
            10 => Refusal::NotRelated,
            11 => Refusal::AlreadyLive,
            12 => Refusal::NodeMissing,
            13 => Refusal::NoSuchSession,
            14 => Refusal::BlockMissing { block: 0 },
            number => Refusal::Unnamed { number },
        };
        Some(refusal)
    }

    /// The number of an answer as a result.
    pub(crate) fn unless_served(number: u8) -> Result<(), Refusal> {
        Refusal::from_number(number).map_or(Ok(()), Err)
    }

    /// The block that comes with 14.
    pub(crate) fn with_block(self, block: usize) -> Refusal {
        match self {
            Refusal::BlockMissing { .. } => Refusal::BlockMissing { block },
            other => other,
        }
    }

    fn reason(self) -> &'static str {
        match self {
            Refusal::FamilyUnknown => "the family is not one that the call takes",
            Refusal::KOutOfRange => "k is outside its family's range",
            Refusal::LenOutOfRange => "the block length is 0 or above",
            Refusal::NoSuchNode => "a node number is 0 or above the last node's",
            Refusal::NotRising => "a list of nodes does not strictly rise",
            Refusal::BufferLength => "a buffer is not of the length that the call needs",
            Refusal::BoxLength => "the box is under 8 bytes or not as long as its contents say",
            Refusal::NotZero => "a byte of 5 to 7 of the box is not zero",
            Refusal::TooManyNodes => "the box counts more nodes than there are",
            Refusal::NotRelated => "the three nodes of the step are not related",
            Refusal::AlreadyLive => "the node to repair is live",
            Refusal::NodeMissing => "a node to be read is missing",
            Refusal::NoSuchSession => "the session's contents are out of range or do not agree",
            Refusal::BlockMissing { .. } => "the node of a data block is missing",
            Refusal::Unnamed { .. } => "a reason that has no name in this package",
        }
    }
}

/// The number and a sentence, with 14 the block too where it is known.
impl fmt::Display for Refusal {
    fn fmt(&self, f: &mut fmt::Formatter) -> fmt::Result {
        write!(f, "refused {}: {}", self.number(), self.reason())?;
        match self {
            Refusal::LenOutOfRange => write!(f, " {MOST_LEN}"),
            Refusal::BlockMissing { block } if *block > 0 => write!(f, ", block {block}"),
            _ => Ok(()),
        }
    }
}

impl Error for Refusal {}
