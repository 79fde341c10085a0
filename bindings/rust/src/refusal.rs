//! Why a call refuses.
use std::error::Error;
use std::fmt;

/// Why a call refuses what it was lent. Each has a number, which the C functions return.
///
/// A call tests in this order and gives the first that applies: 1 over everything lent; 2, then 3, of the first
/// drawing, then of the second; 4; 12; 11; 5 to 10; 13; 14.
///
/// ```
/// use tiwelzam::Refusal;
///
/// assert_eq!(Refusal::BadValue.number(), 3);
/// assert_eq!(Refusal::from_number(3), Some(Refusal::BadValue));
/// assert_eq!(Refusal::from_number(0), None);
/// assert_eq!(Refusal::BadValue.to_string(), "a source or target value is not below the number of nodes");
/// ```
#[derive(Clone, Copy, Debug, PartialEq, Eq, Hash, PartialOrd, Ord)]
#[repr(u32)]
pub enum Refusal {
    /// A count or declared target is over its limit.
    OverLimit = 1,
    /// A length list has the wrong count or sum.
    BadLengths = 2,
    /// A source or target value is not below the number of nodes.
    BadValue = 3,
    /// A map entry is not below its declared target.
    BadEntry = 4,
    /// The map of nodes has another count, or declares another target, than the drawings.
    TypeMismatchW = 5,
    /// The map of operations has another count, or declares another target, than the drawings.
    TypeMismatchX = 6,
    /// The map of nodes does not carry the labels.
    NotNaturalW = 7,
    /// The map of operations does not carry the labels.
    NotNaturalX = 8,
    /// An operation's sources, carried over, are not the sources of its image.
    NotNaturalS = 9,
    /// An operation's targets, carried over, are not the targets of its image.
    NotNaturalT = 10,
    /// An output or the workspace is shorter than needed.
    ShortRoom = 11,
    /// A boundary entry is not below the number of nodes.
    BadBoundary = 12,
    /// Evaluation: some operation is unplaced.
    Unplaced = 13,
    /// Evaluation: an unknown label, or its operation has the wrong number of inputs or outputs.
    WrongOperation = 14,
    /// Text that is not the format. Of the programs only; no call gives it.
    BadText = 15,
}

impl Refusal {
    const ALL: [Refusal; 15] = [
        Refusal::OverLimit,
        Refusal::BadLengths,
        Refusal::BadValue,
        Refusal::BadEntry,
        Refusal::TypeMismatchW,
        Refusal::TypeMismatchX,
        Refusal::NotNaturalW,
        Refusal::NotNaturalX,
        Refusal::NotNaturalS,
        Refusal::NotNaturalT,
        Refusal::ShortRoom,
        Refusal::BadBoundary,
        Refusal::Unplaced,
        Refusal::WrongOperation,
        Refusal::BadText,
    ];

    /// The number, from 1 to 15.
    pub const fn number(self) -> u32 {
        self as u32
    }

    /// The refusal with this number.
    pub fn from_number(number: u32) -> Option<Refusal> {
        Refusal::ALL.into_iter().find(|refusal| refusal.number() == number)
    }
}

impl fmt::Display for Refusal {
    fn fmt(&self, f: &mut fmt::Formatter<'_>) -> fmt::Result {
        f.write_str(match self {
            Refusal::OverLimit => "a count or declared target is over its limit",
            Refusal::BadLengths => "a length list has the wrong count or sum",
            Refusal::BadValue => "a source or target value is not below the number of nodes",
            Refusal::BadEntry => "a map entry is not below its declared target",
            Refusal::TypeMismatchW => "the map of nodes does not fit the drawings",
            Refusal::TypeMismatchX => "the map of operations does not fit the drawings",
            Refusal::NotNaturalW => "the map of nodes does not carry the labels",
            Refusal::NotNaturalX => "the map of operations does not carry the labels",
            Refusal::NotNaturalS => "the maps do not carry the sources",
            Refusal::NotNaturalT => "the maps do not carry the targets",
            Refusal::ShortRoom => "an output or the workspace is shorter than needed",
            Refusal::BadBoundary => "a boundary entry is not below the number of nodes",
            Refusal::Unplaced => "some operation lies on a cycle or behind one",
            Refusal::WrongOperation => "an unknown label, or a wrong number of inputs or outputs",
            Refusal::BadText => "the text is not in the format",
        })
    }
}

impl Error for Refusal {}
