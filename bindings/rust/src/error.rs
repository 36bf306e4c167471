//! Refusals: the reference's table, and the error that carries one.

use std::fmt;

// A refusal is written down once: its name, its number, when it comes, and what its place counts if it has one.
macro_rules! refusals {
    ($($(#[$more:meta])* $name:ident = $number:literal, $when:literal $(, at $place:literal)?;)*) => {
        /// Why a call refused, with its number.
        ///
        /// All refusals of the project are here. 40 to 45 belong to record streams, where [`Shots`](crate::Shots) says them in a
        /// line and no call answers them; 26, 28 and those from 46 on are kept for calls to come.
        ///
        /// ```
        /// use chowderkite::Refusal;
        ///
        /// assert_eq!(Refusal::BadPrior.number(), 4);
        /// assert_eq!(Refusal::from_number(24), Some(Refusal::OrderExchanged));
        /// assert_eq!(Refusal::from_number(39), None);
        /// ```
        #[derive(Clone, Copy, Debug, PartialEq, Eq, PartialOrd, Ord, Hash)]
        pub enum Refusal {
            $(
                #[doc = concat!(stringify!($number), ": ", $when, ".")]
                $(#[doc = concat!("Place: ", $place, ".")])?
                $(#[$more])*
                $name = $number,
            )*
        }

        impl Refusal {
            /// Every refusal, in rising number.
            pub const ALL: &'static [Refusal] = &[$(Refusal::$name),*];

            /// The name, as the variant is called.
            #[must_use]
            pub const fn name(self) -> &'static str {
                match self {
                    $(Refusal::$name => stringify!($name),)*
                }
            }

            /// When it comes.
            #[must_use]
            pub const fn meaning(self) -> &'static str {
                match self {
                    $(Refusal::$name => $when,)*
                }
            }

            /// What its place counts: `"mechanism"`, `"check"`, `"flat index"` into explicit gammas, `"line"` or `"shot"`. None if
            /// it has no place.
            #[must_use]
            pub const fn place_counts(self) -> Option<&'static str> {
                match self {
                    $(Refusal::$name => refusals!(@place $($place)?),)*
                }
            }
        }
    };
    (@place) => { None };
    (@place $place:literal) => { Some($place) };
}

refusals! {
    SizeAboveLimit = 1, "a size above its limit";
    ModelListLength = 2, "a lent model or graph list of wrong length";
    BadDetectorOffsets = 3, "detector offsets don't start at 0, fall, or don't end at the detector list's length";
    BadPrior = 4, "prior NaN, below -30 or above 30", at "mechanism";
    DetectorOutOfRange = 5, "detector out of range", at "mechanism";
    DetectorRepeated = 6, "detector repeated in its mechanism", at "mechanism";
    NoSuchGraph = 7, "graph lists that no model within the limits builds";
    BadProbability = 8, "probability NaN, below 0 or above 1", at "mechanism";
    BadClip = 9, "clip not finite or not above 0";
    BadAlpha = 10, "alpha not finite or not above 0";
    BadGamma0 = 11, "gamma0 not finite";
    BadIterations = 12, "pre_iterations 0 or above limit; min-sum iterations above limit";
    TooManyLegs = 13, "num_legs above limit";
    BadLegIterations = 14, "leg_iterations above limit, or 0 with num_legs above 0";
    BadGammaInterval = 15, "gamma interval: an end or the span not finite, or low above high";
    BadStop = 16, "stop_after_converged 0";
    NoGammaSets = 17, "explicit source, no sets, num_legs above 0";
    GammaSetsLength = 18, "explicit source: sets above limit, or flat length not sets times mechanisms";
    GammaNotFinite = 19, "explicit gamma not finite", at "flat index";
    SyndromeLength = 20, "syndrome length not the check count";
    SyndromeNotBinary = 21, "Relay syndrome byte above 1", at "check";
    LentListLength = 22, "a lent result, state or work list of wrong length";
    OrderNotEachOnce = 23, "order list not naming each check once";
    /// It is the first check in the order that shares a mechanism with a higher check named before it.
    OrderExchanged = 24, "decode, CheckSerial: two checks that share a mechanism exchanged", at "check";
    StateNotFinite = 25, "single iteration: message, posterior or gamma not finite";
    SeedsLength = 26, "block of shots: seed list length not the shot count";
    /// It is tested directly after 21, with any number of legs; [`DrawRule::ByShot`](crate::DrawRule::ByShot) alone has it.
    ShotTooLarge = 27, "gammas drawn by shot: shot number 2^48 or above";
    ObservableTooLarge = 28, "observable number 64 or above", at "mechanism";
    /// They are [`RelayOutcome::stores`](crate::RelayOutcome::stores), by its formula, at `pre_iterations` plus `num_legs` times
    /// `leg_iterations`.
    TooManyStores = 29, "a decode's message stores could pass 2^64 - 1";
    /// It is the first mechanism that has one.
    NonFinite = 30,
        "non-finite posterior after a leg or min-sum run; single iteration: non-finite posterior or message after it",
        at "mechanism";
    CutRecord = 40, "a stream that ends within a record";
    UnknownKind = 41, "a record of unknown kind";
    PayloadLength = 42, "a payload of wrong length for its kind";
    ShotTooEarly = 43, "a shot before a model or settings";
    BeyondRoom = 44, "a record beyond the room of a session";
    BadSchedule = 45, "a schedule byte other than 0 and 1";
    DroppedWithOthers = 46, "a shot whose model or settings were dropped";
    LineNotInSubset = 50, "model text: a line outside the subset", at "line";
    ConstructLeftOut = 51, "model text: a construct that the subset leaves out by name", at "line";
    NumberOutsideLimits = 52, "model text: a decimal or a target outside the limits", at "line";
    ForeignCharacter = 55, "shot file: a foreign character", at "shot";
    LineLength = 56, "shot file: a line of wrong length", at "shot";
    CutShot = 57, "shot file: the last shot cut, or bytes left over", at "shot";
    FillingBitSet = 58, "shot file: a filling bit set", at "shot";
    AlistMalformed = 60, "matrix file: a malformed number, or a wrong count of lines or numbers";
    AlistDegree = 61, "matrix file: a degree that differs from its lists";
    AlistNumber = 62, "matrix file: a number out of range or repeated";
    AlistDisagrees = 63, "matrix file: column and row lists that disagree";
}

impl Refusal {
    /// The number.
    #[must_use]
    pub const fn number(self) -> u16 {
        self as u16
    }

    /// The refusal with a number, if it is one of these.
    #[must_use]
    pub fn from_number(number: u16) -> Option<Self> {
        Self::ALL
            .iter()
            .copied()
            .find(|refusal| refusal.number() == number)
    }
}

/// A refused call: one number, and one place where the refusal has one.
///
/// ```
/// use chowderkite::{BpGraph, Refusal};
///
/// let error = BpGraph::from_sparse(1, &[(2.0, vec![0]), (31.0, vec![0])]).unwrap_err();
/// assert_eq!(error.refusal(), Refusal::BadPrior);
/// assert_eq!((error.number(), error.place()), (4, Some(1)));
/// assert_eq!(
///     error.to_string(),
///     "refused with 4, BadPrior, at mechanism 1: prior NaN, below -30 or above 30"
/// );
/// ```
#[derive(Clone, Copy, Debug, PartialEq, Eq, Hash)]
pub struct Error {
    refusal: Refusal,
    place: Option<usize>,
}

impl Error {
    /// What was refused.
    #[must_use]
    pub const fn refusal(&self) -> Refusal {
        self.refusal
    }

    /// Its number in the reference's table.
    #[must_use]
    pub const fn number(&self) -> u16 {
        self.refusal.number()
    }

    /// Its name, as the variant of [`Refusal`] is called.
    #[must_use]
    pub const fn name(&self) -> &'static str {
        self.refusal.name()
    }

    /// The first place that is at fault, where the refusal has one: [`Refusal::place_counts`] says what it counts.
    #[must_use]
    pub const fn place(&self) -> Option<usize> {
        self.place
    }

    /// What a code of the archive says: 0 for nothing refused, else the number plus 65,536 times the place.
    pub(crate) fn of_code(code: u64) -> Result<(), Self> {
        if code == 0 {
            return Ok(());
        }
        let Some(refusal) = Refusal::from_number((code % 65_536) as u16) else {
            unreachable!("the archive answered the code {code}, which its contract rules out")
        };
        let place = refusal.place_counts().map(|_| (code / 65_536) as usize);
        Err(Self { refusal, place })
    }
}

impl fmt::Display for Error {
    fn fmt(&self, f: &mut fmt::Formatter<'_>) -> fmt::Result {
        write!(f, "refused with {}, {}", self.number(), self.name())?;
        if let (Some(counts), Some(place)) = (self.refusal.place_counts(), self.place) {
            write!(f, ", at {counts} {place}")?;
        }
        write!(f, ": {}", self.refusal.meaning())
    }
}

impl std::error::Error for Error {}
