use std::fmt;

/// Why nothing was done. The heap is as it was, but for [`Error::Lost`].
#[derive(Clone, Copy, Debug, PartialEq, Eq)]
#[non_exhaustive]
pub enum Error {
    /// The root is null, or its object has no such field or number.
    Bad,
    /// The heap has no room for the object, not after a full collection either.
    Full,
    /// All 16 roots of the mutator are in use.
    NoRoot,
    /// The root is one of another mutator.
    OtherMutator,
    /// A call of this mutator is in progress.
    Busy,
    /// The machine has ended.
    Ended,
    /// This mutator has made 4294967295 objects.
    Spent,
    /// A root, a size, a field or an index is out of range.
    OutOfRange,
    /// The regions are not 4 to 64.
    BadRegions,
    /// The words of a region are out of range.
    BadRegionWords,
    /// The mutators are not 1 to 8.
    BadMutators,
    /// The helpers are not 0 to 3.
    BadHelpers,
    /// The reserve is not less than the regions.
    BadReserve,
    /// Memory was refused.
    NoMemory,
    /// The seats are not all those of one heap.
    NotAll,
    /// Memory was refused when a heap was renewed: nothing is left of it.
    Lost,
    /// The system made no thread.
    NoThread,
    /// Another status of the library, which this crate does not expect.
    Other(u32),
}

impl Error {
    pub(crate) fn of(status: u32) -> Error {
        match status {
            4 => Error::Ended,
            14 => Error::Bad,
            15 => Error::Full,
            27 => Error::Lost,
            34 => Error::Busy,
            35 => Error::Spent,
            37 => Error::OutOfRange,
            48 => Error::BadRegions,
            49 => Error::BadRegionWords,
            50 => Error::BadMutators,
            51 => Error::BadHelpers,
            52 => Error::BadReserve,
            55 => Error::NoMemory,
            56 => Error::NotAll,
            other => Error::Other(other),
        }
    }
}

impl fmt::Display for Error {
    fn fmt(&self, to: &mut fmt::Formatter<'_>) -> fmt::Result {
        let text = match self {
            Error::Bad => "the root is null, or its object has no such field or number",
            Error::Full => "the heap has no room",
            Error::NoRoot => "all 16 roots are in use",
            Error::OtherMutator => "the root is one of another mutator",
            Error::Busy => "a call is in progress",
            Error::Ended => "the machine has ended",
            Error::Spent => "this mutator has made all objects that it may",
            Error::OutOfRange => "a root, a size, a field or an index is out of range",
            Error::BadRegions => "the regions are not 4 to 64",
            Error::BadRegionWords => "the words of a region are out of range",
            Error::BadMutators => "the mutators are not 1 to 8",
            Error::BadHelpers => "the helpers are not 0 to 3",
            Error::BadReserve => "the reserve is not less than the regions",
            Error::NoMemory => "memory was refused",
            Error::NotAll => "the seats are not all those of one heap",
            Error::Lost => "memory was refused for a heap that was renewed: nothing is left of it",
            Error::NoThread => "the system made no thread",
            Error::Other(status) => return write!(to, "status {status} of covremuj.h"),
        };
        to.write_str(text)
    }
}

impl std::error::Error for Error {}
