//! The errors of calls.

use std::fmt;

/// An invalid argument, or that memory ran out. Later versions of the library may add errors.
///
/// # Examples
///
/// ```
/// use gomzelat::{plan, Error};
///
/// let error = plan(0).unwrap_err();
/// assert_eq!(error, Error::BadLength);
/// assert_eq!(error.to_string(), "a payload has 1 to 18722 bytes");
/// ```
#[derive(Clone, Copy, Debug, PartialEq, Eq, Hash)]
#[non_exhaustive]
pub enum Error {
    /// Memory ran out.
    NoMemory,
    /// A payload has no bytes, or more than 18,722.
    BadLength,
    /// There are no transmissions, or more than eight.
    BadCount,
    /// Q_m isn't 2, 4 or 6.
    BadQm,
    /// N_L isn't 1 or 2.
    BadNl,
    /// G is 0, above 1,000,000 or no multiple of N_L * Q_m.
    BadG,
    /// A redundancy version is above 3.
    BadVersion,
    /// N_IR is too small for the payload.
    BadBuffer,
    /// There is no code block of that number.
    BadBlock,
    /// The greatest number of windows is 0, or above 64.
    BadWindows,
    /// The greatest number of iterations is 0, or above 16.
    BadLimit,
    /// K isn't one of the 188 sizes of a code block.
    BadSize,
    /// There are as many fillers as bits, or more.
    BadFillers,
    /// The check of a code block is neither CRC24A nor CRC24B.
    BadCheck,
    /// The number of soft values is wrong.
    BadValues,
    /// There are fewer bytes than the bits need.
    BadBits,
    /// The amplitude is 0, or above 127.
    BadAmp,
    /// The noise is above 127.
    BadNoise,
    /// A transmission's number is above 7.
    BadNumber,
    /// n_RNTI is above 65,535, q above 1, n_s above 19, or the cell's identity above 503.
    BadScrambling,
    /// The bits are no multiple of Q_m, or a coordinate isn't from -4000 to 4000.
    BadPoints,
    /// An output buffer is too short.
    ShortOutput,
    /// There are fewer soft cells than the code blocks have.
    ShortCells,
    /// There are fewer entries than code blocks.
    ShortBlocks,
    /// There are fewer bytes than the code blocks have bits.
    ShortBits,
    /// The library returned a code that this crate doesn't know: it is of another version.
    Unknown(u32),
}

/// The result for a return code.
pub(crate) fn done(answer: u32) -> Result<(), Error> {
    Err(match answer {
        0 => return Ok(()),
        1 => Error::NoMemory,
        2 => Error::BadLength,
        3 => Error::BadCount,
        4 => Error::BadQm,
        5 => Error::BadNl,
        6 => Error::BadG,
        7 => Error::BadVersion,
        8 => Error::BadBuffer,
        9 => Error::BadBlock,
        10 => Error::BadWindows,
        11 => Error::BadLimit,
        12 => Error::BadSize,
        13 => Error::BadFillers,
        14 => Error::BadCheck,
        15 => Error::BadValues,
        16 => Error::BadBits,
        17 => Error::BadAmp,
        18 => Error::BadNoise,
        19 => Error::BadNumber,
        20 => Error::BadScrambling,
        21 => Error::BadPoints,
        22 => Error::ShortOutput,
        23 => Error::ShortCells,
        24 => Error::ShortBlocks,
        25 => Error::ShortBits,
        other => Error::Unknown(other),
    })
}

impl fmt::Display for Error {
    fn fmt(&self, f: &mut fmt::Formatter<'_>) -> fmt::Result {
        f.write_str(match self {
            Error::NoMemory => "memory ran out",
            Error::BadLength => "a payload has 1 to 18722 bytes",
            Error::BadCount => "there are 1 to 8 transmissions",
            Error::BadQm => "Q_m is 2, 4 or 6",
            Error::BadNl => "N_L is 1 or 2",
            Error::BadG => "G is 1 to 1000000 and a multiple of N_L * Q_m",
            Error::BadVersion => "a redundancy version is 0 to 3",
            Error::BadBuffer => "N_IR is too small for the payload",
            Error::BadBlock => "there is no code block of that number",
            Error::BadWindows => "the greatest number of windows is 1 to 64",
            Error::BadLimit => "the greatest number of iterations is 1 to 16",
            Error::BadSize => "K is one of the 188 sizes of a code block",
            Error::BadFillers => "there are fewer fillers than bits",
            Error::BadCheck => "a check is CRC24A or CRC24B",
            Error::BadValues => "there are as many soft values as bits",
            Error::BadBits => "there are fewer bytes than the bits need",
            Error::BadAmp => "an amplitude is 1 to 127",
            Error::BadNoise => "noise is 0 to 127",
            Error::BadNumber => "the number of a transmission is 0 to 7",
            Error::BadScrambling => "a number of the scrambling is out of range",
            Error::BadPoints => "bits are a multiple of Q_m, coordinates from -4000 to 4000",
            Error::ShortOutput => "a buffer is too short for what is written",
            Error::ShortCells => "there are fewer soft cells than the code blocks have",
            Error::ShortBlocks => "there are fewer entries than code blocks",
            Error::ShortBits => "there are fewer bytes than the code blocks have bits",
            Error::Unknown(answer) => return write!(f, "the library answered {answer}"),
        })
    }
}

impl std::error::Error for Error {}
