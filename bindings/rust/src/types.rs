//! The types of arguments and results.

use std::num::NonZeroU32;

/// The receiver's soft buffer for a transport block.
///
/// # Examples
///
/// ```
/// use gomzelat::Buffer;
/// use std::num::NonZeroU32;
///
/// let limited = NonZeroU32::new(1500).map_or(Buffer::Full, Buffer::Limited);
/// assert_ne!(limited, Buffer::Full);
/// ```
#[derive(Clone, Copy, Debug, PartialEq, Eq, Hash)]
pub enum Buffer {
    /// The whole circular buffer of each code block.
    Full,
    /// N_IR soft values for all code blocks together.
    Limited(NonZeroU32),
}

impl Buffer {
    /// N_IR, or 0 for a full buffer.
    pub(crate) fn n_ir(self) -> u32 {
        match self {
            Buffer::Full => 0,
            Buffer::Limited(limit) => limit.get(),
        }
    }
}

/// One transmission of a transport block.
///
/// # Examples
///
/// ```
/// let first = gomzelat::Transmission { qm: 2, nl: 1, g: 528, rv: 0 };
/// let second = gomzelat::Transmission { rv: 2, ..first };
/// assert_eq!(second.g, 528);
/// ```
#[repr(C)]
#[derive(Clone, Copy, Debug, PartialEq, Eq, Hash)]
pub struct Transmission {
    /// Q_m, the bits of a modulation symbol: 2, 4 or 6.
    pub qm: u32,
    /// N_L, its layers: 1 or 2.
    pub nl: u32,
    /// G, its bits: 1 to 1,000,000, and a multiple of N_L * Q_m.
    pub g: u32,
    /// Its redundancy version: 0 to 3.
    pub rv: u32,
}

/// How a transport block is cut: the code blocks of `k_minus` bits come before those of `k_plus`.
///
/// # Examples
///
/// ```
/// let plan = gomzelat::plan(766)?;
/// assert_eq!((plan.c_minus, plan.k_minus, plan.c_plus, plan.k_plus, plan.f), (1, 3072, 1, 3136, 8));
/// # Ok::<(), gomzelat::Error>(())
/// ```
#[repr(C)]
#[derive(Clone, Copy, Debug, Default, PartialEq, Eq, Hash)]
pub struct Plan {
    /// C, the code blocks.
    pub c: usize,
    /// K+, the bits of the larger ones.
    pub k_plus: usize,
    /// K-, the bits of the smaller ones, or 0.
    pub k_minus: usize,
    /// C+, how many of the larger there are.
    pub c_plus: usize,
    /// C-, how many of the smaller there are.
    pub c_minus: usize,
    /// F, the fillers, which come first in the first code block.
    pub f: usize,
}

/// How a receiver decodes.
///
/// # Examples
///
/// ```
/// use gomzelat::{Buffer, Harq, Receiver};
///
/// let receiver = Receiver { buffer: Buffer::Full, windows: 8, limit: 8 };
/// assert!(Harq::new(100, receiver).is_ok());
/// ```
#[derive(Clone, Copy, Debug, PartialEq, Eq, Hash)]
pub struct Receiver {
    /// Its soft buffer.
    pub buffer: Buffer,
    /// The most windows of a code block: 1 to 64. 8, 16 and 32 run in lock step, which is fastest.
    pub windows: u32,
    /// The most iterations of a code block: 1 to 16.
    pub limit: u32,
}

/// The outcome of transmissions. `iterations` is the sum over the code blocks of the iterations of each one's last
/// decoding.
///
/// # Examples
///
/// ```
/// use gomzelat::Outcome;
///
/// let outcome = Outcome::Failed { transmissions: 2, iterations: 16 };
/// assert!(!matches!(outcome, Outcome::Delivered { .. }));
/// ```
#[derive(Clone, Debug, PartialEq, Eq, Hash)]
pub enum Outcome {
    /// All checks held after this many transmissions, and not before.
    Delivered {
        /// Its bytes.
        payload: Vec<u8>,
        /// How many.
        transmissions: usize,
        /// The iterations of all code blocks.
        iterations: usize,
    },
    /// The checks held after none of the transmissions.
    Failed {
        /// How many.
        transmissions: usize,
        /// The iterations of all code blocks.
        iterations: usize,
    },
}

/// An integer channel, which is the same on every machine.
///
/// # Examples
///
/// ```
/// let quiet = gomzelat::Channel { seed: 1, amp: 40, noise: 0 };
/// assert_eq!(gomzelat::noisy(&[0b0100_0000], 2, quiet, 0, 0), Ok(vec![40, -40]));
/// ```
#[repr(C)]
#[derive(Clone, Copy, Debug, PartialEq, Eq, Hash)]
pub struct Channel {
    /// The seed of the noise.
    pub seed: u64,
    /// The soft value of a bit 0: 1 to 127. That of a bit 1 is its negative.
    pub amp: u32,
    /// The approximate standard deviation of the noise: 0 to 127.
    pub noise: u32,
}
