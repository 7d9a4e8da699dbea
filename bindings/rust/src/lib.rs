//! The coding chain of LTE transport blocks (3GPP TS 36.212 5.1.1 to 5.1.5), with a receiver and a channel: safe calls
//! over a library that is proved. The library's contracts define what each call returns; this crate passes buffers and
//! maps error codes.
//!
//! Bits are packed into bytes, highest bit first. A soft value (LLR) is a number from -127 to 127, positive where 0 is
//! likelier; -128 is taken as -127.
//!
//! ```
//! use gomzelat::{Buffer, Channel, Outcome, Receiver, Transmission, codeword, noisy, receive};
//!
//! let sent = b"One transport block, in one transmission.";
//! let transmission = Transmission { qm: 2, nl: 1, g: 528, rv: 0 };
//! let bits = codeword(sent, transmission, Buffer::Full)?;
//! let channel = Channel { seed: 1, amp: 40, noise: 10 };
//! let values = noisy(&bits, 528, channel, 0, 0)?;
//! let receiver = Receiver { buffer: Buffer::Full, windows: 8, limit: 8 };
//! match receive(sent.len(), &[transmission], receiver, &values)? {
//!     Outcome::Delivered { payload, .. } => assert_eq!(payload, sent),
//!     Outcome::Failed { .. } => panic!("there is little noise"),
//! }
//! # Ok::<(), gomzelat::Error>(())
//! ```

#![deny(missing_docs)]

mod channel;
mod error;
mod ffi;
mod harq;
pub mod signals;
pub mod stages;
mod types;

pub use channel::{noisy, trial_payload};
pub use error::Error;
pub use harq::{Harq, Try};
pub use types::{Buffer, Channel, Outcome, Plan, Receiver, Transmission};

use error::done;

/// The bytes of the largest transport block.
pub const MOST_BYTES: usize = 18_722;

/// The bits of the longest transmission.
pub const MOST_BITS: u32 = 1_000_000;

/// The bytes of `g` bits, or of the longest transmission where there are more.
fn bytes_of(g: u32) -> usize {
    (g.min(MOST_BITS) as usize + 7) / 8
}

/// The codeword of a payload of 1 to 18,722 bytes: its G bits, with unused low bits of the last byte 0.
///
/// # Errors
///
/// `BadLength`, `BadQm`, `BadNl`, `BadG`, `BadVersion` or `BadBuffer` for invalid arguments, the first in this order;
/// `NoMemory`.
///
/// # Examples
///
/// ```
/// use gomzelat::{codeword, Buffer, Transmission};
///
/// let bits = codeword(&[0, 1], Transmission { qm: 2, nl: 1, g: 8, rv: 1 }, Buffer::Full)?;
/// assert_eq!(bits, [0x24]);
/// # Ok::<(), gomzelat::Error>(())
/// ```
pub fn codeword(
    payload: &[u8],
    transmission: Transmission,
    buffer: Buffer,
) -> Result<Vec<u8>, Error> {
    // A greater G is refused, with no need of room.
    let mut out = vec![0; bytes_of(transmission.g)];
    // SAFETY: pointers and lengths are those of slices that are borrowed for the call, and only `out` is written to.
    done(unsafe {
        ffi::gomzelat_codeword(
            payload.as_ptr(),
            payload.len(),
            transmission,
            buffer.n_ir(),
            out.as_mut_ptr(),
            out.len(),
        )
    })?;
    Ok(out)
}

/// The codewords of one to eight transmissions, encoding the payload once.
///
/// # Errors
///
/// `BadLength`, `BadCount`, `BadQm`, `BadNl`, `BadG`, `BadVersion` or `BadBuffer` for invalid arguments, the first in
/// this order; `NoMemory`.
///
/// # Examples
///
/// ```
/// use gomzelat::{codewords, Buffer, Transmission};
///
/// let sent = [1, 2].map(|rv| Transmission { qm: 2, nl: 1, g: 8, rv });
/// assert_eq!(codewords(&[0, 1], &sent, Buffer::Full)?, [[0x24], [0xE6]]);
/// # Ok::<(), gomzelat::Error>(())
/// ```
pub fn codewords(
    payload: &[u8],
    transmissions: &[Transmission],
    buffer: Buffer,
) -> Result<Vec<Vec<u8>>, Error> {
    // More transmissions, and a greater G, are refused, with no need of room.
    let sizes = transmissions.iter().take(8).map(|it| bytes_of(it.g));
    let mut out = vec![0; sizes.clone().sum()];
    // SAFETY: pointers and lengths are those of slices that are borrowed for the call, and only `out` is written to.
    done(unsafe {
        ffi::gomzelat_codewords(
            payload.as_ptr(),
            payload.len(),
            transmissions.as_ptr(),
            transmissions.len(),
            buffer.n_ir(),
            out.as_mut_ptr(),
            out.len(),
        )
    })?;
    let mut rest = out.as_slice();
    let next = |size| {
        let (one, others) = rest.split_at(size);
        rest = others;
        one.to_vec()
    };
    Ok(sizes.map(next).collect())
}

/// The edition of the linked library. This crate is written for edition 2.
///
/// # Examples
///
/// ```
/// assert_eq!(gomzelat::version(), 2);
/// ```
pub fn version() -> u32 {
    // SAFETY: nothing is passed.
    unsafe { ffi::gomzelat_version() }
}

/// How a payload of `length` bytes, 1 to 18,722, is cut into code blocks.
///
/// # Errors
///
/// `BadLength`.
///
/// # Examples
///
/// ```
/// let plan = gomzelat::plan(9422)?;
/// assert_eq!((plan.c, plan.k_plus), (13, 5824));
/// # Ok::<(), gomzelat::Error>(())
/// ```
pub fn plan(length: usize) -> Result<Plan, Error> {
    let mut plan = Plan::default();
    // SAFETY: the reference is that of a plan of its own.
    done(unsafe { ffi::gomzelat_plan(length, &mut plan) })?;
    Ok(plan)
}

/// Receives a transport block of `length` bytes from one to eight transmissions, which share one soft buffer. `values`
/// has the G soft values of each, one transmission after the other.
///
/// # Errors
///
/// `BadLength`, `BadCount`, `BadQm`, `BadNl`, `BadG`, `BadVersion`, `BadBuffer`, `BadWindows`, `BadLimit` or
/// `BadValues` for invalid arguments, the first in this order, and transmission after transmission; `NoMemory`.
///
/// # Examples
///
/// ```
/// use gomzelat::{receive, Buffer, Outcome, Receiver, Transmission};
///
/// let sent = Transmission { qm: 2, nl: 1, g: 132, rv: 0 };
/// let receiver = Receiver { buffer: Buffer::Full, windows: 8, limit: 4 };
/// let outcome = receive(2, &[sent], receiver, &[-9; 132])?;
/// assert_eq!(outcome, Outcome::Failed { transmissions: 1, iterations: 4 });
/// # Ok::<(), gomzelat::Error>(())
/// ```
pub fn receive(
    length: usize,
    transmissions: &[Transmission],
    receiver: Receiver,
    values: &[i8],
) -> Result<Outcome, Error> {
    // A greater length is refused, with no need of room.
    let mut payload = vec![0; length.min(MOST_BYTES)];
    let mut outcome = ffi::Outcome::default();
    // SAFETY: pointers and lengths are those of slices that are borrowed for the call, and only `payload` and `outcome`
    // are written to.
    done(unsafe {
        ffi::gomzelat_receive(
            length,
            transmissions.as_ptr(),
            transmissions.len(),
            ffi::Receiver::from(receiver),
            values.as_ptr(),
            values.len(),
            payload.as_mut_ptr(),
            payload.len(),
            &mut outcome,
        )
    })?;
    let ffi::Outcome {
        transmissions,
        iterations,
        ..
    } = outcome;
    Ok(if outcome.delivered == 1 {
        Outcome::Delivered {
            payload,
            transmissions,
            iterations,
        }
    } else {
        Outcome::Failed {
            transmissions,
            iterations,
        }
    })
}
