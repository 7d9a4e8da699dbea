//! The noise and the payloads of a trial.

use crate::error::done;
use crate::types::Channel;
use crate::{ffi, Error, MOST_BYTES};

/// A soft value for each of the first `count` bits, sent through the channel as transmission `number`, 0 to 7, of a
/// block, both counted from 0.
///
/// # Errors
///
/// `BadBits`, `BadAmp`, `BadNoise` or `BadNumber` for invalid arguments, the first in this order; `NoMemory`.
///
/// # Examples
///
/// ```
/// use gomzelat::{noisy, Channel};
///
/// let values = noisy(&[0], 8, Channel { seed: 5, amp: 40, noise: 20 }, 0, 0)?;
/// assert_eq!(values, [16, 62, 52, 20, 50, 53, 27, 67]);
/// # Ok::<(), gomzelat::Error>(())
/// ```
pub fn noisy(
    bits: &[u8],
    count: usize,
    channel: Channel,
    block: u32,
    number: u32,
) -> Result<Vec<i8>, Error> {
    // More bits than there are are refused, with no need of room.
    let mut out = vec![0; count.min(bits.len().saturating_mul(8))];
    // SAFETY: pointers and lengths are those of slices that are borrowed for the call, and only `out` is written to.
    done(unsafe {
        ffi::gomzelat_noisy(
            bits.as_ptr(),
            bits.len(),
            count,
            channel,
            block,
            number,
            out.as_mut_ptr(),
            out.len(),
        )
    })?;
    Ok(out)
}

/// The payload of `length` bytes, 1 to 18,722, of a block, counted from 0, from a seed.
///
/// # Errors
///
/// `BadLength`; `NoMemory`.
///
/// # Examples
///
/// ```
/// assert_eq!(gomzelat::trial_payload(4, 1, 0)?, [0xA5, 0x55, 0x5A, 0x93]);
/// # Ok::<(), gomzelat::Error>(())
/// ```
pub fn trial_payload(length: usize, seed: u64, block: u32) -> Result<Vec<u8>, Error> {
    // One byte too many is refused as any greater length is.
    let mut out = vec![0; length.min(MOST_BYTES + 1)];
    // SAFETY: pointer and length are those of a slice that is borrowed for the call.
    done(unsafe { ffi::gomzelat_trial_payload(seed, block, out.as_mut_ptr(), out.len()) })?;
    Ok(out)
}
