//! Scrambling and constellation points (36.211).

use crate::error::done;
use crate::{ffi, Error};

/// The parameters of a scrambling sequence. [`scrambling_init`] has an example.
#[repr(C)]
#[derive(Clone, Copy, Debug, PartialEq, Eq, Hash)]
pub struct Scrambling {
    /// n_RNTI, the terminal's identity: 0 to 65,535.
    pub rnti: u32,
    /// The number of the codeword: 0 or 1; 0 in the uplink.
    pub q: u32,
    /// n_s, the slot within the radio frame: 0 to 19.
    pub slot: u32,
    /// The identity of the cell: 0 to 503.
    pub cell: u32,
}

/// A point of a constellation, or one that was received. [`map`] has an example.
#[repr(C)]
#[derive(Clone, Copy, Debug, Default, PartialEq, Eq, Hash)]
pub struct Point {
    /// The real part.
    pub i: i32,
    /// The imaginary part.
    pub q: i32,
}

/// c_init, which initialises the scrambling sequence (6.3.1).
///
/// # Errors
///
/// `BadScrambling`.
///
/// # Examples
///
/// ```
/// use gomzelat::signals::{scrambling_init, Scrambling};
///
/// assert_eq!(scrambling_init(Scrambling { rnti: 1, q: 0, slot: 2, cell: 3 })?, 16899);
/// # Ok::<(), gomzelat::Error>(())
/// ```
pub fn scrambling_init(scrambling: Scrambling) -> Result<u32, Error> {
    let mut init = 0;
    // SAFETY: the reference is that of a number of its own.
    done(unsafe { ffi::gomzelat_init(scrambling, &mut init) })?;
    Ok(init)
}

/// Scrambles the first `count` bits in place; unused low bits of their last byte become 0.
///
/// # Errors
///
/// `BadBits` or `BadScrambling` for invalid arguments, the first in this order; `NoMemory`.
///
/// # Examples
///
/// ```
/// use gomzelat::signals::{scramble, Scrambling};
///
/// let mut bits = [0; 4];
/// scramble(&mut bits, 32, Scrambling { rnti: 0, q: 0, slot: 0, cell: 0 })?;
/// assert_eq!(bits, [0x02, 0x1A, 0x12, 0x7A]);
/// # Ok::<(), gomzelat::Error>(())
/// ```
pub fn scramble(bits: &mut [u8], count: usize, scrambling: Scrambling) -> Result<(), Error> {
    // SAFETY: pointer and length are those of a slice that is borrowed for the call.
    done(unsafe { ffi::gomzelat_scramble(bits.as_mut_ptr(), bits.len(), count, scrambling) })
}

/// Descrambles soft values of scrambled bits in place.
///
/// # Errors
///
/// `BadScrambling`; `NoMemory`.
///
/// # Examples
///
/// ```
/// use gomzelat::signals::{descramble, Scrambling};
///
/// let mut values = [9; 8];
/// descramble(&mut values, Scrambling { rnti: 0, q: 0, slot: 0, cell: 0 })?;
/// assert_eq!(values, [9, 9, 9, 9, 9, 9, -9, 9]);
/// # Ok::<(), gomzelat::Error>(())
/// ```
pub fn descramble(values: &mut [i8], scrambling: Scrambling) -> Result<(), Error> {
    // SAFETY: pointer and length are those of a slice that is borrowed for the call.
    done(unsafe { ffi::gomzelat_descramble(values.as_mut_ptr(), values.len(), scrambling) })
}

/// Maps the first `count` bits to points, Q_m bits each: odd coordinates, up to 1, 3 or 7.
///
/// # Errors
///
/// `BadQm`, `BadBits` or `BadPoints` for invalid arguments, the first in this order; `NoMemory`.
///
/// # Examples
///
/// ```
/// use gomzelat::signals::{map, Point};
///
/// assert_eq!(map(&[0b0000_1011], 8, 4)?, [Point { i: 1, q: 1 }, Point { i: -3, q: 3 }]);
/// # Ok::<(), gomzelat::Error>(())
/// ```
pub fn map(bits: &[u8], count: usize, qm: u32) -> Result<Vec<Point>, Error> {
    // More bits than there are are refused, with no need of room.
    let mut points = vec![Point::default(); count.min(bits.len().saturating_mul(8))];
    // SAFETY: pointers and lengths are those of slices that are borrowed for the call, and only `points` is written to.
    done(unsafe {
        ffi::gomzelat_map(
            bits.as_ptr(),
            bits.len(),
            count,
            qm,
            points.as_mut_ptr(),
            points.len(),
        )
    })?;
    points.truncate(count / qm as usize);
    Ok(points)
}

/// The Q_m soft values of each received point, whose coordinates are from -4000 to 4000.
///
/// # Errors
///
/// `BadQm`, `BadAmp` or `BadPoints` for invalid arguments, the first in this order; `NoMemory`.
///
/// # Examples
///
/// ```
/// use gomzelat::signals::{demap, Point};
///
/// assert_eq!(demap(&[Point { i: 40, q: -30 }], 2, 40)?, [40, -30]);
/// # Ok::<(), gomzelat::Error>(())
/// ```
pub fn demap(points: &[Point], qm: u32, amp: u32) -> Result<Vec<i8>, Error> {
    // A greater Q_m is refused, with no need of room.
    let mut out = vec![0; points.len() * qm.min(6) as usize];
    // SAFETY: pointers and lengths are those of slices that are borrowed for the call, and only `out` is written to.
    done(unsafe {
        ffi::gomzelat_demap(
            points.as_ptr(),
            points.len(),
            qm,
            amp,
            out.as_mut_ptr(),
            out.len(),
        )
    })?;
    Ok(out)
}
