//! The stages of the chain one by one, to find where another codec differs (36.212 5.1.1 to 5.1.4).

use crate::error::done;
use crate::types::{Buffer, Transmission};
use crate::{ffi, plan, Error};

/// The part of its circular buffer that a code block sends (36.212 5.1.4.1.2). [`piece`] has an example.
#[repr(C)]
#[derive(Clone, Copy, Debug, Default, PartialEq, Eq, Hash)]
pub struct Piece {
    /// K, its bits.
    pub k: usize,
    /// How many of them are fillers.
    pub fill: usize,
    /// K_w, the places of its circular buffer.
    pub buffer: usize,
    /// N_cb, those of them from which it sends.
    pub places: usize,
    /// k0, the place that is sent first, which is below N_cb or is taken modulo N_cb.
    pub start: usize,
    /// E, the bits that are sent.
    pub bits: usize,
}

/// The generator of check bits (36.212 5.1.1). [`check_bits`] has an example.
#[derive(Clone, Copy, Debug, PartialEq, Eq, Hash)]
pub enum Check {
    /// That of a transport block, and of a code block that is the only one.
    Crc24A,
    /// That of one of several code blocks.
    Crc24B,
}

/// The result of decoding one code block. [`decode_block`] has an example.
#[derive(Clone, Debug, PartialEq, Eq, Hash)]
pub struct DecodedBlock {
    /// Its bits, each 0 or 1, whether or not its check holds.
    pub bits: Vec<u8>,
    /// Whether its check holds.
    pub passed: bool,
    /// The iterations that it took.
    pub iterations: usize,
}

/// K of code block `r`, or 0 where there is none, which the call that follows refuses.
fn block_size(length: usize, r: usize) -> usize {
    plan(length).map_or(0, |plan| {
        if r < plan.c_minus {
            plan.k_minus
        } else {
            plan.k_plus
        }
    })
}

/// The K bits of code block `r`, counted from 0, each 0 or 1, fillers 0.
///
/// # Errors
///
/// `BadLength` or `BadBlock` for invalid arguments, the first in this order; `NoMemory`.
///
/// # Examples
///
/// ```
/// let bits = gomzelat::stages::code_block(&[0, 1], 0)?;
/// assert_eq!((bits.len(), &bits[14..16]), (40, &[0, 1][..]));
/// # Ok::<(), gomzelat::Error>(())
/// ```
pub fn code_block(payload: &[u8], r: usize) -> Result<Vec<u8>, Error> {
    let mut out = vec![0; block_size(payload.len(), r)];
    // SAFETY: pointers and lengths are those of slices that are borrowed for the call, and only `out` is written to.
    done(unsafe {
        ffi::gomzelat_code_block(
            payload.as_ptr(),
            payload.len(),
            r,
            out.as_mut_ptr(),
            out.len(),
        )
    })?;
    Ok(out)
}

/// The coded streams d0, d1 and d2 of code block `r`, K + 4 cells each: 0, 1, or `None` at a NULL.
///
/// # Errors
///
/// `BadLength` or `BadBlock` for invalid arguments, the first in this order; `NoMemory`.
///
/// # Examples
///
/// ```
/// let [d0, _, d2] = gomzelat::stages::streams(&[0], 0)?;
/// // The first 8 of 40 bits are fillers.
/// assert_eq!((d0[7], d0[8], d2[0]), (None, Some(0), Some(0)));
/// # Ok::<(), gomzelat::Error>(())
/// ```
pub fn streams(payload: &[u8], r: usize) -> Result<[Vec<Option<u8>>; 3], Error> {
    let size = block_size(payload.len(), r) + 4;
    let mut out = vec![0; 3 * size];
    // SAFETY: pointers and lengths are those of slices that are borrowed for the call, and only `out` is written to.
    done(unsafe {
        ffi::gomzelat_streams(
            payload.as_ptr(),
            payload.len(),
            r,
            out.as_mut_ptr(),
            out.len(),
        )
    })?;
    let cells = |stream: &[u8]| {
        stream
            .iter()
            .map(|&cell| (cell < 2).then_some(cell))
            .collect()
    };
    Ok([0, 1, 2].map(|stream| cells(&out[stream * size..][..size])))
}

/// The bit at each place of the circular buffer of code block `r`: its stream and its index, or `None` at a NULL.
///
/// # Errors
///
/// `BadLength` or `BadBlock` for invalid arguments, the first in this order; `NoMemory`.
///
/// # Examples
///
/// ```
/// let spots = gomzelat::stages::spots(2, 0)?;
/// assert_eq!(spots[..4], [None, Some((0, 12)), None, Some((0, 28))]);
/// # Ok::<(), gomzelat::Error>(())
/// ```
pub fn spots(length: usize, r: usize) -> Result<Vec<Option<(u8, u16)>>, Error> {
    let mut out = vec![0; 96 * ((block_size(length, r) + 35) / 32)];
    // SAFETY: pointer and length are those of a slice that is borrowed for the call.
    done(unsafe { ffi::gomzelat_spots(length, r, out.as_mut_ptr(), out.len()) })?;
    let spot = |&number: &u32| {
        (number != u32::MAX).then_some(((number >> 16) as u8, (number & 0xFFFF) as u16))
    };
    Ok(out.iter().map(spot).collect())
}

/// What code block `r` of a payload of `length` bytes sends in a transmission.
///
/// # Errors
///
/// `BadLength`, `BadQm`, `BadNl`, `BadG`, `BadVersion`, `BadBuffer` or `BadBlock`, the first in this order.
///
/// # Examples
///
/// ```
/// use gomzelat::{stages::piece, Buffer, Transmission};
///
/// let sent = piece(2, 0, Transmission { qm: 2, nl: 1, g: 132, rv: 2 }, Buffer::Full)?;
/// assert_eq!((sent.buffer, sent.start, sent.bits), (192, 100, 132));
/// # Ok::<(), gomzelat::Error>(())
/// ```
pub fn piece(
    length: usize,
    r: usize,
    transmission: Transmission,
    buffer: Buffer,
) -> Result<Piece, Error> {
    let mut piece = Piece::default();
    // SAFETY: the reference is that of a structure of its own.
    done(unsafe { ffi::gomzelat_piece(length, r, transmission, buffer.n_ir(), &mut piece) })?;
    Ok(piece)
}

/// The E bits that code block `r` sends in a transmission, each 0 or 1.
///
/// # Errors
///
/// Those of [`piece`]; `NoMemory`.
///
/// # Examples
///
/// ```
/// use gomzelat::{stages::select, Buffer, Transmission};
///
/// let bits = select(&[0, 1], 0, Transmission { qm: 2, nl: 1, g: 8, rv: 1 }, Buffer::Full)?;
/// assert_eq!(bits, [0, 0, 1, 0, 0, 1, 0, 0]);
/// # Ok::<(), gomzelat::Error>(())
/// ```
pub fn select(
    payload: &[u8],
    r: usize,
    transmission: Transmission,
    buffer: Buffer,
) -> Result<Vec<u8>, Error> {
    let mut out = vec![0; piece(payload.len(), r, transmission, buffer)?.bits];
    // SAFETY: pointers and lengths are those of slices that are borrowed for the call, and only `out` is written to.
    done(unsafe {
        ffi::gomzelat_select(
            payload.as_ptr(),
            payload.len(),
            r,
            transmission,
            buffer.n_ir(),
            out.as_mut_ptr(),
            out.len(),
        )
    })?;
    Ok(out)
}

/// The 24 check bits of `bits`, where any byte but 0 is a 1.
///
/// # Errors
///
/// `NoMemory`.
///
/// # Examples
///
/// ```
/// use gomzelat::stages::{check_bits, Check};
///
/// let bits = check_bits(&[1], Check::Crc24B)?;
/// assert_eq!(bits[..2], [1, 0]);
/// # Ok::<(), gomzelat::Error>(())
/// ```
pub fn check_bits(bits: &[u8], check: Check) -> Result<[u8; 24], Error> {
    let mut out = [0; 24];
    let call = match check {
        Check::Crc24A => ffi::gomzelat_crc24a,
        Check::Crc24B => ffi::gomzelat_crc24b,
    };
    // SAFETY: pointers and lengths are those of slices that are borrowed for the call, and only `out` is written to.
    done(unsafe { call(bits.as_ptr(), bits.len(), out.as_mut_ptr(), out.len()) })?;
    Ok(out)
}

/// Decodes one code block of `k` bits, of which `fill` are fillers, from the 3 (K + 4) soft values of its coded
/// streams, in at most `windows` windows and `limit` iterations.
///
/// # Errors
///
/// `BadSize`, `BadFillers`, `BadWindows`, `BadLimit` or `BadValues` for invalid arguments, the first in this order;
/// `NoMemory`.
///
/// # Examples
///
/// ```
/// use gomzelat::stages::{decode_block, Check};
///
/// let told = decode_block(40, 0, Check::Crc24A, 8, 8, &[20; 132])?;
/// assert_eq!((told.bits, told.passed), (vec![0; 40], true));
/// # Ok::<(), gomzelat::Error>(())
/// ```
pub fn decode_block(
    k: usize,
    fill: usize,
    check: Check,
    windows: u32,
    limit: u32,
    values: &[i8],
) -> Result<DecodedBlock, Error> {
    let check = u32::from(check == Check::Crc24B);
    // A greater K is refused, with no need of room.
    let mut bits = vec![0; k.min(6144)];
    let mut result = ffi::Block::default();
    // SAFETY: pointers and lengths are those of slices that are borrowed for the call, and only `bits` and `result` are
    // written to.
    done(unsafe {
        ffi::gomzelat_decode_block(
            ffi::Code { k, fill, check },
            windows,
            limit,
            values.as_ptr(),
            values.len(),
            bits.as_mut_ptr(),
            bits.len(),
            &mut result,
        )
    })?;
    Ok(DecodedBlock {
        bits,
        passed: result.passed == 1,
        iterations: result.iterations,
    })
}
