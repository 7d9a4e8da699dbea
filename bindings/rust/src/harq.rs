//! HARQ combining: reception one transmission at a time.

use crate::error::done;
use crate::types::{Receiver, Transmission};
use crate::{ffi, Error};

/// The state of a transport block between its transmissions: soft buffer, and the results of its code blocks.
///
/// # Examples
///
/// ```
/// use gomzelat::{codeword, noisy, Buffer, Channel, Harq, Receiver, Transmission};
///
/// let receiver = Receiver { buffer: Buffer::Full, windows: 8, limit: 8 };
/// let channel = Channel { seed: 1, amp: 40, noise: 10 };
/// let mut harq = Harq::new(2, receiver)?;
/// for (number, rv) in (0..).zip([0, 2, 3, 1]) {
///     let sent = Transmission { qm: 2, nl: 1, g: 60, rv };
///     let values = noisy(&codeword(&[0, 1], sent, Buffer::Full)?, 60, channel, 0, number)?;
///     harq.combine(sent, &values)?;
///     if harq.decode()?.delivered {
///         break;
///     }
/// }
/// assert_eq!(harq.decode()?.payload, [0, 1]);
/// # Ok::<(), gomzelat::Error>(())
/// ```
#[derive(Clone, Debug)]
pub struct Harq {
    length: usize,
    receiver: Receiver,
    cells: Vec<i8>,
    blocks: Vec<ffi::Block>,
    bits: Vec<u8>,
    payload: Vec<u8>,
}

/// The result of a decoding attempt. [`Harq::decode`] has an example.
#[derive(Clone, Copy, Debug, PartialEq, Eq)]
pub struct Try<'a> {
    /// Whether the checks of all code blocks and of the transport block hold.
    pub delivered: bool,
    /// The bytes that the code blocks carry, whether or not their checks hold.
    pub payload: &'a [u8],
    /// The decided bits of all code blocks, one block after the other, each 0 or 1.
    pub bits: &'a [u8],
    /// The iterations of all code blocks, of each one's last decoding.
    pub iterations: usize,
    /// The code blocks whose checks don't hold.
    pub failed_blocks: usize,
}

impl Harq {
    /// The state for a transport block of `length` bytes, 1 to 18,722, with nothing received.
    ///
    /// # Errors
    ///
    /// `BadLength`.
    ///
    /// # Examples
    ///
    /// ```
    /// use gomzelat::{Buffer, Harq, Receiver};
    ///
    /// let receiver = Receiver { buffer: Buffer::Full, windows: 8, limit: 8 };
    /// assert!(Harq::new(18_722, receiver).is_ok());
    /// assert_eq!(Harq::new(0, receiver).err(), Some(gomzelat::Error::BadLength));
    /// # Ok::<(), gomzelat::Error>(())
    /// ```
    pub fn new(length: usize, receiver: Receiver) -> Result<Harq, Error> {
        let mut sizes = ffi::Sizes::default();
        // SAFETY: the reference is that of a structure of its own.
        done(unsafe { ffi::gomzelat_sizes(length, &mut sizes) })?;
        Ok(Harq {
            length,
            receiver,
            cells: vec![0; sizes.cells],
            blocks: vec![ffi::Block::default(); sizes.blocks],
            bits: vec![0; sizes.bits],
            payload: vec![0; length],
        })
    }

    /// Adds the G soft values of one transmission.
    ///
    /// # Errors
    ///
    /// `BadQm`, `BadNl`, `BadG`, `BadVersion`, `BadBuffer` or `BadValues` for invalid arguments, the first in this
    /// order; `NoMemory`. On error nothing is added.
    ///
    /// # Examples
    ///
    /// ```
    /// use gomzelat::{Buffer, Harq, Receiver, Transmission};
    ///
    /// let receiver = Receiver { buffer: Buffer::Full, windows: 8, limit: 8 };
    /// let mut harq = Harq::new(2, receiver)?;
    /// harq.combine(Transmission { qm: 2, nl: 1, g: 4, rv: 0 }, &[40, 40, -40, 40])?;
    /// # Ok::<(), gomzelat::Error>(())
    /// ```
    pub fn combine(&mut self, transmission: Transmission, values: &[i8]) -> Result<(), Error> {
        // SAFETY: pointers and lengths are those of slices that are borrowed for the call, and only `cells` is written
        // to.
        done(unsafe {
            ffi::gomzelat_combine(
                self.length,
                transmission,
                self.receiver.buffer.n_ir(),
                values.as_ptr(),
                values.len(),
                self.cells.as_mut_ptr(),
                self.cells.len(),
            )
        })
    }

    /// Decodes the code blocks that haven't passed; if all have, all of them again.
    ///
    /// # Errors
    ///
    /// `BadBuffer`, `BadWindows` or `BadLimit` for invalid arguments, the first in this order; `NoMemory`.
    ///
    /// # Examples
    ///
    /// ```
    /// use gomzelat::{Buffer, Harq, Receiver, Transmission};
    ///
    /// let receiver = Receiver { buffer: Buffer::Full, windows: 8, limit: 8 };
    /// let mut harq = Harq::new(2, receiver)?;
    /// harq.combine(Transmission { qm: 2, nl: 1, g: 132, rv: 0 }, &[-9; 132])?;
    /// let now = harq.decode()?;
    /// assert_eq!((now.delivered, now.failed_blocks, now.iterations), (false, 1, 8));
    /// # Ok::<(), gomzelat::Error>(())
    /// ```
    pub fn decode(&mut self) -> Result<Try<'_>, Error> {
        let mut delivered = 0;
        // SAFETY: pointers and lengths are those of slices that are borrowed for the call, none of which overlaps
        // another one.
        done(unsafe {
            ffi::gomzelat_decode(
                self.length,
                ffi::Receiver::from(self.receiver),
                self.cells.as_ptr(),
                self.cells.len(),
                self.blocks.as_mut_ptr(),
                self.blocks.len(),
                self.bits.as_mut_ptr(),
                self.bits.len(),
                self.payload.as_mut_ptr(),
                self.payload.len(),
                &mut delivered,
            )
        })?;
        Ok(Try {
            delivered: delivered == 1,
            payload: &self.payload,
            bits: &self.bits,
            iterations: self.blocks.iter().map(|block| block.iterations).sum(),
            failed_blocks: self.blocks.iter().filter(|block| block.passed == 0).count(),
        })
    }
}
