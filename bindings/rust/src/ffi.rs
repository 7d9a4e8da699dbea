//! The library's calls, as the header declares them.

use crate::signals::{Point, Scrambling};
use crate::stages::Piece;
use crate::types::{self, Channel, Plan, Transmission};

#[repr(C)]
pub struct Receiver {
    n_ir: u32,
    windows: u32,
    limit: u32,
}

impl From<types::Receiver> for Receiver {
    fn from(receiver: types::Receiver) -> Receiver {
        Receiver {
            n_ir: receiver.buffer.n_ir(),
            windows: receiver.windows,
            limit: receiver.limit,
        }
    }
}

#[repr(C)]
#[derive(Default)]
pub struct Outcome {
    pub delivered: u32,
    pub transmissions: usize,
    pub iterations: usize,
}

#[repr(C)]
#[derive(Default)]
pub struct Sizes {
    pub cells: usize,
    pub blocks: usize,
    pub bits: usize,
}

/// The result of a code block. The library takes any number but 0 as passed.
#[repr(C)]
#[derive(Clone, Copy, Debug, Default)]
pub struct Block {
    pub passed: u32,
    pub iterations: usize,
}

#[repr(C)]
pub struct Code {
    pub k: usize,
    pub fill: usize,
    pub check: u32,
}

extern "C" {
    pub fn gomzelat_codeword(
        payload: *const u8,
        length: usize,
        transmission: Transmission,
        n_ir: u32,
        out: *mut u8,
        room: usize,
    ) -> u32;

    pub fn gomzelat_plan(length: usize, plan: &mut Plan) -> u32;

    pub fn gomzelat_receive(
        length: usize,
        transmissions: *const Transmission,
        count: usize,
        receiver: Receiver,
        values: *const i8,
        amount: usize,
        payload: *mut u8,
        room: usize,
        outcome: &mut Outcome,
    ) -> u32;

    pub fn gomzelat_sizes(length: usize, sizes: &mut Sizes) -> u32;

    pub fn gomzelat_combine(
        length: usize,
        transmission: Transmission,
        n_ir: u32,
        values: *const i8,
        amount: usize,
        cells: *mut i8,
        room: usize,
    ) -> u32;

    pub fn gomzelat_decode(
        length: usize,
        receiver: Receiver,
        cells: *const i8,
        amount: usize,
        blocks: *mut Block,
        count: usize,
        bits: *mut u8,
        extent: usize,
        payload: *mut u8,
        room: usize,
        delivered: &mut u32,
    ) -> u32;

    pub fn gomzelat_noisy(
        bits: *const u8,
        length: usize,
        count: usize,
        channel: Channel,
        block: u32,
        number: u32,
        out: *mut i8,
        room: usize,
    ) -> u32;

    pub fn gomzelat_trial_payload(seed: u64, block: u32, out: *mut u8, length: usize) -> u32;

    pub fn gomzelat_codewords(
        payload: *const u8,
        length: usize,
        transmissions: *const Transmission,
        count: usize,
        n_ir: u32,
        out: *mut u8,
        room: usize,
    ) -> u32;

    pub fn gomzelat_code_block(
        payload: *const u8,
        length: usize,
        r: usize,
        out: *mut u8,
        room: usize,
    ) -> u32;

    pub fn gomzelat_streams(
        payload: *const u8,
        length: usize,
        r: usize,
        out: *mut u8,
        room: usize,
    ) -> u32;

    pub fn gomzelat_spots(length: usize, r: usize, out: *mut u32, room: usize) -> u32;

    pub fn gomzelat_piece(
        length: usize,
        r: usize,
        transmission: Transmission,
        n_ir: u32,
        piece: &mut Piece,
    ) -> u32;

    pub fn gomzelat_select(
        payload: *const u8,
        length: usize,
        r: usize,
        transmission: Transmission,
        n_ir: u32,
        out: *mut u8,
        room: usize,
    ) -> u32;

    pub fn gomzelat_crc24a(bits: *const u8, count: usize, out: *mut u8, room: usize) -> u32;

    pub fn gomzelat_crc24b(bits: *const u8, count: usize, out: *mut u8, room: usize) -> u32;

    pub fn gomzelat_decode_block(
        block: Code,
        windows: u32,
        limit: u32,
        values: *const i8,
        amount: usize,
        bits: *mut u8,
        room: usize,
        result: &mut Block,
    ) -> u32;

    pub fn gomzelat_init(scrambling: Scrambling, init: &mut u32) -> u32;

    pub fn gomzelat_scramble(
        bits: *mut u8,
        length: usize,
        count: usize,
        scrambling: Scrambling,
    ) -> u32;

    pub fn gomzelat_descramble(values: *mut i8, amount: usize, scrambling: Scrambling) -> u32;

    pub fn gomzelat_map(
        bits: *const u8,
        length: usize,
        count: usize,
        qm: u32,
        points: *mut Point,
        room: usize,
    ) -> u32;

    pub fn gomzelat_demap(
        points: *const Point,
        count: usize,
        qm: u32,
        amp: u32,
        out: *mut i8,
        room: usize,
    ) -> u32;

    pub fn gomzelat_version() -> u32;
}
