//! The calls against worked values, and each refusal by its name.

use gomzelat::{codeword, noisy, plan, receive, trial_payload};
use gomzelat::{Buffer, Channel, Error, Harq, Outcome, Plan, Receiver, Transmission};
use std::num::NonZeroU32;

const SENT: [u8; 2] = [0x00, 0x01];

/// The codeword of `SENT` in `GOOD`, over a full buffer.
const CODEWORD: [u8; 17] = [
    0x34, 0x94, 0x86, 0x1B, 0x12, 0x04, 0x70, 0xC3, 0x79, 0x90, 0x10, 0x15, 0x04, 0x2D, 0x49, 0x88,
    0x90,
];

const GOOD: Transmission = Transmission {
    qm: 2,
    nl: 1,
    g: 132,
    rv: 0,
};

const RECEIVER: Receiver = Receiver {
    buffer: Buffer::Full,
    windows: 8,
    limit: 8,
};

const CHANNEL: Channel = Channel {
    seed: 5,
    amp: 40,
    noise: 20,
};

/// Transmissions with one bad number, and its error.
const BAD: [(Transmission, Error); 8] = [
    (Transmission { qm: 3, ..GOOD }, Error::BadQm),
    (
        Transmission {
            qm: 258,
            nl: 9,
            ..GOOD
        },
        Error::BadQm,
    ),
    (Transmission { nl: 0, ..GOOD }, Error::BadNl),
    (
        Transmission {
            nl: 257,
            g: 0,
            ..GOOD
        },
        Error::BadNl,
    ),
    (Transmission { g: 133, ..GOOD }, Error::BadG),
    (
        Transmission {
            g: u32::MAX - 1,
            rv: 9,
            ..GOOD
        },
        Error::BadG,
    ),
    (Transmission { rv: 4, ..GOOD }, Error::BadVersion),
    (Transmission { rv: 256, ..GOOD }, Error::BadVersion),
];

fn limited(n_ir: u32) -> Buffer {
    Buffer::Limited(NonZeroU32::new(n_ir).expect("not 0"))
}

fn strong(bits: &[u8], count: usize) -> Vec<i8> {
    (0..count)
        .map(|i| {
            if bits[i / 8] >> (7 - i % 8) & 1 == 1 {
                -127
            } else {
                127
            }
        })
        .collect()
}

#[test]
fn a_codeword_is_the_worked_one() {
    assert_eq!(
        codeword(&SENT, GOOD, Buffer::Full).as_deref(),
        Ok(&CODEWORD[..])
    );
    // A buffer that holds all is as a full one.
    assert_eq!(
        codeword(&SENT, GOOD, limited(u32::MAX)).as_deref(),
        Ok(&CODEWORD[..])
    );
    assert!(matches!(codeword(&SENT, GOOD, limited(64)), Ok(bits) if bits != CODEWORD));
    for (rv, byte) in [(1, 0x24), (2, 0xE6), (3, 0x10)] {
        let transmission = Transmission { g: 8, rv, ..GOOD };
        assert_eq!(codeword(&SENT, transmission, Buffer::Full), Ok(vec![byte]));
    }
}

#[test]
fn what_is_refused_of_a_codeword_is_named() {
    assert_eq!(codeword(&[], GOOD, Buffer::Full), Err(Error::BadLength));
    assert_eq!(
        codeword(&[0; 18_723], GOOD, Buffer::Full),
        Err(Error::BadLength)
    );
    for (transmission, error) in BAD {
        assert_eq!(
            codeword(&SENT, transmission, limited(1)),
            Err(error),
            "{transmission:?}"
        );
    }
    assert_eq!(codeword(&SENT, GOOD, limited(63)), Err(Error::BadBuffer));
}

#[test]
fn plans_are_those_of_the_standard() {
    let one = Plan {
        c: 1,
        k_plus: 40,
        k_minus: 0,
        c_plus: 1,
        c_minus: 0,
        f: 8,
    };
    let many = Plan {
        c: 13,
        k_plus: 5824,
        k_minus: 5760,
        c_plus: 13,
        c_minus: 0,
        f: 0,
    };
    assert_eq!(plan(1), Ok(one));
    assert_eq!(plan(9422), Ok(many));
    for length in [0, 18_723, usize::MAX] {
        assert_eq!(plan(length), Err(Error::BadLength));
    }
}

#[test]
fn what_was_sent_is_received() {
    let values = strong(&CODEWORD, 132);
    match receive(2, &[GOOD], RECEIVER, &values) {
        Ok(Outcome::Delivered {
            payload,
            transmissions: 1,
            ..
        }) => assert_eq!(payload, SENT),
        other => panic!("there is no noise: {other:?}"),
    }
    let failed = receive(2, &[GOOD; 2], RECEIVER, &[-1; 264]);
    assert!(
        matches!(
            failed,
            Ok(Outcome::Failed {
                transmissions: 2,
                ..
            })
        ),
        "{failed:?}"
    );
}

#[test]
fn what_is_refused_of_a_reception_is_named() {
    let of = |receiver: Receiver, values: &[i8]| receive(2, &[GOOD], receiver, values);
    assert_eq!(receive(0, &[], RECEIVER, &[]), Err(Error::BadLength));
    assert_eq!(
        receive(usize::MAX, &[], RECEIVER, &[]),
        Err(Error::BadLength)
    );
    assert_eq!(receive(2, &[], RECEIVER, &[]), Err(Error::BadCount));
    assert_eq!(
        receive(2, &[GOOD; 9], RECEIVER, &[0; 9 * 132]),
        Err(Error::BadCount)
    );
    for (transmission, error) in BAD {
        assert_eq!(
            receive(2, &[GOOD, transmission], RECEIVER, &[]),
            Err(error),
            "{transmission:?}"
        );
    }
    assert_eq!(
        of(
            Receiver {
                buffer: limited(63),
                ..RECEIVER
            },
            &[0; 132]
        ),
        Err(Error::BadBuffer)
    );
    assert_eq!(
        of(
            Receiver {
                windows: 65,
                limit: 0,
                ..RECEIVER
            },
            &[0; 132]
        ),
        Err(Error::BadWindows)
    );
    assert_eq!(
        of(
            Receiver {
                limit: 17,
                ..RECEIVER
            },
            &[]
        ),
        Err(Error::BadLimit)
    );
    assert_eq!(of(RECEIVER, &[0; 131]), Err(Error::BadValues));
    assert_eq!(of(RECEIVER, &[]), Err(Error::BadValues));
}

#[test]
fn noise_and_payloads_are_the_worked_ones() {
    let zeros = [
        16, 62, 52, 20, 50, 53, 27, 67, 16, 37, 42, 30, 17, 75, 58, 43, 34, 54,
    ];
    assert_eq!(noisy(&[0; 3], 18, CHANNEL, 0, 0).as_deref(), Ok(&zeros[..]));
    assert_eq!(
        trial_payload(8, 1, 0),
        Ok(vec![0xA5, 0x55, 0x5A, 0x93, 0x41, 0x03, 0x79, 0x52])
    );
    assert_eq!(noisy(&[], 0, CHANNEL, 0, 0), Ok(vec![]));
}

#[test]
fn what_is_refused_of_a_channel_is_named() {
    assert_eq!(noisy(&[0; 2], 17, CHANNEL, 0, 0), Err(Error::BadBits));
    assert_eq!(noisy(&[], usize::MAX, CHANNEL, 0, 0), Err(Error::BadBits));
    assert_eq!(
        noisy(&[0], 8, Channel { amp: 0, ..CHANNEL }, 0, 9),
        Err(Error::BadAmp)
    );
    assert_eq!(
        noisy(
            &[0],
            8,
            Channel {
                noise: 128,
                ..CHANNEL
            },
            0,
            9
        ),
        Err(Error::BadNoise)
    );
    assert_eq!(noisy(&[0], 8, CHANNEL, 0, 8), Err(Error::BadNumber));
    assert_eq!(trial_payload(0, 1, 0), Err(Error::BadLength));
    assert_eq!(trial_payload(usize::MAX, 1, 0), Err(Error::BadLength));
}

#[test]
fn call_by_call_a_block_comes_to_what_it_comes_to_at_once() {
    let mut harq = Harq::new(2, RECEIVER).expect("a length that isn't refused");
    let second = Transmission { rv: 2, ..GOOD };
    let values = strong(&CODEWORD, 132);
    harq.combine(GOOD, &[-1; 132]).expect("all is right");
    assert!(!harq.decode().expect("all is right").delivered);
    assert_eq!(harq.combine(second, &[1; 131]), Err(Error::BadValues));
    harq.combine(GOOD, &values).expect("all is right");
    let now = harq.decode().expect("all is right");
    assert!(now.delivered && now.failed_blocks == 0 && now.bits.len() == 40);
    assert_eq!(now.payload, SENT);
    let both = [vec![-1; 132], values].concat();
    let at_once = receive(2, &[GOOD; 2], RECEIVER, &both);
    assert_eq!(
        at_once,
        Ok(Outcome::Delivered {
            payload: SENT.to_vec(),
            transmissions: 2,
            iterations: now.iterations
        })
    );
}

#[test]
fn what_is_refused_call_by_call_is_named() {
    assert!(matches!(Harq::new(0, RECEIVER), Err(Error::BadLength)));
    for (transmission, error) in BAD {
        let mut harq = Harq::new(2, RECEIVER).expect("a length that isn't refused");
        assert_eq!(harq.combine(transmission, &[]), Err(error));
    }
    for (receiver, error) in [
        (
            Receiver {
                buffer: limited(63),
                ..RECEIVER
            },
            Error::BadBuffer,
        ),
        (
            Receiver {
                windows: 0,
                ..RECEIVER
            },
            Error::BadWindows,
        ),
        (
            Receiver {
                limit: 17,
                ..RECEIVER
            },
            Error::BadLimit,
        ),
    ] {
        let mut harq = Harq::new(2, receiver).expect("a length that isn't refused");
        assert_eq!(harq.decode().err(), Some(error));
    }
}
