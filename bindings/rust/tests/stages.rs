//! Stages, scrambling and points against each other and against worked values, and each refusal by its name.

use gomzelat::signals::{demap, descramble, map, scramble, scrambling_init, Point, Scrambling};
use gomzelat::stages::{
    check_bits, code_block, decode_block, piece, select, spots, streams, Check,
};
use gomzelat::{codeword, codewords, version, Buffer, Error, Transmission};

const SENT: [u8; 2] = [0x00, 0x01];
const GOOD: Transmission = Transmission {
    qm: 2,
    nl: 1,
    g: 132,
    rv: 0,
};
const SCRAMBLING: Scrambling = Scrambling {
    rnti: 9,
    q: 1,
    slot: 3,
    cell: 5,
};

fn packed(bits: &[u8]) -> Vec<u8> {
    let byte = |eight: &[u8]| (0..8).fold(0, |sum, i| sum << 1 | eight.get(i).unwrap_or(&0));
    bits.chunks(8).map(byte).collect()
}

#[test]
fn the_stages_of_a_block_lead_to_its_codeword() {
    let bits = code_block(&SENT, 0).expect("all is right");
    // 16 bits of the payload and 24 of its check fill the smallest block.
    assert_eq!(packed(&bits[..16]), SENT);
    let check = check_bits(&bits[..16], Check::Crc24A).expect("all is right");
    assert_eq!(bits[16..], check);
    assert_eq!(check_bits(&bits, Check::Crc24A), Ok([0; 24]));
    assert_ne!(check_bits(&bits[..16], Check::Crc24B), Ok(check));

    let coded = streams(&SENT, 0).expect("all is right");
    let places = spots(2, 0).expect("all is right");
    let cut = piece(2, 0, GOOD, Buffer::Full).expect("all is right");
    assert_eq!(
        (cut.k, cut.fill, cut.buffer, cut.places, cut.bits),
        (40, 0, 192, 192, 132)
    );
    assert_eq!(
        coded[0][..40],
        bits.iter().map(|&bit| Some(bit)).collect::<Vec<_>>()
    );
    let around = (0..cut.places).map(|i| places[(cut.start + i) % cut.places]);
    let sent: Vec<u8> = around
        .flatten()
        .filter_map(|(stream, index)| coded[usize::from(stream)][usize::from(index)])
        .collect();
    assert_eq!(select(&SENT, 0, GOOD, Buffer::Full), Ok(sent.clone()));
    assert_eq!(codeword(&SENT, GOOD, Buffer::Full), Ok(packed(&sent)));
    let second = Transmission {
        g: 8,
        rv: 2,
        ..GOOD
    };
    let both = codewords(&SENT, &[GOOD, second], Buffer::Full);
    assert_eq!(both, Ok(vec![packed(&sent), vec![0xE6]]));
    assert_eq!(version(), 2);
}

#[test]
fn a_block_is_decoded_by_itself() {
    let coded = streams(&SENT, 0).expect("all is right");
    let value = |cell: &Option<u8>| cell.map_or(0, |bit| if bit == 1 { -100 } else { 100 });
    let values: Vec<i8> = coded.iter().flatten().map(value).collect();
    let decoded = decode_block(40, 0, Check::Crc24A, 8, 4, &values).expect("all is right");
    assert_eq!(Ok(decoded.bits), code_block(&SENT, 0));
    assert!(decoded.passed);
    let other = decode_block(40, 0, Check::Crc24B, 8, 4, &values).expect("all is right");
    assert_eq!((other.passed, other.iterations), (false, 4));
}

#[test]
fn scrambling_is_turned_back_and_points_say_their_bits() {
    assert_eq!(scrambling_init(SCRAMBLING), Ok(9 * 16384 + 8192 + 512 + 5));
    let mut bits = [0x34, 0x94, 0x86];
    scramble(&mut bits, 24, SCRAMBLING).expect("all is right");
    for qm in [2, 4, 6] {
        let points = map(&bits, 24, qm).expect("all is right");
        let received: Vec<Point> = points
            .iter()
            .map(|it| Point {
                i: 20 * it.i,
                q: 20 * it.q,
            })
            .collect();
        let mut values = demap(&received, qm, 20).expect("all is right");
        descramble(&mut values, SCRAMBLING).expect("all is right");
        let decided: Vec<u8> = values.iter().map(|&value| u8::from(value < 0)).collect();
        assert_eq!(packed(&decided), [0x34, 0x94, 0x86]);
    }
    scramble(&mut bits, 24, SCRAMBLING).expect("all is right");
    assert_eq!(bits, [0x34, 0x94, 0x86]);
}

#[test]
fn what_is_refused_is_named() {
    assert_eq!(code_block(&[], 0), Err(Error::BadLength));
    assert_eq!(code_block(&SENT, 1), Err(Error::BadBlock));
    assert_eq!(streams(&SENT, usize::MAX), Err(Error::BadBlock));
    assert_eq!(spots(18_723, 0), Err(Error::BadLength));
    assert_eq!(piece(2, 1, GOOD, Buffer::Full), Err(Error::BadBlock));
    assert_eq!(
        select(&SENT, 0, Transmission { rv: 4, ..GOOD }, Buffer::Full),
        Err(Error::BadVersion)
    );
    assert_eq!(codewords(&SENT, &[], Buffer::Full), Err(Error::BadCount));
    assert_eq!(
        codewords(&SENT, &[GOOD; 9], Buffer::Full),
        Err(Error::BadCount)
    );
    let decode = |k, fill, windows, limit, amount| {
        decode_block(k, fill, Check::Crc24A, windows, limit, &vec![0; amount]).err()
    };
    assert_eq!(decode(usize::MAX, 0, 8, 8, 0), Some(Error::BadSize));
    assert_eq!(decode(40, 40, 8, 8, 0), Some(Error::BadFillers));
    assert_eq!(decode(40, 0, 0, 8, 0), Some(Error::BadWindows));
    assert_eq!(decode(40, 0, 8, 17, 0), Some(Error::BadLimit));
    assert_eq!(decode(40, 0, 8, 8, 131), Some(Error::BadValues));
    assert_eq!(scramble(&mut [0], 9, SCRAMBLING), Err(Error::BadBits));
    let far = Scrambling {
        cell: 504,
        ..SCRAMBLING
    };
    assert_eq!(scrambling_init(far), Err(Error::BadScrambling));
    assert_eq!(descramble(&mut [0], far), Err(Error::BadScrambling));
    assert_eq!(map(&[0], 4, 3), Err(Error::BadQm));
    assert_eq!(map(&[0], 9, 2), Err(Error::BadBits));
    assert_eq!(map(&[0], 3, 2), Err(Error::BadPoints));
    assert_eq!(demap(&[Point { i: 4001, q: 0 }], 2, 0), Err(Error::BadAmp));
    assert_eq!(
        demap(&[Point { i: 4001, q: 0 }], 2, 1),
        Err(Error::BadPoints)
    );
}
