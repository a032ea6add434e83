//! Packing and unpacking, held against the reference, buffers compared whole with guard bytes on both sides.

mod reference;
mod support;

use reference::packed_len;
use support::{same_pack, same_unpack, Guarded, Random, Tally};

fn cells(random: &mut Random, len: usize) -> Vec<u8> {
    (0..len).map(|_| random.byte() & 3).collect()
}

/// Packs and unpacks again; then unpacks every byte string's cells and packs again.
fn round_trip(random: &mut Random, len: usize) {
    let content = cells(random, len);
    let plain = Guarded::new(random, &content);
    let content = random.bytes(packed_len(len));
    let mut packed = Guarded::new(random, &content);
    assert_eq!(same_pack(&plain, &mut packed), (0, 0));
    let content = random.bytes(len);
    let mut back = Guarded::new(random, &content);
    assert_eq!(same_unpack(&packed, &mut back), 0);
    assert_eq!(back.inner(), plain.inner());

    // Any bytes at all, but for the unused bits of the last one.
    let mut content = random.bytes(packed_len(len));
    if len % 4 != 0 {
        *content.last_mut().unwrap() &= (1 << (2 * (len % 4))) - 1;
    }
    let packed = Guarded::new(random, &content);
    let mut plain = Guarded::new(random, &vec![9; len]);
    assert_eq!(same_unpack(&packed, &mut plain), 0);
    let mut again = Guarded::new(random, &vec![9; content.len()]);
    assert_eq!(same_pack(&plain, &mut again), (0, 0));
    assert_eq!(again.inner(), content);
}

/// All lengths from 0 to 300, and random ones up to 65,536.
#[test]
fn all_lengths() {
    let mut random = Random::new(40);
    for len in 0..=300 {
        for _ in 0..10 {
            round_trip(&mut random, len);
        }
    }
    for _ in 0..60 {
        let len = random.range(301, 65_536);
        round_trip(&mut random, len);
    }
    for len in [511, 512, 513, 65_532, 65_533, 65_534, 65_535, 65_536, 65_537, 100_000] {
        round_trip(&mut random, len);
    }
}

/// Lengths that don't match, either way, also where cells or bits are bad too: 61 speaks.
#[test]
fn wrong_lengths() {
    let mut random = Random::new(41);
    for cells in 0..=40 {
        for bytes in 0..=14 {
            let right = bytes == packed_len(cells);
            let plain = Guarded::new(&mut random, &vec![if right { 2 } else { 4 }; cells]);
            let mut packed = Guarded::new(&mut random, &vec![0xff; bytes]);
            assert_eq!(same_pack(&plain, &mut packed), (if right { 0 } else { 61 }, 0));

            let packed = Guarded::new(&mut random, &vec![if right { 0 } else { 0xff }; bytes]);
            let mut plain = Guarded::new(&mut random, &vec![9; cells]);
            assert_eq!(same_unpack(&packed, &mut plain), if right { 0 } else { 61 });
        }
    }
    for (cells, bytes) in [(65_536, 16_383), (65_536, 16_385), (65_536, 65_536), (16_384, 65_536), (1, 65_537)] {
        let mut plain = Guarded::new(&mut random, &vec![0; cells]);
        let mut packed = Guarded::new(&mut random, &vec![0; bytes]);
        assert_eq!(same_pack(&plain, &mut packed), (61, 0));
        assert_eq!(same_unpack(&packed, &mut plain), 61);
    }
}

/// A cell above 3 at every place; then several, of which the first is named. No byte is written then.
#[test]
fn cells_above_three() {
    let mut random = Random::new(42);
    for len in (1..=40).chain([255, 256, 257, 1_023]) {
        for place in 0..len {
            let mut content = cells(&mut random, len);
            content[place] = random.pick(&[4, 5, 8, 16, 64, 127, 128, 252, 255]);
            for later in &mut content[place + 1..] {
                if random.once_in(10) {
                    *later = random.byte();
                }
            }
            let plain = Guarded::new(&mut random, &content);
            let mut packed = Guarded::new(&mut random, &vec![0x5a; packed_len(len)]);
            assert_eq!(same_pack(&plain, &mut packed), (60, place));
            assert!(packed.inner().iter().all(|&byte| byte == 0x5a));
        }
    }
    for value in 0..=255 {
        for slot in 0..4 {
            let mut content = [1; 4];
            content[slot] = value;
            let plain = Guarded::new(&mut random, &content);
            let mut packed = Guarded::new(&mut random, &[0]);
            let expected = if value > 3 { (60, slot) } else { (0, 0) };
            assert_eq!(same_pack(&plain, &mut packed), expected);
        }
    }
    // Places that do not fit 16 bits.
    for place in [65_534, 65_535, 65_536, 99_999] {
        let mut content = vec![3; 100_000];
        content[place] = 4;
        let plain = Guarded::new(&mut random, &content);
        let mut packed = Guarded::new(&mut random, &vec![0; 25_000]);
        assert_eq!(same_pack(&plain, &mut packed), (60, place));
    }
}

/// Every last byte for every number of cells in it.
#[test]
fn unused_bits() {
    let mut random = Random::new(43);
    let mut tally = Tally::default();
    for len in (1..=12).chain([253, 254, 255, 256]) {
        for last in 0..=255 {
            let mut content = random.bytes(packed_len(len));
            *content.last_mut().unwrap() = last;
            let packed = Guarded::new(&mut random, &content);
            let mut plain = Guarded::new(&mut random, &vec![9; len]);
            let number = same_unpack(&packed, &mut plain);
            tally.add(number);
            if number != 0 {
                assert!(plain.inner().iter().all(|&cell| cell == 9));
            }
        }
    }
    tally.met(&[0, 62], 500);
}

/// The owning forms.
#[test]
fn owned() {
    use housechervil::{pack, unpack, PackError, UnpackError};
    let mut random = Random::new(44);
    for len in 0..100 {
        let plain = cells(&mut random, len);
        let packed = pack(&plain).unwrap();
        assert_eq!((packed.len(), housechervil::packed_len(len)), (packed_len(len), packed_len(len)));
        assert_eq!(unpack(&packed, len), Ok(plain));
    }
    assert_eq!(pack(&[0, 1, 4, 5]), Err(PackError::Cell { place: 2 }));
    assert_eq!(unpack(&[4], 1), Err(UnpackError::UnusedBits));
    assert_eq!(unpack(&[4], 5), Err(UnpackError::Lengths));
    assert_eq!(unpack(&[4], usize::MAX), Err(UnpackError::Lengths));
}
