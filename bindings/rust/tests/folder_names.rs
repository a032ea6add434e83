//! The name to show for a folder, held against the reference: the edges by their names, then all short texts, long and damaged ones.

mod reference;
mod support;

use housechervil::{folder_name, FolderNo};
use reference::{Stretch, Text};
use support::{same_name, sys, Guarded, Random, Tally};

// ---------------------------------------------------------------- the edges

/// This is the name, by both ways into the library and by the reference.
#[track_caller]
fn shows(client: &[u8], house: &[u8], folder: u16, name: Option<&[u8]>) {
    same_name(client, house, folder);
    assert_eq!(folder_name(client, house, FolderNo(folder)), name);
}

const HOUSE: &[u8] = b"shelf\nloans\nmerger\nwells\n";

#[test]
fn the_clients_line_comes_before_the_houses() {
    shows(b"ours\nours too\n", HOUSE, 0, Some(b"ours"));
    shows(b"ours\nours too\n", HOUSE, 1, Some(b"ours too"));
}

#[test]
fn an_empty_line_of_the_client_falls_back_to_the_house() {
    shows(b"\n\nours\n", HOUSE, 0, Some(b"shelf"));
    shows(b"\n\nours\n", HOUSE, 1, Some(b"loans"));
    shows(b"\n\nours\n", HOUSE, 2, Some(b"ours"));
}

#[test]
fn a_clients_text_that_is_too_short_falls_back_to_the_house() {
    shows(b"ours\n", HOUSE, 1, Some(b"loans"));
    shows(b"ours", HOUSE, 1, Some(b"loans"));
    shows(b"", HOUSE, 3, Some(b"wells"));
}

#[test]
fn a_last_line_without_byte_10_counts() {
    shows(b"ours", HOUSE, 0, Some(b"ours"));
    shows(b"\n\nours", HOUSE, 2, Some(b"ours"));
    shows(b"", b"shelf\nloans", 1, Some(b"loans"));
}

#[test]
fn a_last_byte_10_begins_no_name() {
    shows(b"", HOUSE, 4, None);
    shows(b"a\n", b"", 1, None);
}

#[test]
fn folders_past_both_texts_are_none() {
    for folder in [4, 5, 511, 512, 65_535] {
        shows(b"ours\nours too\n", HOUSE, folder, None);
    }
}

#[test]
fn an_empty_line_in_both_is_none() {
    shows(b"a\n\nc\n", b"d\n\nf\n", 1, None);
    shows(b"a\n", b"d\n\nf\n", 1, None);
}

#[test]
fn the_house_does_not_cover_for_another_folder() {
    shows(b"\n", b"\n\nmerger\n", 1, None);
    shows(b"ours\n", b"", 1, None);
}

#[test]
fn carriage_returns_and_blanks_are_ordinary_bytes() {
    shows(b" \n\t\n\r\n\0\n", HOUSE, 0, Some(b" "));
    shows(b" \n\t\n\r\n\0\n", HOUSE, 1, Some(b"\t"));
    shows(b" \n\t\n\r\n\0\n", HOUSE, 2, Some(b"\r"));
    shows(b" \n\t\n\r\n\0\n", HOUSE, 3, Some(b"\0"));
    shows(b" ours \r\n", HOUSE, 0, Some(b" ours \r"));
    shows(b"one\rline\r", HOUSE, 1, Some(b"loans"));
}

#[test]
fn every_byte_but_10_may_stand_in_a_name() {
    for byte in (0..=255).filter(|&byte| byte != 10) {
        shows(&[byte], &[], 0, Some(&[byte]));
        shows(&[], &[10, byte, byte, 10], 1, Some(&[byte, byte]));
    }
}

#[test]
fn both_texts_empty() {
    for folder in [0, 1, 65_535] {
        shows(b"", b"", folder, None);
    }
}

#[test]
fn a_text_of_byte_10_alone() {
    for folder in [0, 1, 2, 65_535] {
        shows(b"\n", b"", folder, None);
        shows(b"", b"\n", folder, None);
        shows(b"\n", b"\n", folder, None);
    }
    shows(b"\n", HOUSE, 0, Some(b"shelf"));
    shows(b"\n", HOUSE, 1, Some(b"loans"));
}

#[test]
fn folder_65_535() {
    let mut text = vec![10; 65_535];
    shows(&text, &text, 65_535, None);
    text.push(b'z');
    shows(&text, HOUSE, 65_535, Some(b"z"));
    shows(HOUSE, &text, 65_535, Some(b"z"));
    shows(&text, HOUSE, 65_534, None);
}

/// Line numbers do not start again after 65,535.
#[test]
fn lines_past_65_535_are_of_no_folder() {
    let mut text = vec![10; 65_536];
    text.extend(b"past\npast too\n");
    for folder in [0, 1, 65_534, 65_535] {
        shows(&text, b"", folder, None);
        shows(b"", &text, folder, None);
    }
}

// ---------------------------------------------------------------- all short texts

/// All texts of at most `longest` bytes out of `alphabet`.
fn all_texts(alphabet: &[u8], longest: usize) -> Vec<Vec<u8>> {
    let mut texts = vec![vec![]];
    let mut from = 0;
    for _ in 0..longest {
        let shorter = texts[from..].to_vec();
        from = texts.len();
        texts.extend(shorter.iter().flat_map(|text| alphabet.iter().map(|&byte| [&text[..], &[byte]].concat())));
    }
    texts
}

#[test]
fn all_pairs_of_short_texts() {
    let texts = all_texts(&[10, 13, b'a'], 4);
    assert_eq!(texts.len(), 1 + 3 + 9 + 27 + 81);
    let mut tally = Tally::default();
    for client in &texts {
        for house in &texts {
            for folder in (0..=6).chain([65_535]) {
                tally.add(seen(same_name(client, house, folder)));
            }
        }
    }
    tally.met(&[0, 1, 81], 8_000);
}

/// 0 for a name of the client's, 1 for one of the house's, 81 for none.
fn seen(name: Option<Stretch>) -> u16 {
    match name.map(|name| name.text) {
        Some(Text::Client) => 0,
        Some(Text::House) => 1,
        None => 81,
    }
}

// ---------------------------------------------------------------- long texts

/// Bytes that differ from 10 in little: by one, in one bit, in the top bit.
const NEAR_TEN: [u8; 12] = [9, 11, 8, 14, 2, 26, 42, 74, 138, 0, 13, 255];

/// A text in which about one byte in `ends` is 10, or none where that is 0.
fn text(random: &mut Random, len: usize, ends: usize) -> Vec<u8> {
    let near = random.once_in(2);
    let byte = |random: &mut Random| match near {
        true => random.pick(&NEAR_TEN),
        false => random.byte(),
    };
    let mut text: Vec<u8> = (0..len).map(|_| byte(random)).collect();
    for byte in &mut text {
        if ends > 0 && random.once_in(ends) {
            *byte = 10;
        } else if *byte == 10 {
            *byte = 11;
        }
    }
    text
}

/// A text with many line ends, with few, or with none.
fn any_text(random: &mut Random, len: usize) -> Vec<u8> {
    let ends = random.pick(&[0, 1, 2, 3, 10, 64, 100, 500, 2_000]);
    text(random, len, ends)
}

fn lines(text: &[u8]) -> usize {
    1 + text.iter().filter(|&&byte| byte == 10).count()
}

/// A folder that one of the texts has, or one that is near, or any.
fn folder(random: &mut Random, client: &[u8], house: &[u8]) -> u16 {
    match random.below(8) {
        0 => 0,
        1 => random.u16(),
        2 => (lines(client) - random.below(2)) as u16,
        3 => (lines(house) - random.below(2)) as u16,
        4 | 5 => random.below(lines(client)) as u16,
        _ => random.below(lines(house)) as u16,
    }
}

/// Every length to 2,200, and around multiples of 64 more often; the other text of any length.
#[test]
fn random_texts() {
    let mut random = Random::new(80);
    let mut tally = Tally::default();
    let around = (1..=40).flat_map(|blocks| (0..=2).map(move |more| 64 * blocks - 1 + more));
    let lengths: Vec<usize> =
        (0..=2_200).chain(around.cycle().take(2_400)).chain((0..200).map(|i| 5_000 + i)).collect();
    for len in lengths {
        let other = random.below(len + 100);
        let (mut client, mut house) = (any_text(&mut random, len), any_text(&mut random, other));
        if random.once_in(2) {
            std::mem::swap(&mut client, &mut house);
        }
        for _ in 0..6 {
            let folder = folder(&mut random, &client, &house);
            tally.add(seen(same_name(&client, &house, folder)));
        }
    }
    tally.met(&[0, 1, 81], 4_000);
}

/// Each folder of both texts, at every length up to some blocks of 64 bytes.
#[test]
fn every_folder_at_every_short_length() {
    let mut random = Random::new(81);
    for len in 0..=330 {
        for ends in [0, 2, 10, 70] {
            let (client, house) = (text(&mut random, len, ends), text(&mut random, len, ends));
            for folder in 0..=lines(&client).max(lines(&house)) {
                same_name(&client, &house, folder as u16);
            }
        }
    }
}

/// One line end and two, at each place of two blocks and a bit; in the client's text alone, in the house's alone, in both.
#[test]
fn line_ends_at_every_place() {
    for len in [1, 2, 63, 64, 65, 127, 128, 129, 130] {
        for first in 0..len {
            for second in first..len {
                let mut text = vec![b'a'; len];
                text[first] = 10;
                text[second] = 10;
                for folder in 0..=3 {
                    same_name(&text, &[], folder);
                    same_name(&[], &text, folder);
                    same_name(&text, &text, folder);
                }
            }
        }
    }
}

/// So many empty lines, then a name: counts of line ends that fill a byte, a block, two bytes.
#[test]
fn a_name_after_many_empty_lines() {
    for empty in (0..=700).chain([4_095, 4_096, 16_320, 16_384, 32_767, 32_768, 65_534, 65_535, 65_536]) {
        let mut text = vec![10; empty];
        text.extend(b"name");
        for folder in [empty.saturating_sub(1), empty, empty + 1, empty % 256, 0] {
            same_name(&text, b"house", folder as u16);
            same_name(b"client", &text, folder as u16);
        }
    }
}

/// A name after one long line, and a name that is itself long.
#[test]
fn lines_of_every_length() {
    for len in (0..=400).chain([1_023, 1_024, 4_096, 65_535, 65_536, 65_537]) {
        let long = vec![b'x'; len];
        let text = [&long[..], b"\nname\n", &long, b"\n"].concat();
        for folder in 0..=3 {
            same_name(&text, &[], folder);
            same_name(&text[..text.len() - 1], &text, folder);
        }
    }
}

// ---------------------------------------------------------------- damaged texts

#[test]
fn texts_cut_at_every_place() {
    let mut random = Random::new(82);
    for ends in [3, 10, 70] {
        let (client, house) = (text(&mut random, 300, ends), text(&mut random, 300, ends));
        for cut in 0..=300 {
            for _ in 0..4 {
                let folder = folder(&mut random, &client, &house);
                same_name(&client[..cut], &house, folder);
                same_name(&client, &house[..cut], folder);
                same_name(&client[cut..], &house, folder);
                same_name(&client, &house[cut..], folder);
            }
        }
    }
}

#[test]
fn bytes_flipped_to_10_and_from_it() {
    let mut random = Random::new(83);
    for ends in [3, 10, 70] {
        let (client, house) = (text(&mut random, 300, ends), text(&mut random, 300, ends));
        let mut bad = client.clone();
        for place in 0..300 {
            bad[place] = if bad[place] == 10 { random.pick(&NEAR_TEN) } else { 10 };
            for _ in 0..4 {
                let folder = folder(&mut random, &bad, &house);
                same_name(&bad, &house, folder);
                same_name(&house, &bad, folder);
                same_name(&client, &bad, folder);
            }
            bad[place] = client[place];
        }
    }
}

// ---------------------------------------------------------------- many folders

/// Two texts of 65,536 lines: of three folders the client names one, the house this one and another, and nobody the third.
#[test]
fn folders_up_to_65_535() {
    let name = |whose: &str, folder: usize| format!("{whose} {folder}");
    let text = |whose: &str, names: [bool; 3]| -> String {
        (0..65_536)
            .map(|folder| if names[folder % 3] { name(whose, folder) + "\n" } else { "\n".to_string() })
            .collect()
    };
    let (client, house) = (text("client", [true, false, false]), text("house", [true, true, false]));
    let (client, house) = (client.as_bytes(), house.as_bytes());
    let sparse = (0..65_536).step_by(61);
    for folder in sparse.chain(509..=515).chain(65_530..=65_535) {
        let expected = match folder % 3 {
            0 => Some(name("client", folder)),
            1 => Some(name("house", folder)),
            _ => None,
        };
        assert_eq!(folder_name(client, house, FolderNo(folder as u16)), expected.as_deref().map(str::as_bytes));
    }
    for folder in [0, 1, 2, 255, 256, 257, 510, 511, 512, 513, 514, 32_767, 32_768, 65_533, 65_534, 65_535] {
        same_name(client, house, folder);
    }
}

// ---------------------------------------------------------------- nothing else read, nothing written, nothing copied

/// Through the C interface, on buffers that may be written: neither text changes, nor a byte around it.
#[track_caller]
fn leaves_all_as_it_was(client: &Guarded, house: &Guarded, folder: u16) {
    let (mut lent_client, mut lent_house) = (client.clone(), house.clone());
    let (c, h) = (lent_client.inner_mut(), lent_house.inner_mut());
    // SAFETY: pointers and lengths are of slices of two buffers.
    let raw = unsafe { sys::hc_folder_name(c.as_mut_ptr(), c.len(), h.as_mut_ptr(), h.len(), folder) };
    assert!(raw.number == 0 || raw.number == 81);
    assert!(lent_client == *client && lent_house == *house);
}

/// What stands around a text, names or line ends, is not a part of it: no answer depends on it, and nothing is written. (That it is not
/// even read is shown between closed pages, in `memory.rs`.)
#[test]
fn guards_do_not_matter_and_stay() {
    let mut random = Random::new(84);
    for round in 0..3_000 {
        let (len, other) = (round % 260, random.below(260));
        let (client, house) = (any_text(&mut random, len), any_text(&mut random, other));
        let folder = folder(&mut random, &client, &house);
        let guards = [
            (Guarded::new(&mut random, &client), Guarded::new(&mut random, &house)),
            (Guarded::between(10, &client), Guarded::between(10, &house)),
            (Guarded::between(b'a', &client), Guarded::between(b'a', &house)),
            (Guarded::between(10, &client), Guarded::between(b'a', &house)),
        ];
        for (client, house) in guards {
            same_name(client.inner(), house.inner(), folder);
            leaves_all_as_it_was(&client, &house, folder);
        }
    }
}

/// A name is told as a place in the text that it came from, also where the other text has the same bytes.
#[test]
fn a_name_lies_in_its_own_text() {
    let (client, house) = (b"shelf\n\nmerger".to_vec(), b"shelf\nloans\nmerger\nwells".to_vec());
    let lies = |folder, text: &[u8], place: usize, length: usize| {
        let name = folder_name(&client, &house, FolderNo(folder)).unwrap();
        assert_eq!(name.as_ptr_range(), text[place..place + length].as_ptr_range());
    };
    lies(0, &client, 0, 5);
    lies(1, &house, 6, 5);
    lies(2, &client, 7, 6);
    lies(3, &house, 19, 5);
}

/// Nothing is written, so one text may be given twice, and two parts of one text may overlap.
#[test]
fn texts_may_overlap() {
    let mut random = Random::new(85);
    for len in 0..=200 {
        let text = text(&mut random, len, 9);
        for _ in 0..10 {
            let (cut, from) = (random.below(len + 1), random.below(len + 1));
            let folder = folder(&mut random, &text, &text);
            same_name(&text, &text, folder);
            same_name(&text[..cut], &text[from..], folder);
            same_name(&text[from..], &text[..cut], folder);
        }
    }
}

/// At 81 every other field is 0, whatever the texts hold.
#[test]
fn the_stretch_of_81_is_all_zero() {
    for (client, house) in [(&b""[..], &b""[..]), (b"a\n\nb", b"c\n\nd"), (b"a", b"b"), (b"\n\n\n", b"\n\n\n")] {
        // SAFETY: pointers and lengths are of slices.
        let raw = unsafe { sys::hc_folder_name(client.as_ptr(), client.len(), house.as_ptr(), house.len(), 1) };
        assert_eq!(raw, sys::hc_stretch { number: 81, text: 0, place: 0, length: 0 });
    }
}
