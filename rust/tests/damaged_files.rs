//! Damaged files, short buffers and tables, against every call that takes a file, and against writing. `agreed` holds each answer
//! and the lent memory after it to the reference; number and place are also said here, by rules of this test's own.
#[allow(dead_code)] // the other tests use the rest
mod agreed;
#[allow(dead_code)] // likewise
mod draw;
mod profile_file;

use agreed::refused;
use draw::Draw;
use reference::Refusal;
use slp::report::Request;

const CODES: [u8; 2] = [0, 4];
const FIRST_CODE: usize = 6;
const SECOND_CODE: usize = 1_735;
const LENGTH: usize = 3_464;

/// All values of the good file, by their position, counted through both profiles: none above 20,000, no two equal.
fn good_values() -> Vec<u16> {
    (0..1_728).map(|position| 11 * position + 3).collect()
}

/// The groups 0 and 4.
fn good_file() -> Vec<u8> {
    profile_file::of(&CODES, &good_values())
}

/// The byte at which a value stands.
fn place(position: usize) -> usize {
    profile_file::values_at(position / 864) + 2 * (position % 864)
}

/// The first, the middle and the last position of each profile.
const TRIED: [usize; 6] = [0, 431, 863, 864, 1_295, 1_727];

/// Stores a value at a position.
fn put(file: &mut [u8], position: usize, value: u16) {
    file[place(position)..][..2].copy_from_slice(&value.to_be_bytes());
}

/// A file like this one, with one byte changed.
fn with_byte(file: &[u8], at: usize, byte: u8) -> Vec<u8> {
    let mut changed = file.to_vec();
    changed[at] = byte;
    changed
}

/// Lent entries that are no value.
const MARK: u16 = 65_535;

/// Every call that takes a file, on groups 0 and 4: all accept it, or all give the same refusal.
fn expect_every_call(file: &[u8], expected: Result<(), Refusal>, what: &str) {
    assert_eq!(agreed::check(file, 0, what), expected, "{what}: check");
    let part = agreed::locate(file, 0, what);
    match expected {
        Ok(()) => assert!(std::ptr::eq(part, &file[7..1_735]), "{what}: locate"),
        Err(_) => assert!(std::ptr::eq(part, &file[..0]), "{what}: locate"),
    }
    let read = agreed::read(file, 0, &mut [MARK; 870], what);
    assert_eq!(read, expected, "{what}: read");
    let compared = agreed::compare(file, 0, 4, what);
    assert_eq!(compared.map(|_| ()), expected, "{what}: compare");
    let request = Request {
        file,
        group: 4,
        first: 20_000_326,
        last: 20_000_326,
        holidays: &[],
        yearly: 3_500,
        carry: 0,
    };
    let expanded = agreed::expand(&request, &mut [u32::MAX; 100], what);
    assert_eq!(expanded.map(|_| ()), expected, "{what}: expand");
}

// Length, head, codes and values.

#[test]
fn every_length_but_the_files_own_is_refused() {
    let mut longer = good_file();
    longer.push(0);
    for length in 0..=LENGTH + 1 {
        let expected = match length {
            0..=5 => refused(1, 0),
            LENGTH => Ok(()),
            _ => refused(3, 0),
        };
        expect_every_call(&longer[..length], expected, &format!("{length} bytes"));
    }
}

#[test]
fn every_byte_of_the_head_at_every_value() {
    let good = good_file();
    for at in 0..6 {
        for byte in 0..=255 {
            let expected = match at {
                _ if byte == good[at] => Ok(()),
                0..=2 => refused(1, 0),
                3..=4 => refused(2, 0),
                _ => refused(3, 0),
            };
            let what = &format!("byte {at} is {byte}");
            expect_every_call(&with_byte(&good, at, byte), expected, what);
        }
    }
}

#[test]
fn every_pair_of_codes() {
    let mut file = good_file();
    let mut accepted = 0;
    for first in 0..=255 {
        for second in 0..=255 {
            file[FIRST_CODE] = first;
            file[SECOND_CODE] = second;
            let expected = if first > 10 {
                refused(4, FIRST_CODE)
            } else if second > 10 || second <= first {
                refused(4, SECOND_CODE)
            } else {
                Ok(())
            };
            let what = &format!("codes {first} and {second}");
            assert_eq!(agreed::check(&file, first, what), expected, "{what}");
            assert_eq!(agreed::check(&file, second, what), expected, "{what}");
            accepted += u32::from(expected.is_ok());
        }
    }
    assert_eq!(accepted, 55, "the pairs of 11 codes that rise");
}

/// At every position, among values that are all different, all 0 or all at the limit.
#[test]
fn a_value_at_the_limit_and_above_it() {
    for values in [good_values(), vec![0; 1_728], vec![20_000; 1_728]] {
        let mut file = profile_file::of(&CODES, &values);
        for (position, &good) in values.iter().enumerate() {
            for (value, expected) in [
                (20_000, Ok(())),
                (20_001, refused(5, place(position))),
                (65_535, refused(5, place(position))),
            ] {
                put(&mut file, position, value);
                let what = &format!("{value} among {good} at position {position}");
                expect_every_call(&file, expected, what);
            }
            put(&mut file, position, good);
        }
    }
}

fn expect_first_of_two_bad_values(a: usize, b: usize) {
    let mut file = good_file();
    put(&mut file, a, 20_001);
    put(&mut file, b, 20_001);
    let expected = refused(5, place(a.min(b)));
    expect_every_call(&file, expected, &format!("positions {a} and {b}"));
}

#[test]
fn the_first_of_two_bad_values_counts() {
    for a in TRIED {
        for b in TRIED {
            expect_first_of_two_bad_values(a, b);
        }
    }
    let mut draw = Draw::new(8_000_000);
    for _ in 0..1_000 {
        expect_first_of_two_bad_values(draw.below(1_728), draw.below(1_728));
    }
}

#[test]
fn a_bad_code_comes_before_a_bad_value() {
    for position in TRIED {
        for at in [FIRST_CODE, SECOND_CODE] {
            let mut file = with_byte(&good_file(), at, 11);
            put(&mut file, position, 20_001);
            let what = &format!("position {position}, code at {at}");
            expect_every_call(&file, refused(4, at), what);
        }
    }
}

/// 255 at these bytes makes one question the first to refuse.
#[test]
fn each_question_refuses_every_call() {
    let cases = [
        (0, refused(1, 0)),
        (4, refused(2, 0)),
        (5, refused(3, 0)),
        (6, refused(4, 6)),
        (7, refused(5, 7)),
    ];
    for (at, expected) in cases {
        let file = with_byte(&good_file(), at, 255);
        expect_every_call(&file, expected, &format!("byte {at}"));
    }
}

// Wanted groups.

/// The bytes of some values.
fn bytes_of(values: &[u16]) -> Vec<u8> {
    values
        .iter()
        .flat_map(|value| value.to_be_bytes())
        .collect()
}

#[test]
fn the_groups_of_the_file_are_found_and_no_others() {
    let (file, values) = (good_file(), good_values());
    for group in 0..=255 {
        let what = &format!("group {group}");
        let (expected, part, bytes) = match group {
            0 => (Ok(()), &file[7..1_735], bytes_of(&values[..864])),
            4 => (Ok(()), &file[1_736..], bytes_of(&values[864..])),
            _ => (refused(6, 0), &file[..0], Vec::new()),
        };
        assert_eq!(agreed::check(&file, group, what), expected, "{what}");
        let located = agreed::locate(&file, group, what);
        assert!(std::ptr::eq(located, part), "{what}: another part");
        assert_eq!(located, bytes, "{what}");
        let read = agreed::read(&file, group, &mut [MARK; 864], what);
        assert_eq!(read, expected, "{what}");
    }
}

#[test]
fn each_of_eleven_groups_is_found_at_its_own_place() {
    let codes: Vec<u8> = (0..=10).collect();
    let values: Vec<u16> = (0..11 * 864).collect();
    let file = profile_file::of(&codes, &values);
    for (i, own) in values.chunks(864).enumerate() {
        let what = &format!("group {i}");
        let located = agreed::locate(&file, i as u8, what);
        assert!(
            std::ptr::eq(located, &file[7 + 1_729 * i..][..1_728]),
            "{what}"
        );
        assert_eq!(located, bytes_of(own), "{what}");
        let mut table = [MARK; 864];
        assert_eq!(agreed::read(&file, i as u8, &mut table, what), Ok(()));
        assert_eq!(table, own, "{what}");
    }
}

/// The place in question 6 is 0 where the first group is missing and 1 where only the second is.
#[test]
fn groups_are_compared_in_every_pair() {
    let file = good_file();
    for first in 0..=255 {
        for second in 0..=255 {
            let expected = match (CODES.contains(&first), CODES.contains(&second)) {
                (false, _) => refused(6, 0),
                (true, false) => refused(6, 1),
                (true, true) => Ok(first == second),
            };
            let what = &format!("groups {first} and {second}");
            assert_eq!(
                agreed::compare(&file, first, second, what),
                expected,
                "{what}"
            );
        }
    }
}

/// Groups 1 and 7 have the same values, with group 3 between them.
#[test]
fn groups_with_equal_values_are_alike_and_each_at_its_own_place() {
    let mut values = good_values();
    values.extend_from_within(..864);
    let file = profile_file::of(&[1, 3, 7], &values);
    for (first, second, alike) in [(1, 7, true), (7, 1, true), (1, 3, false), (3, 7, false)] {
        let what = &format!("groups {first} and {second}");
        assert_eq!(
            agreed::compare(&file, first, second, what),
            Ok(alike),
            "{what}"
        );
    }
    let [one, seven] = [1, 7].map(|group| agreed::locate(&file, group, &format!("{group}")));
    assert_eq!(one, seven);
    assert!(std::ptr::eq(one, &file[7..1_735]));
    assert!(std::ptr::eq(seven, &file[3_465..]));
    assert_eq!(file.len(), 5_193);
}

/// The first and the last value, and every other; in the upper byte alone, and in the lower.
#[test]
fn groups_that_differ_in_one_value_are_not_alike() {
    let same = good_values()[..864].repeat(2);
    let file = profile_file::of(&CODES, &same);
    assert_eq!(agreed::compare(&file, 0, 4, "equal"), Ok(true));
    for (position, &value) in same.iter().enumerate() {
        for bit in [1, 256] {
            let mut file = file.clone();
            put(&mut file, position, value ^ bit);
            let what = &format!("position {position}, bit {bit}");
            for (first, second) in [(0, 4), (4, 0)] {
                assert_eq!(
                    agreed::compare(&file, first, second, what),
                    Ok(false),
                    "{what}"
                );
            }
            for group in CODES {
                assert_eq!(
                    agreed::compare(&file, group, group, what),
                    Ok(true),
                    "{what}"
                );
            }
        }
    }
}

// Reading.

#[test]
fn a_table_too_short_is_refused_after_a_missing_group() {
    let file = good_file();
    for length in [0, 1, 863] {
        let what = &format!("{length} entries");
        let mut table = vec![MARK; length];
        assert_eq!(agreed::read(&file, 5, &mut table, what), refused(6, 0));
        for group in CODES {
            let read = agreed::read(&file, group, &mut table, what);
            assert_eq!(read, refused(12, 864), "{what}");
        }
    }
}

#[test]
fn a_longer_table_takes_the_values_and_keeps_the_entries_beyond() {
    let (file, values) = (good_file(), good_values());
    for length in [864, 865, 870, 2_000] {
        for (group, own) in CODES.into_iter().zip(values.chunks(864)) {
            let what = &format!("group {group}, {length} entries");
            let mut table = vec![MARK; length];
            assert_eq!(agreed::read(&file, group, &mut table, what), Ok(()));
            assert_eq!(table[..864], *own, "{what}");
        }
    }
}

// Writing.

const FILLER: u8 = 238;

/// Writing is refused, in a buffer that would be long enough for eleven groups.
fn expect_not_written(codes: &[u8], values: &[u16], number: u32, place: usize, what: &str) {
    let mut buffer = vec![FILLER; slp::file_length(11)];
    let answer = agreed::write(codes, values, &mut buffer, what);
    assert_eq!(answer, refused(number, place), "{what}");
}

#[test]
fn a_file_is_written_byte_for_byte_and_nothing_beyond_it() {
    for length in [LENGTH, LENGTH + 1, 5_000] {
        let what = &format!("{length} bytes");
        let mut buffer = vec![FILLER; length];
        let answer = agreed::write(&CODES, &good_values(), &mut buffer, what);
        assert_eq!(answer, Ok(()), "{what}");
        assert_eq!(buffer[..LENGTH], good_file(), "{what}");
    }
}

#[test]
fn what_is_read_of_a_file_makes_the_same_bytes_again() {
    let (file, what) = (good_file(), "written again");
    let mut values = [MARK; 1_728];
    assert_eq!(agreed::read(&file, 4, &mut values[864..], what), Ok(()));
    assert_eq!(agreed::read(&file, 0, &mut values, what), Ok(()));
    assert_eq!(values[..], good_values());
    let mut buffer = vec![FILLER; LENGTH];
    let answer = agreed::write(&CODES, &values, &mut buffer, what);
    assert_eq!((answer, buffer), (Ok(()), file));
}

#[test]
fn a_buffer_too_short_is_refused() {
    for length in [0, 1, LENGTH - 1] {
        let what = &format!("{length} bytes");
        let mut buffer = vec![FILLER; length];
        let answer = agreed::write(&CODES, &good_values(), &mut buffer, what);
        assert_eq!(answer, refused(12, LENGTH), "{what}");
    }
}

#[test]
fn wrong_amounts_of_codes_and_values_are_not_written() {
    let values = [0; 12 * 864];
    let codes: Vec<u8> = (0..12).collect();
    for (codes, values) in [
        (&[][..], &values[..0]),
        (&[], &values[..864]),
        (&codes, &values),
        (&codes[..11], &values),
        (&[0, 4], &values[..0]),
        (&[0, 4], &values[..1_727]),
        (&[0, 4], &values[..1_729]),
        (&[0], &values[..1_728]),
    ] {
        let what = &format!("{} codes and {} values", codes.len(), values.len());
        expect_not_written(codes, values, 3, 0, what);
    }
}

#[test]
fn wrong_codes_are_not_written() {
    for (codes, place) in [
        ([4, 4], SECOND_CODE),
        ([4, 0], SECOND_CODE),
        ([4, 11], SECOND_CODE),
        ([11, 12], FIRST_CODE),
        ([255, 0], FIRST_CODE),
    ] {
        expect_not_written(&codes, &[0; 1_728], 4, place, &format!("{codes:?}"));
    }
}

#[test]
fn a_bad_value_is_not_written() {
    let mut values = good_values();
    for position in 0..1_728 {
        for value in [20_001, 65_535] {
            let good = std::mem::replace(&mut values[position], value);
            let what = &format!("{value} at position {position}");
            expect_not_written(&CODES, &values, 5, place(position), what);
            values[position] = good;
        }
    }
}

/// Every later question is at fault too: both codes and a value are bad, and the buffer is too short.
#[test]
fn writing_asks_in_order() {
    let mut values = vec![20_001; 1_727];
    let write = |codes: &[u8], values: &[u16], length: usize| {
        let what = &format!("{codes:?}, {} values", values.len());
        agreed::write(codes, values, &mut vec![FILLER; length], what)
    };
    assert_eq!(write(&[11, 11], &values, 0), refused(3, 0));
    values.push(20_001);
    assert_eq!(write(&[11, 11], &values, 0), refused(4, FIRST_CODE));
    assert_eq!(write(&[10, 11], &values, 0), refused(4, SECOND_CODE));
    assert_eq!(write(&[9, 10], &values, 0), refused(5, 7));
    values[..1_727].fill(20_000);
    assert_eq!(write(&[9, 10], &values, 0), refused(5, 3_462));
    values[1_727] = 0;
    assert_eq!(write(&[9, 10], &values, 0), refused(12, LENGTH));
    assert_eq!(write(&[9, 10], &values, LENGTH), Ok(()));
}
