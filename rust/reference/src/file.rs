//! The profile file: questions 1 to 6, locating, reading, comparing and writing.
use crate::{ask, Refusal};

/// The bytes before the first profile: mark, version and count.
pub const HEAD: usize = 6;

/// The bytes of a profile: its code and its values.
pub const PROFILE: usize = 1_729;

/// The values of a profile.
pub const VALUES: usize = 864;

/// The values of a day.
pub const DAY_VALUES: usize = 96;

/// The largest value P, in tenths of a watt for 1,000 kWh a year.
pub const LARGEST_VALUE: u16 = 20_000;

const MARK: [u8; 3] = *b"SLP";
const VERSION: u16 = 1;
const LARGEST_CODE: u8 = 10;
const MOST_PROFILES: usize = 11;

/// The length of a file with `count` profiles.
const fn length(count: usize) -> usize {
    HEAD + PROFILE * count
}

/// The values that some bytes hold.
pub(crate) fn values_of(bytes: &[u8]) -> impl Iterator<Item = u16> + '_ {
    let pairs = bytes.chunks_exact(2);
    pairs.map(|pair| u16::from_be_bytes([pair[0], pair[1]]))
}

/// Questions 1 to 3: the profiles' bytes, one profile after the other.
fn profiles(file: &[u8]) -> Result<std::slice::ChunksExact<'_, u8>, Refusal> {
    ask(file.len() >= HEAD && file[..3] == MARK, 1, 0)?;
    ask(file[3..5] == VERSION.to_be_bytes(), 2, 0)?;
    let count = usize::from(file[5]);
    let right = (1..=MOST_PROFILES).contains(&count) && file.len() == length(count);
    ask(right, 3, 0)?;
    Ok(file[HEAD..].chunks_exact(PROFILE))
}

/// Question 4, of the codes in the file's order.
fn ask_codes(codes: impl Iterator<Item = u8>) -> Result<(), Refusal> {
    let mut before = None;
    for (i, code) in codes.enumerate() {
        let rises = before.is_none_or(|before| code > before);
        ask(code <= LARGEST_CODE && rises, 4, length(i))?;
        before = Some(code);
    }
    Ok(())
}

/// Question 5, of the values of the profile that has `before` profiles before it.
fn ask_values(values: impl Iterator<Item = u16>, before: usize) -> Result<(), Refusal> {
    for (i, value) in values.enumerate() {
        ask(value <= LARGEST_VALUE, 5, length(before) + 1 + 2 * i)?;
    }
    Ok(())
}

/// Questions 1 to 5: the profiles' bytes.
fn accepted(file: &[u8]) -> Result<std::slice::ChunksExact<'_, u8>, Refusal> {
    let profiles = profiles(file)?;
    ask_codes(profiles.clone().map(|profile| profile[0]))?;
    for (i, profile) in profiles.clone().enumerate() {
        ask_values(values_of(&profile[1..]), i)?;
    }
    Ok(profiles)
}

/// Question 6, with the place that a missing group has in the call: the group's value bytes.
fn wanted<'a>(
    mut profiles: std::slice::ChunksExact<'a, u8>,
    group: u8,
    place: usize,
) -> Result<&'a [u8], Refusal> {
    let profile = profiles.find(|profile| profile[0] == group);
    profile
        .map(|profile| &profile[1..])
        .ok_or(Refusal { number: 6, place })
}

/// Questions 1 to 6: the group's 1,728 value bytes, as that part of the file.
pub(crate) fn group_bytes(file: &[u8], group: u8) -> Result<&[u8], Refusal> {
    wanted(accepted(file)?, group, 0)
}

/// Whether `file` is a profile file that has `group`: questions 1 to 6.
pub fn check(file: &[u8], group: u8) -> Result<(), Refusal> {
    group_bytes(file, group).map(|_| ())
}

/// The group's own 1,728 value bytes as that part of the file; a refusal gives the part of length zero at its start.
pub fn locate(file: &[u8], group: u8) -> &[u8] {
    group_bytes(file, group).unwrap_or(&file[..0])
}

/// Reads the group's values into the table's first 864 entries: questions 1 to 6 and 12.
pub fn read(file: &[u8], group: u8, table: &mut [u16]) -> Result<(), Refusal> {
    let bytes = group_bytes(file, group)?;
    ask(table.len() >= VALUES, 12, VALUES)?;
    for (entry, value) in table.iter_mut().zip(values_of(bytes)) {
        *entry = value;
    }
    Ok(())
}

/// Whether all values of two groups agree: questions 1 to 6, the place in 6 being 1 for the second group.
pub fn compare(file: &[u8], first: u8, second: u8) -> Result<bool, Refusal> {
    let profiles = accepted(file)?;
    let first = wanted(profiles.clone(), first, 0)?;
    let second = wanted(profiles, second, 1)?;
    Ok(first == second)
}

/// Writes the file of the groups `codes`, with 864 of `values` for each, into the buffer's first bytes: questions 3, 4, 5
/// and 12.
pub fn write(codes: &[u8], values: &[u16], buffer: &mut [u8]) -> Result<(), Refusal> {
    let count = codes.len();
    let right = (1..=MOST_PROFILES).contains(&count) && values.len() == VALUES * count;
    ask(right, 3, 0)?;
    ask_codes(codes.iter().copied())?;
    for (i, values) in values.chunks_exact(VALUES).enumerate() {
        ask_values(values.iter().copied(), i)?;
    }
    ask(buffer.len() >= length(count), 12, length(count))?;
    buffer[..3].copy_from_slice(&MARK);
    buffer[3..5].copy_from_slice(&VERSION.to_be_bytes());
    buffer[5] = count as u8;
    let profiles = buffer[HEAD..].chunks_exact_mut(PROFILE);
    let contents = codes.iter().zip(values.chunks_exact(VALUES));
    for (profile, (&code, values)) in profiles.zip(contents) {
        profile[0] = code;
        for (pair, value) in profile[1..].chunks_exact_mut(2).zip(values) {
            pair.copy_from_slice(&value.to_be_bytes());
        }
    }
    Ok(())
}

#[cfg(test)]
mod tests {
    use super::*;

    /// H0 with rising values, G0 with the largest.
    fn two_profiles() -> Vec<u8> {
        let mut values: Vec<u16> = (0..VALUES as u16).collect();
        values.resize(2 * VALUES, LARGEST_VALUE);
        let mut file = vec![0; length(2)];
        write(&[0, 1], &values, &mut file).unwrap();
        file
    }

    #[test]
    fn the_numbers_are_big_endian_and_in_order() {
        let file = two_profiles();
        assert_eq!(file[..11], *b"SLP\0\x01\x02\0\0\0\0\x01");
        assert_eq!(file[1_733..1_738], [3, 95, 1, 78, 32]);
        assert_eq!(file.len(), 3_464);
    }

    #[test]
    fn a_group_is_found_at_its_own_bytes() {
        let file = two_profiles();
        assert!(std::ptr::eq(locate(&file, 0), &file[7..1_735]));
        assert!(std::ptr::eq(locate(&file, 1), &file[1_736..]));
        assert!(std::ptr::eq(locate(&file, 2), &file[..0]));
        assert_eq!(compare(&file, 0, 1), Ok(false));
        assert_eq!(compare(&file, 1, 1), Ok(true));
    }

    #[test]
    fn the_first_no_counts() {
        let mut file = two_profiles();
        let mut damage = |at: usize, byte: u8| {
            file[at] = byte;
            check(&file, 2).unwrap_err()
        };
        let no = |number, place| Refusal { number, place };
        assert_eq!(damage(0, b'S'), no(6, 0));
        assert_eq!(damage(3_462, 255), no(5, 3_462));
        assert_eq!(damage(1_733, 255), no(5, 1_733));
        assert_eq!(damage(1_735, 0), no(4, 1_735));
        assert_eq!(damage(6, 11), no(4, 6));
        assert_eq!(damage(5, 3), no(3, 0));
        assert_eq!(damage(4, 2), no(2, 0));
        assert_eq!(damage(2, 0), no(1, 0));
    }
}
