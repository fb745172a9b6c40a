//! Profile files, put together byte by byte.
use reference::file::{HEAD, PROFILE, VALUES};

/// The file of these groups, with 864 of the values for each.
pub fn of(codes: &[u8], values: &[u16]) -> Vec<u8> {
    assert_eq!(values.len(), VALUES * codes.len());
    let mut file = b"SLP\0\x01".to_vec();
    file.push(codes.len() as u8);
    for (code, values) in codes.iter().zip(values.chunks(VALUES)) {
        file.push(*code);
        file.extend(values.iter().flat_map(|value| value.to_be_bytes()));
    }
    file
}

/// Where the values of the profile begin that has `before` others before it.
pub fn values_at(before: usize) -> usize {
    HEAD + PROFILE * before + 1
}
