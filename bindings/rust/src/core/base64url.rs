//! Base64url without padding (RFC 4648, section 5), for the bytes of footers of tokens that are not verified yet: the library
//! reads only those that are UTF-8.

/// The bytes that a text encodes, or `None` if it is not valid base64url: it has another character, a length of 4n + 1,
/// or nonzero bits after the last byte.
pub(super) fn decode(text: &str) -> Option<Vec<u8>> {
    let mut bytes = Vec::with_capacity(text.len() / 4 * 3 + 2);
    for group in text.as_bytes().chunks(4) {
        bytes.extend_from_slice(&decode_group(group)?);
    }
    Some(bytes)
}

fn decode_group(group: &[u8]) -> Option<Vec<u8>> {
    let byte_count = match group.len() {
        4 => 3,
        3 => 2,
        2 => 1,
        _ => return None,
    };
    let mut bits = 0u32;
    for index in 0..4 {
        bits = bits << 6
            | group
                .get(index)
                .map_or(Some(0), |&letter| value_of(letter))?;
    }
    let [_, bytes @ ..] = bits.to_be_bytes();
    let (found, behind) = bytes.split_at(byte_count);
    behind.iter().all(|&byte| byte == 0).then(|| found.to_vec())
}

fn value_of(letter: u8) -> Option<u32> {
    match letter {
        b'A'..=b'Z' => Some(u32::from(letter - b'A')),
        b'a'..=b'z' => Some(u32::from(letter - b'a') + 26),
        b'0'..=b'9' => Some(u32::from(letter - b'0') + 52),
        b'-' => Some(62),
        b'_' => Some(63),
        _ => None,
    }
}
