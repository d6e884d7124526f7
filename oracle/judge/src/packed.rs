//! A lent plane as the bytes of a line: six lists, each behind its count, which is two bytes, the
//! high one first.

use crate::lent::Lent;

/// The bytes of a plane; nothing where a number is over 255 or a list over 65,535 numbers.
pub fn pack(lent: &Lent) -> Option<Vec<u8>> {
    let mut bytes = vec![];
    for list in lent.lists() {
        bytes.extend(u16::try_from(list.len()).ok()?.to_be_bytes());
        for number in list {
            bytes.push(u8::try_from(number).ok()?);
        }
    }
    Some(bytes)
}

/// The plane of bytes; nothing where a list is not whole or bytes are left.
pub fn unpack(bytes: &[u8]) -> Option<Lent> {
    let mut rest = bytes;
    let mut lists = vec![];
    for _ in 0..6 {
        lists.push(counted(&mut rest)?);
    }
    if rest.is_empty() { Lent::of_lists(lists) } else { None }
}

/// Takes a count and as many numbers off the bytes.
fn counted(rest: &mut &[u8]) -> Option<Vec<u64>> {
    let (count, bytes) = rest.split_first_chunk()?;
    let (list, bytes) = bytes.split_at_checked(u16::from_be_bytes(*count).into())?;
    *rest = bytes;
    Some(list.iter().map(|byte| u64::from(*byte)).collect())
}
