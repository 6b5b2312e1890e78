//! Event records: bytes to a call and back.

use crate::turns::{Call, Change, Description};

pub const HEADER: usize = 3;

/// The payload's length for a tag that is known.
pub fn payload_length(tag: u8) -> Option<usize> {
    match tag {
        1 => Some(21),
        2..=4 => Some(11),
        5 => Some(8),
        _ => None,
    }
}

/// A big-endian number.
fn number(bytes: &[u8]) -> u64 {
    bytes.iter().fold(0, |sum, &byte| sum * 256 + u64::from(byte))
}

fn call(tag: u8, payload: &[u8]) -> Call {
    let time = number(&payload[..8]);
    if tag == 5 {
        return Call { time, change: Change::Tick };
    }
    let identifier = number(&payload[8..11]) as u32;
    let change = match tag {
        1 => Change::Admit(Description {
            identifier,
            period: number(&payload[11..15]) as u32,
            capacity: number(&payload[15..19]) as u32,
            priority: payload[19],
            kind: payload[20],
        }),
        2 => Change::Wake(identifier),
        3 => Change::Block(identifier),
        _ => Change::Remove(identifier),
    };
    Call { time, change }
}

/// The record at the front and how many bytes it has, or the number that refuses it. The
/// refusal's detail, where the record begins, is for whoever counts the input to add.
pub fn read(bytes: &[u8]) -> Result<(Call, usize), u32> {
    if bytes.len() < HEADER {
        return Err(20);
    }
    let tag = bytes[0];
    let Some(length) = payload_length(tag) else { return Err(21) };
    if number(&bytes[1..HEADER]) != length as u64 {
        return Err(22);
    }
    if bytes.len() < HEADER + length {
        return Err(20);
    }
    Ok((call(tag, &bytes[HEADER..HEADER + length]), HEADER + length))
}

pub fn tag(change: &Change) -> u8 {
    match change {
        Change::Admit(_) => 1,
        Change::Wake(_) => 2,
        Change::Block(_) => 3,
        Change::Remove(_) => 4,
        Change::Tick => 5,
    }
}

/// The record of a call. Only the low 24 bits of an identifier have a place in it.
pub fn write(call: &Call) -> Vec<u8> {
    let mut payload = call.time.to_be_bytes().to_vec();
    match call.change {
        Change::Tick => (),
        Change::Wake(identifier) | Change::Block(identifier) | Change::Remove(identifier) => {
            payload.extend(&identifier.to_be_bytes()[1..]);
        }
        Change::Admit(description) => {
            payload.extend(&description.identifier.to_be_bytes()[1..]);
            payload.extend(description.period.to_be_bytes());
            payload.extend(description.capacity.to_be_bytes());
            payload.extend([description.priority, description.kind]);
        }
    }
    let mut record = vec![tag(&call.change)];
    record.extend((payload.len() as u16).to_be_bytes());
    record.extend(payload);
    record
}

#[cfg(test)]
mod tests {
    use super::*;

    fn refused(bytes: &[u8]) -> u32 {
        read(bytes).unwrap_err()
    }

    #[test]
    fn the_checks_in_their_order() {
        assert_eq!(refused(&[]), 20);
        assert_eq!(refused(&[9]), 20);
        assert_eq!(refused(&[9, 9]), 20);
        for tag in [0, 6, 7, 8, 255] {
            assert_eq!(refused(&[tag, 0, 8]), 21);
        }
        assert_eq!(refused(&[5, 0, 9]), 22);
        assert_eq!(refused(&[5, 1, 8]), 22);
        assert_eq!(refused(&[1, 0, 11]), 22);
        assert_eq!(refused(&[1, 0, 20]), 22);
        assert_eq!(refused(&[5, 0, 8]), 20);
        assert_eq!(refused(&[5, 0, 8, 0, 0, 0, 0, 0, 0, 0]), 20);
    }

    #[test]
    fn what_is_written_reads_back() {
        let description =
            Description { identifier: 0xfe_0102, period: 70_000, capacity: 300, priority: 200, kind: 0 };
        let changes = [
            Change::Admit(description),
            Change::Admit(Description { kind: 255, ..description }),
            Change::Wake(0),
            Change::Block(0xff_ffff),
            Change::Remove(65793),
            Change::Tick,
        ];
        for change in changes {
            let call = Call { time: 0x0102_0304_0506_0708, change };
            let mut bytes = write(&call);
            let length = bytes.len();
            assert_eq!(read(&bytes[..length - 1]), Err(20));
            bytes.extend([1, 2, 3]);
            assert_eq!(read(&bytes), Ok((call, length)));
        }
    }

    #[test]
    fn an_admit_byte_for_byte() {
        let description = Description { identifier: 65793, period: 10, capacity: 3, priority: 1, kind: 2 };
        let bytes = write(&Call { time: 258, change: Change::Admit(description) });
        let whole = [1, 0, 21, 0, 0, 0, 0, 0, 0, 1, 2, 1, 1, 1, 0, 0, 0, 10, 0, 0, 0, 3, 1, 2];
        assert_eq!(bytes, whole);
    }
}
