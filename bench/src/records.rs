//! Event records: bytes to a call and back.

use crate::call::{Change, Description};

const HEADER: usize = 3;

/// The bytes of a whole record, by its tag.
fn whole(tag: u8) -> Option<usize> {
    match tag {
        1 => Some(HEADER + 21),
        2..=4 => Some(HEADER + 11),
        5 => Some(HEADER + 8),
        _ => None,
    }
}

fn number4(bytes: &[u8]) -> u32 {
    u32::from_be_bytes([bytes[0], bytes[1], bytes[2], bytes[3]])
}

fn time_of(bytes: &[u8]) -> u64 {
    u64::from(number4(bytes)) << 32 | u64::from(number4(&bytes[4..]))
}

/// The identifier's three bytes, with the last byte of the time before them.
fn id_of(bytes: &[u8]) -> u32 {
    number4(&bytes[7..]) & 0xff_ffff
}

/// The call at the front, and how many bytes its record has, or the number that refuses it. Where
/// the record begins is for the front to say.
pub fn read(bytes: &[u8]) -> Result<(u64, Change, usize), u8> {
    if bytes.len() < HEADER {
        return Err(20);
    }
    let Some(length) = whole(bytes[0]) else {
        return Err(21);
    };
    if usize::from(bytes[1]) * 256 + usize::from(bytes[2]) != length - HEADER {
        return Err(22);
    }
    if bytes.len() < length {
        return Err(20);
    }
    let payload = &bytes[HEADER..length];
    let change = match bytes[0] {
        1 => Change::Admit(Description {
            id: id_of(payload),
            period: number4(&payload[11..]),
            capacity: number4(&payload[15..]),
            priority: payload[19],
            kind: payload[20],
        }),
        2 => Change::Wake(id_of(payload)),
        3 => Change::Block(id_of(payload)),
        4 => Change::Remove(id_of(payload)),
        _ => Change::Tick,
    };
    Ok((time_of(payload), change, length))
}

/// The record of a call. It has three bytes for an identifier: a wider one is cut to them, so that
/// what the library refuses with 4 the program refuses with 7.
pub fn write(now: u64, change: Change, out: &mut Vec<u8>) {
    let (tag, id) = match change {
        Change::Admit(new) => (1, new.id),
        Change::Wake(id) => (2, id),
        Change::Block(id) => (3, id),
        Change::Remove(id) => (4, id),
        Change::Tick => (5, 0),
    };
    let payload = whole(tag).map_or(0, |length| length - HEADER);
    out.extend([tag, 0, payload as u8]);
    out.extend(now.to_be_bytes());
    if tag != 5 {
        out.extend(&id.to_be_bytes()[1..]);
    }
    if let Change::Admit(new) = change {
        out.extend(new.period.to_be_bytes());
        out.extend(new.capacity.to_be_bytes());
        out.extend([new.priority, new.kind]);
    }
}

#[cfg(test)]
mod tests {
    use super::*;

    #[test]
    fn what_is_written_reads_back() {
        let new = Description {
            id: 0xfe_0102,
            period: 70_000,
            capacity: 300,
            priority: 200,
            kind: 2,
        };
        let wake = Change::Wake(0xff_ffff);
        for change in [
            Change::Admit(new),
            wake,
            Change::Block(0),
            Change::Remove(65793),
            Change::Tick,
        ] {
            let mut bytes = Vec::new();
            write(0x0102_0304_0506_0708, change, &mut bytes);
            let Ok((now, read_back, length)) = read(&bytes) else {
                panic!("a record that is refused")
            };
            assert_eq!((now, length), (0x0102_0304_0506_0708, bytes.len()));
            let mut again = Vec::new();
            write(now, read_back, &mut again);
            assert_eq!(again, bytes);
        }
    }
}
