//! Reading a listing into memory: document 02's #103.

use super::machine::{check_memory, Refusal};

/// The bytes of the block that takes a faulty line: its number and kind.
pub const FAULT_BYTES: usize = 16;

/// What is wrong with a line. The numbers are document 02's.
#[derive(Clone, Copy, Debug, PartialEq, Eq, PartialOrd, Ord)]
pub enum Kind {
    /// A field missing or not hex, or an address too long.
    Form = 1,
    /// Odd digits or a wrong byte count.
    Count = 2,
    /// An address not above the last byte given.
    Order = 3,
    /// Beyond memory.
    Beyond = 4,
}

/// The first faulty line, counted from 1.
#[derive(Clone, Copy, Debug, PartialEq, Eq)]
pub struct Fault {
    pub line: u64,
    pub kind: Kind,
}

/// The image of a listing in a memory of this size.
pub fn image(text: &[u8], size: usize) -> Result<Vec<u8>, Fault> {
    let mut image = vec![0; size];
    let mut last: Option<u64> = None;
    for (before, line) in text.split_inclusive(|byte| *byte == b'\n').enumerate() {
        let line_number = before as u64 + 1;
        let (address, bytes) = record(line, last, size).map_err(|kind| Fault {
            line: line_number,
            kind,
        })?;
        let from = address as usize;
        image[from..from + bytes.len()].copy_from_slice(&bytes);
        last = Some(address + bytes.len() as u64 - 1);
    }
    Ok(image)
}

/// A line's address and bytes, after the last byte that an earlier line gave.
fn record(line: &[u8], last: Option<u64>, size: usize) -> Result<(u64, Vec<u8>), Kind> {
    let line = line.strip_suffix(b"\n").ok_or(Kind::Form)?;
    // At most three fields: the third, the remark, is all the rest.
    let mut fields = line.splitn(3, |byte| *byte == b'\t');
    let address = digits(fields.next())?;
    let bytes = digits(fields.next())?;
    if address.len() > 16 {
        return Err(Kind::Form);
    }
    if bytes.len() % 2 != 0 || bytes.len() > 32 {
        return Err(Kind::Count);
    }
    let address = address.iter().fold(0, |n, d| n * 16 + u64::from(*d));
    if last.is_some_and(|last| address <= last) {
        return Err(Kind::Order);
    }
    let bytes: Vec<u8> = bytes.chunks(2).map(|two| two[0] * 16 + two[1]).collect();
    if u128::from(address) + bytes.len() as u128 > size as u128 {
        return Err(Kind::Beyond);
    }
    Ok((address, bytes))
}

/// The values of a field's digits, of which there is one at least.
fn digits(field: Option<&[u8]>) -> Result<Vec<u8>, Kind> {
    let field = field.filter(|field| !field.is_empty()).ok_or(Kind::Form)?;
    let values = field
        .iter()
        .map(|digit| char::from(*digit).to_digit(16).map(|v| v as u8));
    values.collect::<Option<Vec<u8>>>().ok_or(Kind::Form)
}

/// The exported function: memory becomes the image and the answer is 0; or a
/// refusal by number. 9 is a faulty line, which the block takes.
pub fn read_listing(text: &[u8], memory: &mut [u8], fault: &mut [u8]) -> u64 {
    if let Err(refusal) = check_memory(memory.len() as u64) {
        return refusal.number();
    }
    if fault.len() != FAULT_BYTES {
        return Refusal::Buffer.number();
    }
    match image(text, memory.len()) {
        Ok(image) => {
            memory.copy_from_slice(&image);
            0
        }
        Err(found) => {
            fault[..8].copy_from_slice(&found.line.to_le_bytes());
            fault[8..].copy_from_slice(&(found.kind as u64).to_le_bytes());
            9
        }
    }
}

#[cfg(test)]
mod tests {
    use super::*;

    fn read(text: &[u8], size: usize) -> Result<Vec<u8>, (u64, u64)> {
        image(text, size).map_err(|fault| (fault.line, fault.kind as u64))
    }

    #[test]
    fn listings_are_read() {
        assert_eq!(read(b"", 3), Ok(vec![0; 3]));
        assert_eq!(read(b"1\taB\n", 3), Ok(vec![0, 0xab, 0]));
        assert_eq!(read(b"0\t1234\t\n", 2), Ok(vec![0x12, 0x34]));
        assert_eq!(read(b"0\t12\ta\tb\r\n1\t34\n", 2), Ok(vec![0x12, 0x34]));
        assert_eq!(read(b"0000000000000000\t7f\n", 1), Ok(vec![0x7f]));
    }

    #[test]
    fn faulty_lines_have_their_kinds() {
        let kinds: [(&[u8], (u64, u64)); 16] = [
            (b"\n", (1, 1)),
            (b"0\t12", (1, 1)),
            (b"0\n", (1, 1)),
            (b"0\t\n", (1, 1)),
            (b"\t12\n", (1, 1)),
            (b"0\t1g\n", (1, 1)),
            (b"0\t12\r\n", (1, 1)),
            (b"00000000000000000\t12\n", (1, 1)),
            (b"0\t1\n", (1, 2)),
            (b"0\t0011223344556677889900112233445566\n", (1, 2)),
            (b"0\t12\n0\t12\n", (2, 3)),
            (b"0\t1234\n1\t12\n", (2, 3)),
            (b"3\t1234\n", (1, 4)),
            (b"ffffffffffffffff\t1234\n", (1, 4)),
            (b"3\t12\n2\t1234567812\n", (2, 3)),
            (b"0\t12\n\n1\t12\n", (2, 1)),
        ];
        for (text, fault) in kinds {
            assert_eq!(read(text, 4), Err(fault), "{text:?}");
        }
    }
}
