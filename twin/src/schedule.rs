//! Schedule files: their calls, the reader with its faults, and a writer.

use crate::refusal::Refusal;

pub const EDITION: u16 = 1;
/// Bytes before the first call.
pub const HEADER: usize = 6;
/// Most bytes of a file.
pub const LONGEST: usize = 60_000;

#[derive(Clone, Copy, Debug, PartialEq, Eq)]
pub enum Call {
    Offer { time: u32, destination: u8, kind: u8, payload: u32 },
    Deliver { index: u16 },
    Run { board: u8 },
    Outlook,
    Commit { most: u16 },
}

impl Call {
    /// How many bytes the call has in a file, its letter among them.
    pub fn length(&self) -> usize {
        match self {
            Call::Offer { .. } => 11,
            Call::Deliver { .. } | Call::Commit { .. } => 3,
            Call::Run { .. } => 2,
            Call::Outlook => 1,
        }
    }

    pub fn write(&self, bytes: &mut Vec<u8>) {
        match *self {
            Call::Offer { time, destination, kind, payload } => {
                bytes.push(b'o');
                bytes.extend_from_slice(&time.to_le_bytes());
                bytes.push(destination);
                bytes.push(kind);
                bytes.extend_from_slice(&payload.to_le_bytes());
            }
            Call::Deliver { index } => {
                bytes.push(b'd');
                bytes.extend_from_slice(&index.to_le_bytes());
            }
            Call::Run { board } => bytes.extend_from_slice(&[b'r', board]),
            Call::Outlook => bytes.push(b'g'),
            Call::Commit { most } => {
                bytes.push(b'c');
                bytes.extend_from_slice(&most.to_le_bytes());
            }
        }
    }
}

#[derive(Clone, Debug, PartialEq, Eq)]
pub struct Schedule {
    pub end_time: u32,
    pub calls: Vec<Call>,
}

#[derive(Clone, Copy, Debug, PartialEq, Eq)]
#[repr(u8)]
pub enum Layer {
    File = 1,
    Call = 2,
    Number = 3,
}

#[derive(Clone, Copy, Debug, PartialEq, Eq)]
pub struct Fault {
    pub layer: Layer,
    pub offset: usize,
    pub refusal: Refusal,
}

/// The header of a file with no calls.
pub fn header(end_time: u32) -> Vec<u8> {
    let mut bytes = EDITION.to_le_bytes().to_vec();
    bytes.extend_from_slice(&end_time.to_le_bytes());
    bytes
}

impl Schedule {
    pub fn read(bytes: &[u8]) -> Result<Schedule, Fault> {
        let file_fault = |offset, refusal| Err(Fault { layer: Layer::File, offset, refusal });
        if bytes.len() > LONGEST {
            return file_fault(LONGEST, Refusal::FileLong);
        }
        let Some((&[low, high, end_time @ ..], mut rest)) = bytes.split_first_chunk::<HEADER>()
        else {
            return file_fault(bytes.len(), Refusal::FileShort);
        };
        if u16::from_le_bytes([low, high]) != EDITION {
            return file_fault(0, Refusal::Edition);
        }
        let mut calls = Vec::new();
        while !rest.is_empty() {
            let offset = bytes.len() - rest.len();
            let (call, behind) = read_call(rest).map_err(|refusal| {
                let layer = if refusal == Refusal::CallCut { Layer::Number } else { Layer::Call };
                Fault { layer, offset, refusal }
            })?;
            calls.push(call);
            rest = behind;
        }
        Ok(Schedule { end_time: u32::from_le_bytes(end_time), calls })
    }

    pub fn write(&self) -> Vec<u8> {
        let mut bytes = header(self.end_time);
        for call in &self.calls {
            call.write(&mut bytes);
        }
        bytes
    }
}

/// Reads the call that `bytes` open with, and answers it with what follows.
fn read_call(bytes: &[u8]) -> Result<(Call, &[u8]), Refusal> {
    let (letter, numbers) = bytes.split_first().ok_or(Refusal::CallCut)?;
    match letter {
        b'o' => {
            let (&[t0, t1, t2, t3, destination, kind, p0, p1, p2, p3], rest) = cut(numbers)?;
            let time = u32::from_le_bytes([t0, t1, t2, t3]);
            let payload = u32::from_le_bytes([p0, p1, p2, p3]);
            Ok((Call::Offer { time, destination, kind, payload }, rest))
        }
        b'd' => {
            let (index, rest) = cut(numbers)?;
            Ok((Call::Deliver { index: u16::from_le_bytes(*index) }, rest))
        }
        b'r' => {
            let (&[board], rest) = cut(numbers)?;
            Ok((Call::Run { board }, rest))
        }
        b'g' => Ok((Call::Outlook, numbers)),
        b'c' => {
            let (most, rest) = cut(numbers)?;
            Ok((Call::Commit { most: u16::from_le_bytes(*most) }, rest))
        }
        _ => Err(Refusal::Letter),
    }
}

fn cut<const N: usize>(bytes: &[u8]) -> Result<(&[u8; N], &[u8]), Refusal> {
    bytes.split_first_chunk().ok_or(Refusal::CallCut)
}

#[cfg(test)]
mod tests {
    use super::*;

    fn fault(bytes: &[u8]) -> (u8, usize, u8) {
        let fault = Schedule::read(bytes).unwrap_err();
        (fault.layer as u8, fault.offset, fault.refusal.number())
    }

    fn sample() -> Schedule {
        Schedule {
            end_time: 0x0403_0201,
            calls: vec![
                Call::Offer { time: 0x1122_3344, destination: 5, kind: 6, payload: 0x5566_7788 },
                Call::Deliver { index: 0x0102 },
                Call::Run { board: 9 },
                Call::Outlook,
                Call::Commit { most: 0xFFFE },
            ],
        }
    }

    #[test]
    fn numbers_are_little_endian() {
        let bytes = b"\x01\0\x01\x02\x03\x04o\x44\x33\x22\x11\x05\x06\x88\x77\x66\x55d\x02\x01r\x09gc\xFE\xFF";
        assert_eq!(Schedule::read(bytes), Ok(sample()));
        assert_eq!(sample().write(), bytes);
        let length: usize = sample().calls.iter().map(Call::length).sum();
        assert_eq!(HEADER + length, bytes.len());
    }

    #[test]
    fn faults_of_the_file() {
        assert_eq!(fault(b""), (1, 0, 3));
        assert_eq!(fault(b"\x02\0\0\0\0"), (1, 5, 3));
        assert_eq!(fault(b"\x02\0\0\0\0\0x"), (1, 0, 4));
        assert_eq!(fault(b"\x01\x01\0\0\0\0"), (1, 0, 4));
        assert_eq!(Schedule::read(b"\x01\0\0\0\0\0").unwrap().calls, []);
        let mut bytes = header(7);
        bytes.resize(LONGEST, b'g');
        assert_eq!(Schedule::read(&bytes).unwrap().calls.len(), LONGEST - HEADER);
        bytes.push(b'g');
        assert_eq!(fault(&bytes), (1, 60_000, 7));
        bytes[0] = 2;
        assert_eq!(fault(&bytes), (1, 60_000, 7));
    }

    #[test]
    fn faults_of_a_call() {
        let bytes = sample().write();
        let starts = [6, 17, 20, 22, 23, 26];
        for end in HEADER..=bytes.len() {
            let start = *starts.iter().rev().find(|start| **start <= end).unwrap();
            if end == start {
                assert!(Schedule::read(&bytes[..end]).is_ok());
            } else {
                assert_eq!(fault(&bytes[..end]), (3, start, 6));
            }
        }
        for start in starts {
            for letter in [0, b'O', b'a', b'z', 255] {
                let mut bytes = bytes[..start].to_vec();
                bytes.push(letter);
                assert_eq!(fault(&bytes), (2, start, 5));
                bytes.push(b'd');
                assert_eq!(fault(&bytes), (2, start, 5));
            }
        }
    }
}
