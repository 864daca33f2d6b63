//! The notice ring: notices posted into a lent ring and taken out of it, byte by byte.

use crate::frame::Refusal;
use std::collections::VecDeque;

const RING_MIN: usize = 16;
const RING_MAX: usize = 65_536;
const HEADER_SIZE: usize = 8;
const DATA_MAX: usize = 1024;

/// Offsets below the ring's length. Equal positions mean empty.
#[derive(Clone, Copy, Debug, PartialEq, Eq)]
pub struct Positions {
    pub read: usize,
    pub write: usize,
}

#[derive(Clone, Debug, PartialEq, Eq)]
pub struct Notice {
    pub id: u32,
    pub data: Vec<u8>,
}

/// Posts a notice.
pub fn post(
    ring: &mut [u8],
    positions: &mut Positions,
    id: u32,
    data: &[u8],
) -> Result<(), Refusal> {
    check_ring(ring.len(), positions)?;
    if data.len() > DATA_MAX {
        return Err(24);
    }
    if HEADER_SIZE + data.len() > ring.len() - 1 - waiting(ring.len(), positions) {
        return Err(25);
    }
    for byte in encode(id, data) {
        ring[positions.write] = byte;
        positions.write = (positions.write + 1) % ring.len();
    }
    Ok(())
}

/// Takes the notice at the read position; its data lands at the start of `out`.
pub fn take(ring: &[u8], positions: &mut Positions, out: &mut [u8]) -> Result<Notice, Refusal> {
    check_ring(ring.len(), positions)?;
    let waiting = waiting(ring.len(), positions);
    if waiting == 0 {
        return Err(21);
    }
    if waiting < HEADER_SIZE {
        return Err(22);
    }
    let length = word(ring, positions.read + 4) as usize;
    if length > DATA_MAX || length > waiting - HEADER_SIZE {
        return Err(22);
    }
    if out.len() < length {
        return Err(23);
    }
    let notice = Notice {
        id: word(ring, positions.read),
        data: bytes(ring, positions.read + HEADER_SIZE, length),
    };
    out[..length].copy_from_slice(&notice.data);
    positions.read = (positions.read + HEADER_SIZE + length) % ring.len();
    Ok(notice)
}

/// How many bytes wait, if the ring is a legal one.
pub fn waiting(capacity: usize, positions: &Positions) -> usize {
    (positions.write + capacity - positions.read) % capacity
}

fn check_ring(capacity: usize, positions: &Positions) -> Result<(), Refusal> {
    let legal = (RING_MIN..=RING_MAX).contains(&capacity) && capacity.is_multiple_of(8);
    if !legal || positions.read >= capacity || positions.write >= capacity {
        return Err(20);
    }
    Ok(())
}

/// A notice's bytes.
fn encode(id: u32, data: &[u8]) -> Vec<u8> {
    let length = u32::try_from(data.len()).expect("a notice has at most 1,024 bytes of data");
    let mut bytes = Vec::new();
    bytes.extend(id.to_le_bytes());
    bytes.extend(length.to_le_bytes());
    bytes.extend(data);
    bytes
}

/// Bytes of the ring from an offset on, which may be past the last one.
fn bytes(ring: &[u8], at: usize, length: usize) -> Vec<u8> {
    (at..at + length).map(|at| ring[at % ring.len()]).collect()
}

/// The little-endian four-byte word at such an offset.
fn word(ring: &[u8], at: usize) -> u32 {
    let bytes = bytes(ring, at, 4);
    u32::from_le_bytes([bytes[0], bytes[1], bytes[2], bytes[3]])
}

/// What a ring is from the outside, if it was empty at first: a first-in first-out queue of
/// notices in which at most C − 1 bytes wait.
pub struct Queue {
    notices: VecDeque<Notice>,
    /// How many bytes more may wait.
    room: usize,
}

impl Queue {
    /// The queue of an empty ring with a legal capacity.
    pub fn new(capacity: usize) -> Queue {
        Queue {
            notices: VecDeque::new(),
            room: capacity - 1,
        }
    }

    pub fn room(&self) -> usize {
        self.room
    }

    /// The notice that the next take answers.
    pub fn first(&self) -> Option<&Notice> {
        self.notices.front()
    }

    pub fn post(&mut self, id: u32, data: &[u8]) -> Result<(), Refusal> {
        if data.len() > DATA_MAX {
            return Err(24);
        }
        if HEADER_SIZE + data.len() > self.room {
            return Err(25);
        }
        self.room -= HEADER_SIZE + data.len();
        let data = data.to_vec();
        self.notices.push_back(Notice { id, data });
        Ok(())
    }

    /// Takes the first notice, if its data is not longer than the output.
    pub fn take(&mut self, out_length: usize) -> Result<Notice, Refusal> {
        let first = self.first().ok_or(21u32)?;
        if first.data.len() > out_length {
            return Err(23);
        }
        let first = self.notices.pop_front().expect("there is one");
        self.room += HEADER_SIZE + first.data.len();
        Ok(first)
    }
}

#[cfg(test)]
mod tests {
    use super::*;

    fn at(read: usize, write: usize) -> Positions {
        Positions { read, write }
    }

    /// The specification's own numbers.
    #[test]
    fn ring_of_sixteen() {
        let (mut ring, mut positions, mut out) = ([0xA5; 16], at(0, 0), [0; 7]);
        assert_eq!(post(&mut ring, &mut positions, 1, &[9; 8]), Err(25));
        assert_eq!((ring, positions), ([0xA5; 16], at(0, 0)));
        assert_eq!(post(&mut ring, &mut positions, 1, &[9; 7]), Ok(()));
        assert_eq!((ring[15], positions), (0xA5, at(0, 15)));
        let taken = take(&ring, &mut positions, &mut out).expect("a notice waits");
        assert_eq!((taken.id, out, positions), (1, [9; 7], at(15, 15)));
        assert_eq!(
            post(&mut ring, &mut positions, 0x0403_0201, &[5, 6]),
            Ok(())
        );
        assert_eq!(ring[15], 1);
        assert_eq!(ring[..9], [2, 3, 4, 2, 0, 0, 0, 5, 6]);
        assert_eq!(positions, at(15, 9));
    }

    #[test]
    fn bad_rings() {
        for capacity in [0, 8, 15, 17, 65_535, 65_544] {
            let mut ring = vec![0; capacity];
            assert_eq!(post(&mut ring, &mut at(0, 0), 1, &[0; 1025]), Err(20));
            assert_eq!(take(&ring, &mut at(0, 0), &mut []), Err(20));
        }
        for mut positions in [at(16, 0), at(0, 16), at(usize::MAX, 0), at(0, usize::MAX)] {
            assert_eq!(post(&mut [0; 16], &mut positions, 1, &[]), Err(20));
            assert_eq!(take(&[0; 16], &mut positions, &mut []), Err(20));
        }
    }

    #[test]
    fn refused_takes() {
        let mut ring = vec![0; 2048];
        let mut refusal = |length: u16, write| {
            ring[4..6].copy_from_slice(&length.to_le_bytes());
            take(&ring, &mut at(0, write), &mut [0; 1023]).err()
        };
        assert_eq!(refusal(0, 0), Some(21));
        assert_eq!(refusal(0, 7), Some(22));
        assert_eq!(refusal(0, 8), None);
        assert_eq!(refusal(1, 8), Some(22));
        assert_eq!(refusal(1023, 1032), None);
        assert_eq!(refusal(1024, 1032), Some(23));
        assert_eq!(refusal(1025, 1033), Some(22));
    }

    #[test]
    fn queue_has_its_room() {
        let mut queue = Queue::new(24);
        assert_eq!(queue.post(1, &[0; 1025]), Err(24));
        assert_eq!(queue.post(1, &[7; 7]), Ok(()));
        assert_eq!(queue.post(2, &[1]), Err(25));
        assert_eq!(queue.post(2, &[]), Ok(()));
        assert_eq!(queue.take(6), Err(23));
        assert_eq!(queue.take(7).map(|notice| notice.id), Ok(1));
        assert_eq!(queue.take(0).map(|notice| notice.id), Ok(2));
        assert_eq!((queue.take(0), queue.room()), (Err(21), 23));
    }
}
