//! Notices that wait in a ring.

use crate::{accepted, calls, Refusal};

/// Where the next notice is taken from a ring, and where the next one is posted: offsets below the
/// ring's length. Equal positions mean an empty ring.
///
/// ```
/// use hoursquall::{Notice, Positions, Refusal};
///
/// let mut positions = Positions::default();
/// let mut ring = [0; 32];
/// let mut out = [0; 16];
///
/// // 31 bytes may wait, and a notice is eight bytes longer than its data.
/// positions.post(&mut ring, 7, b"first")?;
/// positions.post(&mut ring, 8, b"second")?;
/// assert_eq!(positions.post(&mut ring, 9, b""), Err(25));
///
/// let Notice { id, length } = positions.take(&ring, &mut out)?;
/// assert_eq!((id, &out[..length]), (7, &b"first"[..]));
///
/// // There is room again; the third notice runs past the ring's last byte to its first.
/// positions.post(&mut ring, 9, b"third")?;
/// assert_eq!(positions, Positions { read: 13, write: 8 });
/// let Notice { id, length } = positions.take(&ring, &mut out)?;
/// assert_eq!((id, &out[..length]), (8, &b"second"[..]));
/// let Notice { id, length } = positions.take(&ring, &mut out)?;
/// assert_eq!((id, &out[..length]), (9, &b"third"[..]));
/// assert_eq!(positions.take(&ring, &mut out), Err(21));
/// # Ok::<(), Refusal>(())
/// ```
#[derive(Clone, Copy, Debug, Default, PartialEq, Eq)]
pub struct Positions {
    /// Where the next notice is taken.
    pub read: usize,
    /// Where the next notice is posted.
    pub write: usize,
}

/// A notice that was taken.
#[derive(Clone, Copy, Debug, PartialEq, Eq)]
pub struct Notice {
    /// Notify ID.
    pub id: u32,
    /// Data Length: the data is that many bytes at the start of the output.
    pub length: usize,
}

impl Positions {
    /// Posts a notice. Only its bytes in the ring and the write position change, and nothing does
    /// if it is refused. Refusals, in order: 20, 24, 25.
    pub fn post(&mut self, ring: &mut [u8], id: u32, data: &[u8]) -> Result<(), Refusal> {
        let mut positions = [self.read, self.write];
        let answer = calls::post(ring, &mut positions, id, data);
        [self.read, self.write] = positions;
        accepted(answer)
    }

    /// Takes the notice that waits longest. Only as many bytes of `out` as it has data and the
    /// read position change, and nothing does if it is refused. Refusals, in order: 20 to 23.
    pub fn take(&mut self, ring: &[u8], out: &mut [u8]) -> Result<Notice, Refusal> {
        let mut positions = [self.read, self.write];
        let (mut id, mut length) = (0, 0);
        let answer = calls::take(ring, &mut positions, out, &mut id, &mut length);
        [self.read, self.write] = positions;
        accepted(answer).map(|()| Notice { id, length })
    }
}
