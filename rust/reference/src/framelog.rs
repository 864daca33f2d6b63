//! The frame log: records of 260 bytes, each with one frame.

use crate::frame::Refusal;

const RECORD_SIZE: usize = 260;
const HEADER_SIZE: usize = 4;
const FRAME_MAX: usize = 256;

/// The frame in a record.
pub fn read(slice: &[u8]) -> Result<&[u8], Refusal> {
    if slice.len() != RECORD_SIZE {
        return Err(50);
    }
    let length = usize::from(u16::from_le_bytes([slice[0], slice[1]]));
    if length > FRAME_MAX {
        return Err(52);
    }
    if slice[2] != 0 || slice[3] != 0 {
        return Err(51);
    }
    let (frame, rest) = slice[HEADER_SIZE..].split_at(length);
    if rest.iter().any(|&byte| byte != 0) {
        return Err(53);
    }
    Ok(frame)
}

/// Writes the record of a frame over all of a slice.
pub fn write(frame: &[u8], slice: &mut [u8]) -> Result<(), Refusal> {
    if slice.len() != RECORD_SIZE {
        return Err(50);
    }
    if frame.len() > FRAME_MAX {
        return Err(52);
    }
    slice.copy_from_slice(&encode(frame));
    Ok(())
}

/// The record of a frame that is not too long.
fn encode(frame: &[u8]) -> Vec<u8> {
    let length = u16::try_from(frame.len()).expect("a frame has at most 256 bytes");
    let mut record = Vec::new();
    record.extend(length.to_le_bytes());
    record.extend([0, 0]);
    record.extend(frame);
    record.resize(RECORD_SIZE, 0);
    record
}

#[cfg(test)]
mod tests {
    use super::*;

    fn written(frame: &[u8]) -> [u8; RECORD_SIZE] {
        let mut record = [0xA5; RECORD_SIZE];
        assert_eq!(write(frame, &mut record), Ok(()));
        record
    }

    fn changed(record: &[u8; RECORD_SIZE], at: usize, byte: u8) -> [u8; RECORD_SIZE] {
        let mut record = *record;
        record[at] = byte;
        record
    }

    #[test]
    fn bytes_of_a_record() {
        let record = written(&[7, 8, 9]);
        assert_eq!(record[..7], [3, 0, 0, 0, 7, 8, 9]);
        assert_eq!(record[7..], [0; 253]);
        let record = written(&[7; 256]);
        assert_eq!(record[..4], [0, 1, 0, 0]);
        assert_eq!(record[4..], [7; 256]);
        assert_eq!(written(&[]), [0; 260]);
    }

    #[test]
    fn what_is_written_reads_back() {
        for length in 0..=FRAME_MAX {
            let frame: Vec<u8> = (0..length).map(|place| place as u8).collect();
            assert_eq!(read(&written(&frame)), Ok(&frame[..]));
        }
    }

    #[test]
    fn each_fault_of_a_record() {
        let record = written(&[7, 0]);
        assert_eq!(read(&record[..259]), Err(50));
        assert_eq!(read(&[&record[..], &[0]].concat()), Err(50));
        assert_eq!(read(&[]), Err(50));
        assert_eq!(read(&changed(&record, 1, 1)), Err(52));
        assert_eq!(read(&changed(&record, 2, 1)), Err(51));
        assert_eq!(read(&changed(&record, 3, 0x80)), Err(51));
        assert_eq!(read(&changed(&record, 6, 1)), Err(53));
        assert_eq!(read(&changed(&record, 259, 1)), Err(53));
        assert_eq!(read(&changed(&record, 5, 1)), Ok(&[7, 1][..]));
    }

    /// A record with all faults, of which one after the other is put right.
    #[test]
    fn order_of_refusals() {
        let mut slice = vec![1; 261];
        assert_eq!(read(&slice), Err(50));
        slice.truncate(260);
        assert_eq!(read(&slice), Err(52));
        slice[1] = 0;
        assert_eq!(read(&slice), Err(51));
        slice[2..4].fill(0);
        assert_eq!(read(&slice), Err(53));
        slice[5..].fill(0);
        assert_eq!(read(&slice), Ok(&[1][..]));
    }

    #[test]
    fn refused_writes() {
        for (length, frame_length, refusal) in [(259, 0, 50), (261, 257, 50), (260, 257, 52)] {
            let mut slice = vec![0xA5; length];
            assert_eq!(write(&vec![1; frame_length], &mut slice), Err(refusal));
            assert_eq!(slice, vec![0xA5; length]);
        }
        assert_eq!(write(&[1; 65_536], &mut [0; 260]), Err(52));
    }
}
