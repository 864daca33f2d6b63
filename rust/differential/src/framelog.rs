//! The frame log's calls of both implementations, on the same bytes.

use crate::assert_each;
use crate::memory::{Lent, Shown};
use crate::random::Random;
use hoursquall::{raw, Refusal};
use reference::framelog;

/// One more than the highest answer.
const ANSWERS: usize = 54;

/// Both implementations, and the safe wrapper besides. Each call, and all that it was lent, is
/// compared. How often each answer was given is counted, so that a test that misses one fails.
pub struct Machine {
    /// For what the lent number is before a call, and what stands around all that is lent.
    random: Random,
    reads: [usize; ANSWERS],
    writes: [usize; ANSWERS],
}

impl Machine {
    pub fn new(random: &mut Random) -> Machine {
        Machine {
            random: Random::new(random.u64()),
            reads: [0; ANSWERS],
            writes: [0; ANSWERS],
        }
    }

    /// Reads a record.
    pub fn read<'a>(&mut self, slice: &'a [u8]) -> Result<&'a [u8], Refusal> {
        let expected = framelog::read(slice);
        let mut record = self.bytes(slice);
        let length = expected.ok().map(<[u8]>::len);
        let mut frame_len = Lent::number(self.random.usize(), length);

        let (start, record_len) = record.slice();
        // SAFETY: the pointer and the length are those of one slice, and `frame_len` is lent for
        // this alone.
        let answer = unsafe { raw::hs_log_read(start, record_len, frame_len.pointer()) };

        let call = format_args!("read of {}", Shown(slice));
        assert_eq!(answer, expected.err().unwrap_or(0), "{call}");
        frame_len.assert_number(call);
        record.assert_bytes(call);
        let wrapped = hoursquall::framelog::read(slice);
        assert_eq!(wrapped, expected, "{call}");
        // Not only their bytes are the same: both are the same part of the record.
        let starts = [wrapped, expected].map(|frame| frame.map(<[u8]>::as_ptr));
        assert_eq!(starts[0], starts[1], "{call}");
        self.reads[answer as usize] += 1;
        expected
    }

    /// Writes the record of a frame over a slice, and answers what is there then.
    pub fn write(&mut self, frame: &[u8], slice: &[u8]) -> Result<Vec<u8>, Refusal> {
        let mut after = slice.to_vec();
        let expected = framelog::write(frame, &mut after);
        let mut lent_frame = self.bytes(frame);
        let margin = self.random.u8();
        let [mut record, mut wrapped] = [(); 2].map(|()| Lent::new(slice, &after, margin));

        let (start, frame_len) = lent_frame.slice();
        let (to_record, record_len) = (record.pointer(), slice.len());
        // SAFETY: each pointer and length are those of one slice, and what is written is lent for
        // that alone.
        let answer = unsafe { raw::hs_log_write(start, frame_len, to_record, record_len) };

        let call = format_args!("write of {} over {record_len} bytes", Shown(frame));
        assert_eq!(answer, expected.err().unwrap_or(0), "{call}");
        lent_frame.assert_bytes(call);
        record.assert_bytes(call);
        let wrapper_answer = hoursquall::framelog::write(frame, wrapped.lent());
        assert_eq!(wrapper_answer, expected, "{call}");
        wrapped.assert_bytes(call);
        self.writes[answer as usize] += 1;
        expected.map(|()| after)
    }

    /// Each of these answers was given to reads often enough.
    pub fn assert_reads(&self, what: &str, answers: &[usize], least: usize) {
        assert_each(&format!("{what}, reads"), &self.reads, answers, least);
    }

    /// The same of writes.
    pub fn assert_writes(&self, what: &str, answers: &[usize], least: usize) {
        assert_each(&format!("{what}, writes"), &self.writes, answers, least);
    }

    /// Bytes that no call may change.
    fn bytes(&mut self, bytes: &[u8]) -> Lent<u8> {
        Lent::new(bytes, bytes, self.random.u8())
    }
}
