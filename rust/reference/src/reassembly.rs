//! Reassembly: the frames of a message, one call each, into a lent buffer.

use crate::frame::{self, Header, Refusal};

const MESSAGE_MAX: u64 = 4096;

/// The five carried words.
#[derive(Clone, Copy, Debug, PartialEq, Eq)]
pub struct Words {
    pub sequence: u8,
    pub id: u32,
    pub sender: u32,
    pub status: u32,
    pub total: u32,
}

/// A message of which frames are still missing.
#[derive(Clone, Copy, Debug, PartialEq, Eq)]
pub struct Open {
    pub words: Words,
    /// The next Index.
    pub next: u64,
    /// How many bytes of the buffer are filled.
    pub filled: u64,
}

#[derive(Clone, Copy, Debug, PartialEq, Eq)]
pub enum State {
    Fresh,
    Open(Open),
}

#[derive(Clone, Copy, Debug, PartialEq, Eq)]
pub enum Verdict {
    More,
    /// The message is the buffer's first `total` bytes.
    Delivered(Words),
    Refused(Refusal),
}

/// A verdict, and the state after it.
#[derive(Clone, Copy, Debug, PartialEq, Eq)]
pub struct Answer {
    pub verdict: Verdict,
    pub state: State,
}

/// Takes one frame.
pub fn step(state: State, frame: &[u8], us: u32, buffer: &mut [u8]) -> Answer {
    if !fresh_or_consistent(state, buffer.len() as u64) {
        return refused(11, State::Fresh);
    }
    let header = match frame::parse(frame, us) {
        Ok(header) => header,
        Err(refusal) => return refused(refusal, state),
    };
    let data = frame::data(frame);
    match receiving(state, &header, data.len() as u64, buffer.len() as u64) {
        Ok(open) => fill(open, data, buffer),
        Err(refusal) => refused(refusal, State::Fresh),
    }
}

fn refused(refusal: Refusal, state: State) -> Answer {
    Answer {
        verdict: Verdict::Refused(refusal),
        state,
    }
}

fn fresh_or_consistent(state: State, buffer_length: u64) -> bool {
    let State::Open(Open {
        words,
        next,
        filled,
    }) = state
    else {
        return true;
    };
    let total = u64::from(words.total);
    1 <= next && next <= filled && filled < total && total <= MESSAGE_MAX && total <= buffer_length
}

/// The message that takes the frame's data, as it stands before that.
fn receiving(
    state: State,
    header: &Header,
    data_length: u64,
    buffer_length: u64,
) -> Result<Open, Refusal> {
    let open = if header.index == 0 {
        begun(header, buffer_length)?
    } else {
        continued(state, header)?
    };
    let total = u64::from(header.total);
    if data_length == 0 && total != 0 {
        return Err(8);
    }
    if data_length > total - open.filled {
        return Err(9);
    }
    Ok(open)
}

/// A message that begins anew, whatever was open before.
fn begun(header: &Header, buffer_length: u64) -> Result<Open, Refusal> {
    let total = u64::from(header.total);
    if total > MESSAGE_MAX || total > buffer_length {
        return Err(10);
    }
    Ok(Open {
        words: carried(header),
        next: 0,
        filled: 0,
    })
}

/// The open message, if the frame is its next one.
fn continued(state: State, header: &Header) -> Result<Open, Refusal> {
    let State::Open(open) = state else {
        return Err(5);
    };
    if u64::from(header.index) != open.next {
        return Err(6);
    }
    if carried(header) != open.words {
        return Err(7);
    }
    Ok(open)
}

fn carried(header: &Header) -> Words {
    Words {
        sequence: header.sequence,
        id: header.id,
        sender: header.sender,
        status: header.status,
        total: header.total,
    }
}

/// Lays the data into the buffer from the first unfilled byte on.
fn fill(open: Open, data: &[u8], buffer: &mut [u8]) -> Answer {
    let filled = open.filled + data.len() as u64;
    buffer[open.filled as usize..filled as usize].copy_from_slice(data);
    if filled == u64::from(open.words.total) {
        return Answer {
            verdict: Verdict::Delivered(open.words),
            state: State::Fresh,
        };
    }
    Answer {
        verdict: Verdict::More,
        state: State::Open(Open {
            words: open.words,
            next: open.next + 1,
            filled,
        }),
    }
}
