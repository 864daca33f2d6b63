//! Message frames: the reader, the writer and the frame count.

const HEADER_SIZE: usize = 24;
const FRAME_MAX: usize = 256;
const PIECE_MAX: usize = 232;
const MESSAGE_MAX: usize = 4096;

/// Type 1 in the low four bits, version 1 in the high four.
const TYPE_AND_VERSION: u8 = 0x11;

/// A refusal's number in the specification.
pub type Refusal = u32;

/// What a frame's header says, in the frame's order.
#[derive(Clone, Copy, Debug, PartialEq, Eq)]
pub struct Header {
    /// Byte 1: Reserved in T/GCC 3007-2025, the message's number to our heads.
    pub sequence: u8,
    pub index: u16,
    pub id: u32,
    pub sender: u32,
    pub receiver: u32,
    pub status: u32,
    pub total: u32,
}

/// The words that every frame of a message repeats, besides the message's length.
#[derive(Clone, Copy, Debug, PartialEq, Eq)]
pub struct Envelope {
    pub sequence: u8,
    pub id: u32,
    pub sender: u32,
    pub receiver: u32,
    pub status: u32,
}

/// Reads the header of a frame that is addressed to `us`.
pub fn parse(frame: &[u8], us: u32) -> Result<Header, Refusal> {
    if frame.len() < HEADER_SIZE {
        return Err(1);
    }
    if frame.len() > FRAME_MAX {
        return Err(2);
    }
    if frame[0] != TYPE_AND_VERSION {
        return Err(3);
    }
    if word(frame, 12) != us {
        return Err(4);
    }
    Ok(Header {
        sequence: frame[1],
        index: u16::from_le_bytes([frame[2], frame[3]]),
        id: word(frame, 4),
        sender: word(frame, 8),
        receiver: word(frame, 12),
        status: word(frame, 16),
        total: word(frame, 20),
    })
}

/// The data that a frame carries; none if it is shorter than a header.
pub fn data(frame: &[u8]) -> &[u8] {
    if frame.len() < HEADER_SIZE {
        return &[];
    }
    &frame[HEADER_SIZE..]
}

/// How many frames a message of `length` bytes takes.
pub fn count(length: usize, piece_size: usize) -> Result<usize, Refusal> {
    check_sizes(length, piece_size)?;
    if length == 0 {
        return Ok(1);
    }
    Ok(length.div_ceil(piece_size))
}

/// Writes the frame `index` of a message at the start of `out`. The answer is the whole of `out`
/// as it stands afterwards, and the frame's length.
pub fn write(
    envelope: &Envelope,
    message: &[u8],
    piece_size: usize,
    index: usize,
    out: &[u8],
) -> Result<(Vec<u8>, usize), Refusal> {
    let frame = one_frame(envelope, message, piece_size, index)?;
    if out.len() < frame.len() {
        return Err(14);
    }
    let unchanged = &out[frame.len()..];
    Ok(([&frame, unchanged].concat(), frame.len()))
}

/// All frames of a message, by Index.
pub fn frames(
    envelope: &Envelope,
    message: &[u8],
    piece_size: usize,
) -> Result<Vec<Vec<u8>>, Refusal> {
    let count = count(message.len(), piece_size)?;
    (0..count)
        .map(|index| one_frame(envelope, message, piece_size, index))
        .collect()
}

/// The frames that carry these pieces, by Index. The pieces are those of a message by the rules:
/// they may differ in length.
pub fn framed(envelope: &Envelope, pieces: &[&[u8]]) -> Vec<Vec<u8>> {
    let total = pieces.iter().map(|piece| piece.len()).sum();
    pieces
        .iter()
        .enumerate()
        .map(|(index, piece)| carrying(envelope, total, index, piece))
        .collect()
}

/// The frame `index` of a message.
fn one_frame(
    envelope: &Envelope,
    message: &[u8],
    piece_size: usize,
    index: usize,
) -> Result<Vec<u8>, Refusal> {
    check_sizes(message.len(), piece_size)?;
    let piece = piece(message, piece_size, index).ok_or(13u32)?;
    Ok(carrying(envelope, message.len(), index, piece))
}

/// The frame that carries a piece of a message of `total` bytes.
fn carrying(envelope: &Envelope, total: usize, index: usize, piece: &[u8]) -> Vec<u8> {
    let header = Header {
        sequence: envelope.sequence,
        index: u16::try_from(index).expect("a message has at most 4,096 frames"),
        id: envelope.id,
        sender: envelope.sender,
        receiver: envelope.receiver,
        status: envelope.status,
        total: u32::try_from(total).expect("a message has at most 4,096 bytes"),
    };
    [&encode(&header), piece].concat()
}

/// The refusals that the writer and the count share, in their order.
fn check_sizes(length: usize, piece_size: usize) -> Result<(), Refusal> {
    if length > MESSAGE_MAX {
        return Err(10);
    }
    if piece_size == 0 || piece_size > PIECE_MAX {
        return Err(12);
    }
    Ok(())
}

/// The piece that the frame `index` carries. An empty message has one piece, and it is empty.
fn piece(message: &[u8], piece_size: usize, index: usize) -> Option<&[u8]> {
    if message.is_empty() {
        return (index == 0).then_some(message);
    }
    message.chunks(piece_size).nth(index)
}

/// A header's 24 bytes.
pub fn encode(header: &Header) -> Vec<u8> {
    let mut bytes = vec![TYPE_AND_VERSION, header.sequence];
    bytes.extend(header.index.to_le_bytes());
    bytes.extend(header.id.to_le_bytes());
    bytes.extend(header.sender.to_le_bytes());
    bytes.extend(header.receiver.to_le_bytes());
    bytes.extend(header.status.to_le_bytes());
    bytes.extend(header.total.to_le_bytes());
    bytes
}

/// The little-endian four-byte word at an offset.
fn word(bytes: &[u8], at: usize) -> u32 {
    u32::from_le_bytes([bytes[at], bytes[at + 1], bytes[at + 2], bytes[at + 3]])
}
