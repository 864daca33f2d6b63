/* Hoursquall: UBIOS message frames, their reassembly into messages, the notice ring,
 * UBIOS tables, SFI tables, the checksums of both, the frame log, and its replay.
 *
 * Link target/staticlib/libhoursquall.a, and libhoursquall_replay.a beside it for the
 * functions hs_replay_ (x86-64, System V calling convention). No release
 * is out yet: what is declared here may change, as it did when byte 1 of a frame became a
 * carried word, so compile a caller anew, and keep no state of the reassembly, and no
 * player, from one build of the library to the next.
 *
 * What every caller owes: a pointer is not null, also with a length of 0; it is
 * aligned, and points to as many values as its length or its array type says,
 * readable, and writable unless it is const. Nothing that is written through one
 * pointer may overlap what another one points to. During a call nobody else writes what
 * is lent to it, or reads what it may write: what two threads or two processors share,
 * as a ring may be, needs a lock of the caller's own around each call. */
#ifndef HOURSQUALL_H
#define HOURSQUALL_H

#include <stddef.h>
#include <stdint.h>

#ifdef __cplusplus
extern "C" {
#endif

/* Sizes in bytes. */
enum {
    HS_HEADER_SIZE = 24,
    HS_FRAME_MAX = 256,
    HS_PIECE_MAX = 232, /* a frame's data: HS_FRAME_MAX less the header */
    HS_MESSAGE_MAX = 4096,
    HS_RING_MIN = 16,
    HS_RING_MAX = 65536,
    HS_NOTICE_HEADER_SIZE = 8, /* Notify ID and Data Length */
    HS_NOTICE_MAX = 1024,      /* a notice's data */
    HS_TABLE_HEADER_SIZE = 32,
    HS_ROOT_HEADER_SIZE = 40, /* with Count and six reserved bytes */
    HS_TABLE_MAX = 65536,     /* a table's Total Size */
    HS_NAME_MAX = 16,         /* a table's name */
    HS_SFI_HEADER_SIZE = 24,
    HS_SFI_MAX = 65536,          /* an SFI table's Length */
    HS_SFI_MEMORY_SIZE = 131072, /* what SYST is sought in: 0xE0000 to 0xFFFFF */
    HS_LOG_RECORD_SIZE = 260,
    HS_LOG_HEADER_SIZE = 4, /* what stands before the frame in a record */
    HS_LOG_FRAME_MAX = 256, /* a frame in a record */
    HS_LINE_MAX = 47,       /* a line of the replay, its newline included */
};

/* Places of the words that hs_frame_parse hands out, in the frame's order. */
enum {
    HS_HEADER_SEQUENCE = 0, /* the message's number: byte 1, Reserved in T/GCC 3007-2025 */
    HS_HEADER_INDEX = 1,
    HS_HEADER_ID = 2, /* Message ID */
    HS_HEADER_SENDER = 3,
    HS_HEADER_RECEIVER = 4,
    HS_HEADER_STATUS = 5, /* Output Size or Returned Status */
    HS_HEADER_TOTAL = 6,  /* Data Total Size, the message's length */
    HS_HEADER_WORDS = 7,
};

/* Places of the carried words, which every frame of a message repeats, as
 * hs_reassembly_step hands them out. Each means what the word at the HS_HEADER_ place of
 * the same name means. */
enum {
    HS_WORD_SEQUENCE = 0,
    HS_WORD_ID = 1,
    HS_WORD_SENDER = 2,
    HS_WORD_STATUS = 3,
    HS_WORD_TOTAL = 4,
    HS_WORDS = 5,
};

/* How many numbers a state of the reassembly has, and a player, and a ring positions; how
 * many numbers are handed out of a table, a root table and a table's body; and how many
 * slots a root table has at most. */
enum {
    HS_STATE_NUMBERS = 8,
    HS_PLAYER_NUMBERS = 9, /* a state, and the next record's number */
    HS_POSITIONS = 2,
    HS_TABLE_NUMBERS = 2,
    HS_ROOT_NUMBERS = 3,
    HS_BODY_NUMBERS = 3,
    HS_SLOTS_MAX = 128,
};

/* Signatures of SFI tables, each the little-endian word of its four letters. Beside each
 * stand the size of an entry in bytes, and the listed Revision: newer ones are read like
 * it, with entries of that size. */
enum {
    HS_SFI_SYST = 0x54535953, /* 8, Revision 1 */
    HS_SFI_CPUS = 0x53555043, /* 4, Revision 1 */
    HS_SFI_APIC = 0x43495041, /* 8, Revision 1 */
    HS_SFI_MMAP = 0x50414D4D, /* 36, Revision 1 */
    HS_SFI_FREQ = 0x51455246, /* 12, Revision 1 */
    HS_SFI_MRTC = 0x4354524D, /* 12, Revision 1 */
    HS_SFI_DEVS = 0x53564544, /* 25, Revision 1 */
    HS_SFI_GPIO = 0x4F495047, /* 34, Revision 1 */
    HS_SFI_MTMR = 0x524D544D, /* 16, Revision 2 */
    HS_SFI_WAKE = 0x454B4157, /* 8, Revision 2; exactly one entry */
};

/* Answers. A refusal is the first in its function's list whose condition holds. */
enum {
    HS_OK = 0,
    HS_MORE = 0,                   /* reassembly: more frames are wanted */
    HS_DELIVERED = 100,            /* reassembly: a message is complete */
    HS_REFUSED_FRAME_SHORT = 1,    /* frame under HS_HEADER_SIZE bytes */
    HS_REFUSED_FRAME_LONG = 2,     /* frame over HS_FRAME_MAX bytes */
    HS_REFUSED_WRONG_TYPE = 3,     /* byte 0 is not 0x11: type 1, version 1 */
    HS_REFUSED_OTHER_RECEIVER = 4, /* Receiver ID is not ours */
    HS_REFUSED_NOTHING_OPEN = 5,   /* Index not 0, no message is open */
    HS_REFUSED_OUT_OF_ORDER = 6,   /* Index not 0, and not the next one */
    HS_REFUSED_OTHER_WORDS = 7,    /* Index is the next one, a carried word differs */
    HS_REFUSED_NO_DATA = 8,        /* no data, though Data Total Size is not 0 */
    HS_REFUSED_TOO_MUCH_DATA = 9,  /* more data than is still missing */
    HS_REFUSED_MESSAGE_LONG = 10,  /* message over HS_MESSAGE_MAX bytes; in the
                                      reassembly: Index 0, over that or the buffer */
    HS_REFUSED_BAD_STATE = 11,     /* the state is neither fresh nor consistent */
    HS_REFUSED_PIECE_SIZE = 12,    /* piece size 0 or over HS_PIECE_MAX */
    HS_REFUSED_NO_FRAME = 13,      /* the message has no frame of that Index */
    HS_REFUSED_OUTPUT_SHORT = 14,  /* output shorter than the frame */
};

/* Refusals of the notice ring. */
enum {
    HS_REFUSED_BAD_RING = 20,            /* ring_len or a position is not legal */
    HS_REFUSED_EMPTY = 21,               /* nothing waits */
    HS_REFUSED_DAMAGED = 22,             /* what waits starts with no legal notice */
    HS_REFUSED_NOTICE_OUTPUT_SHORT = 23, /* output shorter than the data */
    HS_REFUSED_NOTICE_LONG = 24,         /* data over HS_NOTICE_MAX bytes */
    HS_REFUSED_FULL = 25,                /* the notice does not fit what is free */
};

/* Refusals of UBIOS tables. */
enum {
    HS_REFUSED_TABLE_OUTSIDE = 30,    /* region past 2^64, or header not inside */
    HS_REFUSED_TABLE_MISALIGNED = 31, /* address is not a multiple of 8 */
    HS_REFUSED_TABLE_SIZE = 32,       /* Total or Remaining Size is not legal */
    HS_REFUSED_TABLE_VERSION = 33,    /* Version is not 1 */
    HS_REFUSED_TABLE_SUM = 34,        /* the used part does not sum to 0 */
    HS_REFUSED_NOT_ROOT = 35,         /* the root's name is not root_table */
    HS_REFUSED_SLOT_COUNT = 36,       /* the root's Count is not legal */
    HS_REFUSED_NO_TABLE = 37,         /* no slot leads to a table of the name */
    HS_REFUSED_TWO_TABLES = 38,       /* two slots or more do */
    HS_REFUSED_BAD_NAME = 39,         /* the name sought is not legal */
};

/* Which table hs_sfi_choose chooses. */
enum {
    HS_SFI_BOARD = 101,
    HS_SFI_BUILT_IN = 102,
};

/* Refusals of SFI tables. */
enum {
    HS_REFUSED_SFI_LENGTH = 40,    /* table_len or Length is not legal */
    HS_REFUSED_SFI_SUM = 41,       /* the table's Length bytes do not sum to 0 */
    HS_REFUSED_SFI_SIGNATURE = 42, /* no kind of table has the signature */
    HS_REFUSED_SFI_ENTRIES = 43,   /* Length is not that of whole entries; of one for WAKE */
    HS_REFUSED_SFI_REVISION = 44,  /* Revision is below the kind's */
    HS_REFUSED_NO_ENTRY = 45,      /* the table has no entry k */
    HS_REFUSED_SFI_MEMORY = 46,    /* memory_len is not HS_SFI_MEMORY_SIZE */
    HS_REFUSED_NO_SYST = 47,       /* SYST is nowhere in the memory */
    HS_REFUSED_NEITHER = 48,       /* neither table passes with the signature */
};

/* Refusals of the frame log. */
enum {
    HS_REFUSED_LOG_SIZE = 50,       /* record_len is not HS_LOG_RECORD_SIZE */
    HS_REFUSED_LOG_NOT_ZERO = 51,   /* byte 2 or 3 of the record is not zero */
    HS_REFUSED_LOG_FRAME_LONG = 52, /* frame over HS_LOG_FRAME_MAX bytes */
    HS_REFUSED_LOG_END = 53,        /* a byte behind the frame is not zero */
};

/* The bytes added up modulo 2^8, the sum of SFI tables. Changes nothing. */
uint8_t hs_sum8(const uint8_t *s, size_t s_len);

/* The little-endian 32-bit words added up modulo 2^32, the sum of UBIOS tables;
 * a short last word is filled with zeros at the high end. Changes nothing. */
uint32_t hs_sum32(const uint8_t *s, size_t s_len);

/* Reads the header of a frame for receiver us. HS_OK: header holds its seven words.
 * Refusals 1, 2, 3, 4: header is unchanged. The data is what follows byte 23. */
uint32_t hs_frame_parse(const uint8_t *frame, size_t frame_len, uint32_t us,
                        uint32_t header[HS_HEADER_WORDS]);

/* Counts the frames of a message of length bytes. HS_OK: *frames is the count, 1
 * for an empty message. Refusals 10, 12: *frames is unchanged. */
uint32_t hs_frame_count(size_t length, size_t piece_size, size_t *frames);

/* Writes the frame index, counted from 0 and of any value, of a message whose
 * pieces all have piece_size bytes, but for the last, which may be shorter. sequence is
 * the message's number, of any value; all frames of a message have the same. HS_OK: the
 * frame is the first *frame_len bytes of out, and out is unchanged behind them. Refusals
 * 10, 12, 13, 14: out and *frame_len are unchanged. */
uint32_t hs_frame_write(uint8_t sequence, uint32_t id, uint32_t sender, uint32_t status,
                        uint32_t receiver, const uint8_t *message,
                        size_t message_len, size_t piece_size, size_t index,
                        uint8_t *out, size_t out_len, size_t *frame_len);

/* Takes one frame for receiver us; its message grows in buffer. HS_DELIVERED: words
 * holds the five carried words, at the HS_WORD_ places, and the message is the first
 * words[HS_WORD_TOTAL] bytes of buffer. HS_MORE: words is unchanged. Both change only
 * those bytes of buffer that the frame's data fills.
 * Refusals 11, 1, 2, 3, 4, 5, 6, 7, 10, 8, 9: words and buffer are unchanged.
 *
 * state[0] is 0: fresh, and the other seven don't count, so zeroed memory is fresh.
 * state[0] is 1: open. state[1] to state[5] are the carried words, in the order of their
 * places, state[6] is the next Index, and state[7] the number of bytes filled. It is
 * consistent if state[1] is below 2^8, state[2] to state[5] are below 2^32, 1 <= state[6]
 * <= state[7] < state[5], and state[5], the Data Total Size, is at most HS_MESSAGE_MAX
 * and buffer_len. Any other state gets 11. The call leaves the state for the next one:
 * with 1 to 4 its eight numbers are unchanged, else it is fresh, written as eight zeros,
 * unless more is wanted. */
uint32_t hs_reassembly_step(uint64_t state[HS_STATE_NUMBERS], const uint8_t *frame,
                            size_t frame_len, uint32_t us, uint8_t *buffer,
                            size_t buffer_len, uint32_t words[HS_WORDS]);

/* Posts a notice to a ring, behind those that wait: id and the data's length, as
 * little-endian 32-bit words, then the data, running past the ring's last byte to its
 * first. HS_OK: positions[1] has moved behind the notice; only it and the notice's
 * bytes of ring are changed. 25: HS_NOTICE_HEADER_SIZE + data_len is over ring_len - 1
 * less what waits. Refusals 20, 24, 25: ring and positions are unchanged.
 *
 * positions[0] is read, where the oldest notice starts; positions[1] is write, where
 * the next one will: offsets below ring_len. Equal means empty, so two zeros are an
 * empty ring, whatever its bytes are, and at most ring_len - 1 bytes wait. ring_len is
 * HS_RING_MIN to HS_RING_MAX and a multiple of 8. Anything else gets 20. */
uint32_t hs_notice_post(uint8_t *ring, size_t ring_len,
                        size_t positions[HS_POSITIONS], uint32_t id,
                        const uint8_t *data, size_t data_len);

/* Takes the oldest notice of a ring, with positions as above. HS_OK: *id is its Notify
 * ID, its data is the first *data_len bytes of out, and out is unchanged behind them;
 * positions[0] has moved behind the notice, and positions[1] is unchanged. 22: under
 * HS_NOTICE_HEADER_SIZE bytes wait, or Data Length is over HS_NOTICE_MAX or over what
 * waits behind the header. Refusals 20, 21, 22, 23: positions, out, *id and *data_len
 * are unchanged. So after a 22 every take gets 22, as long as nothing is posted: a notice
 * posted then may be taken for the rest of the damaged one. The way out is to make both
 * positions equal, which empties the ring. */
uint32_t hs_notice_take(const uint8_t *ring, size_t ring_len,
                        size_t positions[HS_POSITIONS], uint8_t *out, size_t out_len,
                        uint32_t *id, size_t *data_len);

/* Checks the UBIOS table at address. The memory that is looked at is region, and base
 * is the address of its first byte: byte i of region has the address base + i. Nothing
 * else is read, whatever base, address and the table say. HS_OK: part[0] is the table's
 * offset in region, address - base, and part[1] the length of its used part, Total Size
 * less Remaining Size. That counts the header, and all of it is inside region.
 *
 * 30: base + region_len is over 2^64, or region does not have the HS_TABLE_HEADER_SIZE
 * bytes from address on. 32: Total Size is under HS_TABLE_HEADER_SIZE, over
 * HS_TABLE_MAX, or over what region has from address on, or Remaining Size is over
 * Total Size - HS_TABLE_HEADER_SIZE. 34: hs_sum32 of the used part is not 0.
 * Refusals 31, 30, 32, 33, 34: part is unchanged. */
uint32_t hs_ubios_table(const uint8_t *region, size_t region_len, uint64_t base,
                        uint64_t address, size_t part[HS_TABLE_NUMBERS]);

/* Checks the root table at address, with region and base as above. HS_OK: root[0] and
 * root[1] are its offset and the length of its used part, as above, and root[2] is its
 * Count: how many slots it has, gaps too. They follow its header, each a little-endian
 * address of 8 bytes; a slot of 0 is a gap, and may stand anywhere among them.
 *
 * 30 to 34 are as above, with HS_ROOT_HEADER_SIZE for HS_TABLE_HEADER_SIZE. 35: its
 * name is not root_table; bytes behind the first zero byte of a table's name don't
 * count. 36: Count is over HS_SLOTS_MAX, or HS_ROOT_HEADER_SIZE + 8 * Count is over the
 * length of the used part. Refusals 31, 30, 32, 33, 34, 35, 36: root is unchanged. */
uint32_t hs_ubios_root(const uint8_t *region, size_t region_len, uint64_t base,
                       uint64_t address, size_t root[HS_ROOT_NUMBERS]);

/* Looks for the table of a name, through the root table at the address root, with
 * region and base as above; name has no zero byte at its end. Every slot is looked at:
 * a gap is passed over, wherever it stands, and so is a slot whose table hs_ubios_table
 * would refuse. HS_OK: just one slot leads to a table of that name. body[0] is the
 * slot, counted from 0, gaps too; body[1] is the offset in region of the table's body,
 * its used part behind the header of HS_TABLE_HEADER_SIZE bytes; body[2] is the body's
 * length, and may be 0.
 *
 * 39: name_len is 0 or over HS_NAME_MAX, or name has a zero byte. 30 to 36: what
 * hs_ubios_root refuses. 38: two slots or more lead to tables of that name, also where
 * it is the same table. 37: no slot does. Refusals 39, 31, 30, 32, 33, 34, 35, 36, 38,
 * 37: body is unchanged. */
uint32_t hs_ubios_find(const uint8_t *region, size_t region_len, uint64_t base,
                       uint64_t root, const uint8_t *name, size_t name_len,
                       size_t body[HS_BODY_NUMBERS]);

/* Checks the SFI table at the start of table: a header of HS_SFI_HEADER_SIZE bytes and
 * the entries, Length bytes together. Bytes behind Length don't count. HS_OK:
 * *signature is the table's signature, one of HS_SFI_SYST to HS_SFI_WAKE, and *length
 * is its Length, which is at most table_len.
 *
 * 40: table_len is under HS_SFI_HEADER_SIZE, or Length is under that, over HS_SFI_MAX
 * or over table_len. 42: the signature is none of HS_SFI_SYST to HS_SFI_WAKE. 44:
 * Revision is below the one listed there. 43: Length - HS_SFI_HEADER_SIZE is not a
 * multiple of the size of an entry that is listed there, or the signature is
 * HS_SFI_WAKE and Length is not 32. 41: hs_sum8 of the first Length bytes is not 0.
 * Refusals 40, 42, 44, 43, 41: *signature and *length are unchanged. */
uint32_t hs_sfi_check(const uint8_t *table, size_t table_len, uint32_t *signature,
                      size_t *length);

/* Finds the entry k, counted from 0 and of any value, of the SFI table at the start of
 * table. HS_OK: *offset is where it starts in table, HS_SFI_HEADER_SIZE + k * the size
 * of an entry, and all of the entry is inside Length.
 *
 * 40 to 44: what hs_sfi_check refuses. 45: the table has k entries or fewer. Refusals
 * 40, 42, 44, 43, 41, 45: *offset is unchanged. */
uint32_t hs_sfi_entry(const uint8_t *table, size_t table_len, size_t k,
                      size_t *offset);

/* Looks for SYST in memory, the bytes from the address 0xE0000 to 0xFFFFF. Every 16th
 * byte is tried, lowest first. SYST is at a place if hs_sfi_check passes what memory
 * has from there on, with HS_SFI_SYST, and the table's Length bytes lie in one page of
 * 4096 bytes. HS_OK: *offset is the first such place in memory, so SYST has the address
 * 0xE0000 + *offset.
 *
 * 46: memory_len is not HS_SFI_MEMORY_SIZE. 47: there is no such place. Refusals 46,
 * 47: *offset is unchanged. */
uint32_t hs_sfi_find_syst(const uint8_t *memory, size_t memory_len, size_t *offset);

/* Chooses the table that the entries of a signature come from: board, if hs_sfi_check
 * passes it with that signature, else built_in, if hs_sfi_check passes that one with
 * it. Either may have the length 0. HS_SFI_BOARD: the chosen table is the first *length
 * bytes of board. HS_SFI_BUILT_IN: it is the first *length bytes of built_in. *length
 * is the chosen table's Length. HS_OK is never answered.
 *
 * 42: signature is none of HS_SFI_SYST to HS_SFI_WAKE. 48: neither table passes with
 * it. Refusals 42, 48: *length is unchanged. */
uint32_t hs_sfi_choose(uint32_t signature, const uint8_t *board, size_t board_len,
                       const uint8_t *built_in, size_t built_in_len, size_t *length);

/* Reads a record of the frame log: the frame's length (16 bits, little-endian), two zero
 * bytes, the frame, and zeros to the end. The frame itself is not read: it may have any
 * bytes, and from 0 to HS_LOG_FRAME_MAX of them. HS_OK: *frame_len is the frame's length;
 * the frame stands from byte HS_LOG_HEADER_SIZE on. Refusals 50, 52, 51, 53: *frame_len
 * is unchanged. */
uint32_t hs_log_read(const uint8_t *record, size_t record_len, size_t *frame_len);

/* Writes the record of a frame, as above. HS_OK: all of record is overwritten.
 * Refusals 50, 52: record is unchanged. */
uint32_t hs_log_write(const uint8_t *frame, size_t frame_len, uint8_t *record,
                      size_t record_len);

/* Plays a record of the frame log for receiver us: reads it as hs_log_read does, and runs
 * its frame as hs_reassembly_step does, with a buffer of HS_MESSAGE_MAX bytes. Refusals
 * 50, 52, 51, 53: the frame is not run, and state, buffer and words are unchanged. Else
 * the answer, state, buffer and words are those of hs_reassembly_step: HS_DELIVERED,
 * HS_MORE, or one of the refusals 11, 1, 3, 4, 5, 6, 7, 10, 8, 9. */
uint32_t hs_replay_record(uint64_t state[HS_STATE_NUMBERS], const uint8_t *record,
                          size_t record_len, uint32_t us,
                          uint8_t buffer[HS_MESSAGE_MAX], uint32_t words[HS_WORDS]);

/* Plays a chunk of the frame log for receiver us, and lists its records as text. From its
 * start the chunk is cut into records of HS_LOG_RECORD_SIZE bytes; a short last one is a
 * record too, which gets 50. They are played in order, each as hs_replay_record does, and
 * the line of each is put into out, behind the line before it: the record's number, then
 * the refusal's number, or "more", or "delivered", the Message ID and the message's
 * length. Numbers are decimal, one space stands between two words, and the line ends in
 * one newline, 0x0A; it has at most HS_LINE_MAX bytes.
 *
 * A record is not played, and none behind it, where under HS_LINE_MAX bytes of out are
 * left, or player[8] is 2^64 - 1. Always: *read is how many bytes of chunk were played, and
 * the answer how many bytes of out were written; out is unchanged behind them. Hand in
 * what is left of the chunk again, and no record is lost or played twice. A chunk that is
 * not the log's last must end where a record does.
 *
 * player[0] to player[7] are a state, as for hs_reassembly_step, and player[8] is the
 * number of the next record, of any value; so zeroed memory is a player at the start of a
 * day. The call leaves player and buffer for the next one. If no record was played, both
 * are unchanged. Else player has the state behind the last one that was played, and the
 * next number. That state is written anew: fresh as eight zeros, and open as laid out
 * above. So where no frame changed it, numbers that don't count become zeros, and what is
 * neither fresh nor 1 with carried words below their limits becomes 1 and seven zeros,
 * which gets 11 like it. */
size_t hs_replay_chunk(uint64_t player[HS_PLAYER_NUMBERS], const uint8_t *chunk,
                       size_t chunk_len, uint32_t us, uint8_t buffer[HS_MESSAGE_MAX],
                       uint8_t *out, size_t out_len, size_t *read);

#ifdef __cplusplus
}
#endif

#endif
