/* ssp.h: the reference controller for a surface package and the reader of its
 * packets, for C and C++.  Link with libssp.a.  The rules behind every number
 * here, in words and tables: docs/RULES.md.  Names for what a report prints:
 * ssp_names.h.
 *
 * What every caller owes, in all calls:
 *   - Buffers are a pointer and a length, and must not overlap one another:
 *     what is proved of a call does not hold for overlapping buffers.
 *   - A pointer may be NULL only where its length is 0.
 *   - No alignment is asked for.  Nothing outside the buffers is read or
 *     written, nothing is allocated, and no call keeps a pointer.
 *   - A state is the caller's to lend and the library's to fill: start it,
 *     hand it to later calls, copy it with memcpy if you like, and do not
 *     write into it.  Several states are independent of one another; two
 *     calls on one state at a time are not allowed.
 *
 * Numbers of more than one byte in frames, outputs and packets are big-endian.
 * Every number and rule here is held to the library by host/tests/header.c.
 */
#ifndef SSP_H
#define SSP_H

#include <stddef.h>
#include <stdint.h>

#ifdef __cplusplus
extern "C" {
#endif

/* Raised whenever a caller has to look again: CHANGELOG.md says at what. */
#define SSP_VERSION 2

/* ------------------------------------------------------ lengths of buffers */

#define SSP_STATE_BYTES 8715      /* least length of a controller's state */
#define SSP_READER_BYTES 9962     /* least length of a reader's state */
#define SSP_OUT_BYTES 126         /* least output of ssp_frame */
#define SSP_READER_OUT_BYTES 776  /* least output of ssp_reader_packet */

/* ----------------------------------------------------------------- frames */

/* A frame's first byte is its kind.  Beside each kind: the frame's bytes, with
 * the size of a field of more than one byte in brackets; cc is the channel. */
#define SSP_BROADCAST 0x01        /* 01 cc time(2) altitude(2) spin phase */
#define SSP_COMMAND 0x02          /* 02 cc id(2) sequence(2) parameters */
#define SSP_TICK 0x03             /* 03 reading(2) */
#define SSP_SAMPLE 0x04           /* 04 stream sample */
#define SSP_POLL 0x05             /* 05 cc */
#define SSP_STATUS 0x06           /* 06 cc low flags */
#define SSP_ANALOGUE 0x07         /* 07 and 58 bytes, kept for housekeeping */

/* How long a frame of a kind is, its kind's byte included. */
#define SSP_BROADCAST_FRAME_BYTES 8
#define SSP_COMMAND_FRAME_BYTES 6    /* the least; parameters follow */
#define SSP_TICK_FRAME_BYTES 3
#define SSP_SAMPLE_FRAME_BYTES 2     /* the least; the sample follows */
#define SSP_POLL_FRAME_BYTES 2
#define SSP_STATUS_FRAME_BYTES 4
#define SSP_ANALOGUE_FRAME_BYTES 59
#define SSP_LONGEST_FRAME_BYTES 514  /* no longer frame is ever accepted */

/* The channel byte, cc. */
#define SSP_CHANNEL_A 0x0A
#define SSP_CHANNEL_B 0x0B

/* A broadcast's time word is in quarters of a second: T = time word /
 * SSP_TIME_WORD_UNITS, rounded down, in seconds.  SSP time, as packets carry
 * it, is T * SSP_TIME_UNITS + m, where m counts the ticks since that broadcast
 * and stays at SSP_TIME_UNITS - 1. */
#define SSP_TIME_WORD_UNITS 4
#define SSP_TIME_UNITS 1024

/* An altitude word, in broadcasts and in housekeeping: the height in units of
 * SSP_ALTITUDE_METRES is (word & SSP_ALTITUDE_HEIGHT), and it was predicted
 * where (word & SSP_ALTITUDE_PREDICTED) is not 0, else measured. */
#define SSP_ALTITUDE_PREDICTED 0x8000
#define SSP_ALTITUDE_HEIGHT 0x7FFF
#define SSP_ALTITUDE_METRES 10

/* A tick's reading is 0 to SSP_READING_MOST.  It has a sign: from
 * SSP_READING_NEGATIVE on it stands for itself minus SSP_READING_SPAN, so
 * 0x0FFF is -1 and no shock. */
#define SSP_READING_MOST 0x0FFF
#define SSP_READING_NEGATIVE 0x0800
#define SSP_READING_SPAN 0x1000

/* Command ids. */
#define SSP_CLEAR_STREAMS 0x0013     /* a mask of two bytes, bit n: stream n */
#define SSP_SEND_HOUSEKEEPING 0x0016 /* no parameters */
#define SSP_SET_MODE 0x0032          /* two bytes: mode, plus SSP_LOCKED */

#define SSP_CLEARABLE 0x0E74      /* the bits that a mask may have */

/* Modes.  SSP_LOCKED is added to one that is to stay. */
#define SSP_MODE_EMC 0
#define SSP_MODE_UPPER_ATMOSPHERE 1
#define SSP_MODE_MID_ATMOSPHERE 2
#define SSP_MODE_LOWER_ATMOSPHERE 3
#define SSP_MODE_PROXIMITY 4
#define SSP_MODE_SURFACE 5
#define SSP_MODE_EXTENDED_SURFACE 6
#define SSP_MODE_DIAGNOSTIC 7
#define SSP_LOCKED 8

/* Stream numbers. */
#define SSP_STREAM_ACC_I 0x2      /* the impact record: 512 readings */
#define SSP_STREAM_API_V 0x4
#define SSP_STREAM_DEN 0x5
#define SSP_STREAM_PER 0x6
#define SSP_STREAM_TIL 0x9
#define SSP_STREAM_HK 0xA         /* housekeeping */
#define SSP_STREAM_ACC_E 0xB

/* Samples: the bytes of one in a sample frame, and how many fill a packet.
 * ACC-I and HK have no sample frames.  A sample of ACC-E is taken in mode
 * SSP_MODE_SURFACE, of the others in SSP_MODE_UPPER_ATMOSPHERE to
 * SSP_MODE_EXTENDED_SURFACE, locked or not. */
#define SSP_API_V_SAMPLE_BYTES 3  /* forward, then reverse */
#define SSP_API_V_SAMPLES 36
#define SSP_DEN_SAMPLE_BYTES 2
#define SSP_DEN_SAMPLES 72
#define SSP_DEN_MOST 0x0FFF       /* a value of twelve bits */
#define SSP_PER_SAMPLE_BYTES 3    /* PER, then CON */
#define SSP_PER_SAMPLES 36
#define SSP_TIL_SAMPLE_BYTES 6
#define SSP_TIL_SAMPLES 18
#define SSP_ACC_E_SAMPLE_BYTES 512
#define SSP_ACC_E_SAMPLES 1
#define SSP_ACC_I_READINGS 512    /* in an impact record, oldest first */

/* The flags byte of a status frame. */
#define SSP_FLAG_WATCHDOG_OK 0x01
#define SSP_FLAG_ALL_OK 0x02
#define SSP_FLAG_12V_OK 0x04
#define SSP_FLAG_DDB_LOSS 0x08
#define SSP_FLAG_BCP_LOSS 0x10
#define SSP_FLAG_REDUNDANT_12V 0x20
#define SSP_FLAG_NOMINAL_12V 0x40
#define SSP_FLAG_SOUNDER 0x80

/* ---------------------------------------------------------------- outputs */

/* A status word is out[0] * 256 + out[1] after an accepted status frame.
 * Which set of masks is right depends on the channel that was asked, so each
 * name has its channel: never read a B word with an SSP_A_ name. */
#define SSP_STATUS_WORD_BYTES 2

#define SSP_A_IMPACT 0x8000
#define SSP_A_WATCHDOG_OK 0x4000
#define SSP_A_ALL_OK 0x2000
#define SSP_A_COMMAND_COUNT_BIT 0x1000 /* the command count's lowest bit */
#define SSP_A_MODE 0x0E00              /* the mode, times SSP_A_MODE_UNIT */
#define SSP_A_MODE_UNIT 0x0200
#define SSP_A_12V_OK 0x0100
#define SSP_A_LOW 0x00FF               /* the status frame's low byte */

#define SSP_B_IMPACT 0x8000
#define SSP_B_SOUNDER 0x4000
#define SSP_B_ALL_OK 0x2000
#define SSP_B_COMMAND_COUNT_BIT 0x1000
#define SSP_B_DDB_LOSS 0x0800
#define SSP_B_BCP_LOSS 0x0400
#define SSP_B_REDUNDANT_12V 0x0200
#define SSP_B_NOMINAL_12V 0x0100
#define SSP_B_LOW 0x00FF

/* A polled packet, and where its fields begin.  Its stream is the last word's
 * lowest four bits: packet[7] % 16. */
#define SSP_PACKET_BYTES 126
#define SSP_PACKET_ID_AT 0        /* SSP_PACKET_ID_A or SSP_PACKET_ID_B */
#define SSP_PACKET_SEQUENCE_AT 2  /* SSP_PACKET_SEQUENCE_TOP plus the
                                     channel's telemetry count, fourteen bits */
#define SSP_PACKET_LENGTH_AT 4    /* SSP_PACKET_LENGTH */
#define SSP_PACKET_COUNT_AT 6     /* the piece's count times 16, plus stream;
                                     counts go from 4095 to 0 */
#define SSP_PACKET_PIECE_AT 8     /* SSP_PIECE_BYTES of a datastream packet */
#define SSP_PACKET_ID_A 0x0F94
#define SSP_PACKET_ID_B 0x0FB4
#define SSP_PACKET_SEQUENCE_TOP 0xC000
#define SSP_PACKET_LENGTH 0x0077
#define SSP_PIECE_BYTES 118
#define SSP_QUEUE_SLOTS 48        /* pieces that may wait for polls */

/* -------------------------------------------------- datastream packets */

/* What the reader hands out, ssp_stream_length(stream) bytes: two bytes
 * SSP_OPENING, SSP time(3), the mode byte, data, two bytes SSP_CLOSING.  Time
 * and mode are those at the first sample, of ACC-I at the impact, of HK as it
 * was built.  The mode byte's low nibble is the mode, plus SSP_LOCKED; its
 * high nibble is 1 in ACC-E packets, else 0.
 *
 * Data of API-V, PER, TIL and ACC-E are the samples as they came.  Data of DEN
 * and ACC-I are values of twelve bits, two in three bytes: the first is
 * d[0] * 16 + d[1] / 16, the second d[1] % 16 * 256 + d[2].  Readings of ACC-I
 * have the sign that a tick's reading has. */
#define SSP_OPENING 0x8888
#define SSP_CLOSING 0x9999
#define SSP_TIME_AT 2
#define SSP_MODE_AT 5
#define SSP_DATA_AT 6
#define SSP_MODE_BITS 0x07        /* of the mode byte: the mode; beside it */
#define SSP_ACC_E_MARK 0x10       /* SSP_LOCKED, and in ACC-E packets this */

/* Housekeeping: where each field begins, in bytes of the datastream packet
 * (the manual's table 3.2.12.2 counts from the polled packet: 8 more). */
#define SSP_HK_ALTITUDE_AT 6           /* altitude word */
#define SSP_HK_SPIN_AT 8               /* one byte */
#define SSP_HK_PHASE_AT 9              /* one byte */
#define SSP_HK_ENTRY_TIME_AT 10        /* SSP time(3) of the last entry to a
                                          mode */
#define SSP_HK_OLD_MODE_AT 13          /* the mode before, plus SSP_LOCKED */
#define SSP_HK_ENTRY_ALTITUDE_AT 14    /* altitude word of that entry */
#define SSP_HK_COMMAND_COUNT_AT 16     /* commands accepted */
#define SSP_HK_BROADCASTS_A_AT 18      /* broadcasts, late ones too */
#define SSP_HK_BROADCASTS_B_AT 20
#define SSP_HK_COMMAND_PACKETS_A_AT 22 /* command packets, refused ones too */
#define SSP_HK_COMMAND_PACKETS_B_AT 24
#define SSP_HK_TELEMETRY_A_AT 26       /* packets polled till this was built */
#define SSP_HK_TELEMETRY_B_AT 28
#define SSP_HK_ERROR_COUNT_AT 30       /* one byte: commands refused */
#define SSP_HK_ERROR_CODE_AT 31        /* one byte: the last such reply */
#define SSP_HK_LAST_SEQUENCE_AT 32     /* low bytes of the last accepted */
#define SSP_HK_LAST_ID_AT 33           /* command's sequence and id */
#define SSP_HK_STREAM_COUNTS_AT 34     /* stream n at 2n more: its next count
                                          times 16, 0 where not carried */
#define SSP_HK_ANALOGUE_AT 58          /* the last frame 07's bytes, else 0 */
#define SSP_HK_ANALOGUE_BYTES 58

/* ------------------------------------------------------ the controller */

/* Replies of ssp_start and ssp_frame; the first that applies, in the order 10,
 * 8, 1, 2, 3, 4, 5, 6, 7, 9.  The reader's replies are another list: its 1 is
 * a success.  Compare a reply only with names of the call that gave it. */
#define SSP_CONTROLLER_ACCEPTED 0
#define SSP_CONTROLLER_NO_FRAME 1         /* empty, unknown kind or channel, or
                                             wrong size */
#define SSP_CONTROLLER_NOT_CARRIED 2      /* command id or stream */
#define SSP_CONTROLLER_WRONG_LENGTH 3     /* of parameters or sample */
#define SSP_CONTROLLER_OUT_OF_RANGE 4     /* a value */
#define SSP_CONTROLLER_TIME_BACK 5        /* seconds below the last accepted
                                             broadcast's */
#define SSP_CONTROLLER_NOT_IN_THIS_MODE 6 /* sample not taken */
#define SSP_CONTROLLER_NO_ROOM 7          /* too few free queue slots */
#define SSP_CONTROLLER_SHORT_OUTPUT 8     /* out_len under SSP_OUT_BYTES */
#define SSP_CONTROLLER_NOTHING_WAITS 9    /* poll, queue empty */
#define SSP_CONTROLLER_UNFIT_STATE 10     /* state_len under SSP_STATE_BYTES,
                                             or not the mark of ssp_start at
                                             the state's beginning */

/* Makes state a fresh controller: mode 1, unlocked, all numbers 0.
 * Looks at state_len alone.  Replies SSP_CONTROLLER_ACCEPTED; writes the first
 * SSP_STATE_BYTES of state, whatever they held; later bytes stay.
 * Or SSP_CONTROLLER_UNFIT_STATE where state_len is less, and writes nothing. */
uint8_t ssp_start(uint8_t *state, size_t state_len);

/* Hands one frame to the controller in state.
 * SSP_CONTROLLER_ACCEPTED: the state moves on.  A poll has written
 * SSP_PACKET_BYTES to the front of out, a status frame SSP_STATUS_WORD_BYTES,
 * any other frame nothing; later bytes of out stay.
 * Any other reply: out is as it was.  A broadcast refused with 5 is counted on
 * its channel.  A command refused with 2, 3, 4 or 7 is counted on its channel
 * and as an error, and its reply is kept as the error code.  Every other
 * refusal leaves the state as it was, so the frame can be sent again.
 * Of state at most the first SSP_STATE_BYTES are read or written, of out the
 * first SSP_OUT_BYTES; frame is only read.
 * A state is judged by its length and its mark, two bytes (docs/STATE.md), and
 * by nothing else: memory that was never started is refused, but a state that
 * was written into behind its mark is taken.  A call on such a state ends as
 * properly as any other; what it then says is nobody's finding. */
uint8_t ssp_frame(uint8_t *state, size_t state_len,
                  const uint8_t *frame, size_t frame_len,
                  uint8_t *out, size_t out_len);

/* ----------------------------------------------------------- the reader */

/* Replies of ssp_reader_start and ssp_reader_packet; the first that applies,
 * in the order 25, 24, 20, 21, 22, 23. */
#define SSP_READER_TAKEN 0
#define SSP_READER_HANDED_OUT 1
#define SSP_READER_NO_PACKET 20    /* not 126 bytes, or a wrong ID, length or
                                      top two sequence bits */
#define SSP_READER_NOT_CARRIED 21  /* stream */
#define SSP_READER_REPEAT 22       /* the count of the stream's last packet */
#define SSP_READER_SPOILT 23       /* finished, but opening, closing or fill
                                      bytes are wrong */
#define SSP_READER_SHORT_OUTPUT 24 /* out_len under SSP_READER_OUT_BYTES */
#define SSP_READER_UNFIT_STATE 25  /* state_len under SSP_READER_BYTES, or not
                                      the mark of ssp_reader_start at the
                                      state's beginning; as 10 */

/* Makes state a fresh reader of all carried streams.  Looks at state_len
 * alone.  Replies SSP_READER_TAKEN (0) and writes the first SSP_READER_BYTES
 * of state; later bytes stay.  Or SSP_READER_UNFIT_STATE where state_len is
 * less, and writes nothing. */
uint8_t ssp_reader_start(uint8_t *state, size_t state_len);

/* Hands one polled packet to the reader in state.
 * SSP_READER_HANDED_OUT: the datastream packet that this piece finished is at
 * the front of out, ssp_stream_length(packet[7] % 16) bytes of it; later bytes
 * of out stay.
 * SSP_READER_TAKEN: the piece is noted, out is as it was.
 * SSP_READER_SPOILT: out is as it was; the stream's record has moved on and
 * its gathering is empty.  Any other refusal leaves out and state as they
 * were.  packet is only read.
 *
 * What is promised of a run: start controller and reader afresh, and hand over
 * the packets in the order polled.  Any may be lost.  Any may come again,
 * unaltered, but only as the next arrival of its stream.  Bytes that get 20 or
 * 21 may come anywhere.  As long as never more than SSP_MOST_MISSING pieces of
 * a stream go missing before its first arrival or between two, what is handed
 * out of it is every datastream packet all of whose pieces arrived, once each,
 * in order; what happens to one stream changes nothing in another.
 *
 * Nothing is promised of packets in another order, for a count that steps back
 * looks like thousands of lost pieces: of a packet of five, pieces 0 1 2 1 3 4
 * hand out nothing, and a recording fed twice to one reader loses packets of
 * its second copy.  Start a fresh reader for every recording. */
#define SSP_MOST_MISSING 4094
uint8_t ssp_reader_packet(uint8_t *state, size_t state_len,
                          const uint8_t *packet, size_t packet_len,
                          uint8_t *out, size_t out_len);

/* The listed length of a stream's datastream packet; 0 where the stream is
 * not carried. */
uint16_t ssp_stream_length(uint8_t stream);

#ifdef __cplusplus
}
#endif

#endif
