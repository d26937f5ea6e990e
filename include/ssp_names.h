/* ssp_names.h: the names that a report prints beside the numbers of ssp.h, so
 * that none is typed twice: kinds of frame, channels, modes, streams, replies
 * of either machine, and each bit of a status word by its channel.
 *
 * Every function answers a text for every number; what has no name is called
 * so.  The texts are constant and need not be freed. */
#ifndef SSP_NAMES_H
#define SSP_NAMES_H

#include "ssp.h"

#ifdef __cplusplus
extern "C" {
#endif

/* A frame's kind, its first byte. */
static inline const char *ssp_kind_name(unsigned kind)
{
    switch (kind) {
    case SSP_BROADCAST: return "broadcast";
    case SSP_COMMAND:   return "command";
    case SSP_TICK:      return "tick";
    case SSP_SAMPLE:    return "sample";
    case SSP_POLL:      return "poll";
    case SSP_STATUS:    return "status";
    case SSP_ANALOGUE:  return "analogue";
    default:            return "unknown kind";
    }
}

/* A channel byte. */
static inline const char *ssp_channel_name(unsigned channel)
{
    switch (channel) {
    case SSP_CHANNEL_A: return "A";
    case SSP_CHANNEL_B: return "B";
    default:            return "unknown channel";
    }
}

/* A command's id. */
static inline const char *ssp_command_name(unsigned id)
{
    switch (id) {
    case SSP_CLEAR_STREAMS:     return "clear streams";
    case SSP_SEND_HOUSEKEEPING: return "send housekeeping";
    case SSP_SET_MODE:          return "set mode";
    default:                    return "unknown command";
    }
}

/* A mode, 0 to 7, without its lock. */
static inline const char *ssp_mode_name(unsigned mode)
{
    switch (mode) {
    case SSP_MODE_EMC:              return "EMC";
    case SSP_MODE_UPPER_ATMOSPHERE: return "upper atmosphere";
    case SSP_MODE_MID_ATMOSPHERE:   return "mid atmosphere";
    case SSP_MODE_LOWER_ATMOSPHERE: return "lower atmosphere";
    case SSP_MODE_PROXIMITY:        return "proximity";
    case SSP_MODE_SURFACE:          return "surface";
    case SSP_MODE_EXTENDED_SURFACE: return "extended surface";
    case SSP_MODE_DIAGNOSTIC:       return "diagnostic";
    default:                        return "unknown mode";
    }
}

/* A stream number. */
static inline const char *ssp_stream_name(unsigned stream)
{
    switch (stream) {
    case SSP_STREAM_ACC_I: return "ACC-I";
    case SSP_STREAM_API_V: return "API-V";
    case SSP_STREAM_DEN:   return "DEN";
    case SSP_STREAM_PER:   return "PER";
    case SSP_STREAM_TIL:   return "TIL";
    case SSP_STREAM_HK:    return "HK";
    case SSP_STREAM_ACC_E: return "ACC-E";
    default:               return "stream not carried";
    }
}

/* A reply of ssp_start or ssp_frame; never one of the reader's. */
static inline const char *ssp_controller_reply_name(unsigned reply)
{
    switch (reply) {
    case SSP_CONTROLLER_ACCEPTED:         return "accepted";
    case SSP_CONTROLLER_NO_FRAME:         return "no frame";
    case SSP_CONTROLLER_NOT_CARRIED:      return "not carried";
    case SSP_CONTROLLER_WRONG_LENGTH:     return "wrong length";
    case SSP_CONTROLLER_OUT_OF_RANGE:     return "value out of range";
    case SSP_CONTROLLER_TIME_BACK:        return "broadcast goes back in time";
    case SSP_CONTROLLER_NOT_IN_THIS_MODE: return "not taken in this mode";
    case SSP_CONTROLLER_NO_ROOM:          return "too few free queue slots";
    case SSP_CONTROLLER_SHORT_OUTPUT:     return "output too short";
    case SSP_CONTROLLER_NOTHING_WAITS:    return "nothing waits to be polled";
    case SSP_CONTROLLER_UNFIT_STATE:      return "unfit controller state";
    default:                              return "unknown reply";
    }
}

/* A reply of ssp_reader_start or ssp_reader_packet; never the controller's. */
static inline const char *ssp_reader_reply_name(unsigned reply)
{
    switch (reply) {
    case SSP_READER_TAKEN:        return "taken";
    case SSP_READER_HANDED_OUT:   return "handed out";
    case SSP_READER_NO_PACKET:    return "no packet";
    case SSP_READER_NOT_CARRIED:  return "stream not carried";
    case SSP_READER_REPEAT:       return "repeat";
    case SSP_READER_SPOILT:       return "opening, closing or fill bytes wrong";
    case SSP_READER_SHORT_OUTPUT: return "output too short";
    case SSP_READER_UNFIT_STATE:  return "unfit reader state";
    default:                      return "unknown reply";
    }
}

/* The mask of a status word's bit: ssp_status_bit_name(channel, SSP_B_DDB_LOSS)
 * and the like.  One mask names another thing on each channel, so the channel
 * byte that was asked comes first; with an unknown one no bit has a name. */
static inline const char *ssp_status_bit_name(unsigned channel, unsigned mask)
{
    if (channel == SSP_CHANNEL_A)
        switch (mask) {
        case SSP_A_IMPACT:            return "impact";
        case SSP_A_WATCHDOG_OK:       return "watchdog OK";
        case SSP_A_ALL_OK:            return "all OK";
        case SSP_A_COMMAND_COUNT_BIT: return "command count odd";
        case SSP_A_MODE_UNIT * 4:     return "mode bit 2";
        case SSP_A_MODE_UNIT * 2:     return "mode bit 1";
        case SSP_A_MODE_UNIT:         return "mode bit 0";
        case SSP_A_12V_OK:            return "12V OK";
        }
    if (channel == SSP_CHANNEL_B)
        switch (mask) {
        case SSP_B_IMPACT:            return "impact";
        case SSP_B_SOUNDER:           return "sounder";
        case SSP_B_ALL_OK:            return "all OK";
        case SSP_B_COMMAND_COUNT_BIT: return "command count odd";
        case SSP_B_DDB_LOSS:          return "DDB loss";
        case SSP_B_BCP_LOSS:          return "BCP loss";
        case SSP_B_REDUNDANT_12V:     return "redundant 12V";
        case SSP_B_NOMINAL_12V:       return "nominal 12V";
        }
    return "unknown bit";
}

#ifdef __cplusplus
}
#endif

#endif
