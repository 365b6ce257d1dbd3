/* What the header names is what the documents give by number: each field of its structs, and its constants. Compiled,
 * and never run. */
#include <fbdp.h>

#define SLOT(type, field, slot) _Static_assert(offsetof(struct type, field) == 8 * (slot), #type "." #field)
#define SLOTS(type, count) _Static_assert(sizeof(struct type) == 8 * (count), #type)
#define THREE(type, first, second, third)                                                                              \
    SLOT(type, first, 0);                                                                                              \
    SLOT(type, second, 1);                                                                                             \
    SLOT(type, third, 2);                                                                                              \
    SLOTS(type, 3)
#define IS(name, number) _Static_assert((name) == (number), #name)

SLOT(fbdp_heard, type, 0);
SLOT(fbdp_heard, flags, 1);
SLOT(fbdp_heard, type_data, 2);
SLOT(fbdp_heard, reply, 3);
SLOT(fbdp_heard, frames, 4);
SLOT(fbdp_heard, socket, 5);
SLOT(fbdp_heard, name_at, 6);
SLOT(fbdp_heard, name_length, 7);
SLOT(fbdp_heard, format_at, 8);
SLOT(fbdp_heard, format_length, 9);
SLOT(fbdp_heard, parameters_at, 10);
SLOT(fbdp_heard, parameters_length, 11);
SLOT(fbdp_heard, body_at, 12);
SLOT(fbdp_heard, body_length, 13);
SLOT(fbdp_heard, spare, 14);
SLOTS(fbdp_heard, 16);
THREE(fbdp_frame_place, found, at, length);
THREE(fbdp_value_held, kind, held, length);
THREE(fbdp_term_place, slice, at, length);

IS(FBDP_INTERFACE, 3);

IS(FBDP_ACCEPTED, 0);
IS(FBDP_BAD_BLOCK, 1);
IS(FBDP_NO_ROOM, 2);
IS(FBDP_CLOSED, 3);
IS(FBDP_BAD_BUNDLE, 10);
IS(FBDP_BAD_CONTROL, 11);
IS(FBDP_OTHER_VERSION, 12);
IS(FBDP_UNKNOWN_TYPE, 13);
IS(FBDP_BAD_FLAGS, 14);
IS(FBDP_BAD_FRAMES, 15);
IS(FBDP_TOO_LARGE, 16);
IS(FBDP_NOT_ALLOWED, 17);
IS(FBDP_UNREADABLE, 18);
IS(FBDP_OUT_OF_RANGE, 19);
IS(FBDP_UNKNOWN_SOCKET, 20);
IS(FBDP_OTHER_PIPE, 21);
IS(FBDP_OTHER_FORMAT, 22);
IS(FBDP_ABOVE_OFFER, 23);
IS(FBDP_UNMATCHED, 24);
IS(FBDP_SEND_NOT_ALLOWED, 30);
IS(FBDP_SEND_ABOVE_OFFER, 31);
IS(FBDP_TOO_MANY_ASKS, 32);
IS(FBDP_SEND_TOO_LARGE, 33);
IS(FBDP_BADLY_GIVEN, 34);
IS(FBDP_BAD_CODE, 35);
IS(FBDP_DEFAULTS_UNREADABLE, 36);
IS(FBDP_NO_SUCH_TERM, 37);

IS(FBDP_CLOSE_OK, 0);
IS(FBDP_CLOSE_INVALID_MESSAGE, 1);
IS(FBDP_CLOSE_PROTOCOL_VIOLATION, 2);
IS(FBDP_CLOSE_ERROR, 3);
IS(FBDP_CLOSE_INTERNAL_ERROR, 4);
IS(FBDP_CLOSE_INVALID_DATA, 5);
IS(FBDP_CLOSE_TIMEOUT, 6);
IS(FBDP_CLOSE_PIPE_UNAVAILABLE, 100);
IS(FBDP_CLOSE_VERSION_NOT_SUPPORTED, 101);
IS(FBDP_CLOSE_NOT_IMPLEMENTED, 102);
IS(FBDP_CLOSE_FORMAT_NOT_SUPPORTED, 103);

IS(FBDP_OPEN, 1);
IS(FBDP_READY, 2);
IS(FBDP_NOOP, 3);
IS(FBDP_DATA, 4);
IS(FBDP_CLOSE, 5);
IS(FBDP_ASK, 1);
IS(FBDP_NO_BODY, 2);
IS(FBDP_ACK_REQUEST, 1);
IS(FBDP_ACK_REPLY, 2);
IS(FBDP_CLIENT, 1);
IS(FBDP_SERVER, 2);
IS(FBDP_PRODUCER, 1);
IS(FBDP_CONSUMER, 2);
IS(FBDP_INPUT, 1);
IS(FBDP_OUTPUT, 2);
IS(FBDP_PHASE_FRESH, 0);
IS(FBDP_PHASE_OPENING, 1);
IS(FBDP_PHASE_IDLE, 2);
IS(FBDP_PHASE_OFFER, 3);
IS(FBDP_PHASE_BATCH, 4);
IS(FBDP_PHASE_CLOSED, 5);
IS(FBDP_LEAST_LIMIT, 1000000);
IS(FBDP_MOST_LIMIT, 50000000);
IS(FBDP_NULL, 1);
IS(FBDP_NUMBER, 2);
IS(FBDP_TEXT, 3);
IS(FBDP_BOOL, 4);
IS(FBDP_STRUCT, 5);
IS(FBDP_LIST, 6);
IS(FBDP_IN_CLIENT, 1);
IS(FBDP_IN_DEFAULTS, 2);

/* A bundle has 2 bytes of count and 4 for each frame; a control frame has 8. */
IS(FBDP_BLOCK_BYTES, 64);
IS(FBDP_REPLY_BYTES, 2 + 4 + 8);
IS(FBDP_CONTROL_BYTES, 2 + 4 + 8);
IS(FBDP_DATA_OVERHEAD, 2 + 2 * 4 + 8);
IS(FBDP_MESSAGE_BYTES, 2 + 2 * 4 + FBDP_MOST_LIMIT);

/* Name and format of 255 bytes, each behind a tag and a length of two bytes; the socket; parameters of 34 bytes. */
IS(FBDP_OPEN_BYTES, 2 + 2 * 4 + 8 + (1 + 2 + 255) + 2 + (1 + 2 + 255) + 34);
