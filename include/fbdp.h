/* One endpoint of the Firebird Butler Data Pipe Protocol (9/FBDP): the pipe itself, without a transport.
 *
 * An endpoint is a block of FBDP_BLOCK_BYTES that the host lends with every call. Make it once; then put what a send
 * writes on the transport, lend each message that arrives to fbdp_receive, and send the reply that this may leave. The
 * block moves with the call, so whatever was written has to reach the other end, once and in order.
 *
 * Every function of the archive takes any bytes, any block and any order of calls. All but fbdp_interface_3 return
 * FBDP_ACCEPTED, or the number of the refusal that applies first, which fbdp_meaning says in words. None keeps a
 * pointer, allocates, or calls anything but memcpy, so calls on different blocks may run at the same time.
 *
 * A slice is a pointer and a length; an empty one may come with a null pointer. The slices of one call, and the struct
 * or number to be filled, must lie apart; the latter must not be null. It is filled by every call: a refusal writes the
 * zeros, or for fbdp_lookup the place, that stand beside the function. */
#ifndef FBDP_H
#define FBDP_H

#include <stddef.h>
#include <stdint.h>

#ifdef __cplusplus
extern "C" {
#endif

/* The number of this interface, which goes up with every change that a host has to follow; docs/CHANGES.md says what to
 * change. The archive has one function with the number in its name, which answers it, and every object that includes
 * this header refers to that function. So each of them wants the archive behind it, and one that was compiled with the
 * header of another interface does not link: "undefined reference to `fbdp_interface_N'". Interface 1 had no number,
 * and what was compiled with its header links all the same: compile it anew. */
#define FBDP_INTERFACE 3
uint32_t fbdp_interface_3(void);

/* The numbers answered: name, number, meaning. */
#define FBDP_NUMBERS(ROW)                                                                                              \
    ROW(FBDP_ACCEPTED, 0, "accepted")                                                                                  \
    ROW(FBDP_BAD_BLOCK, 1, "the block does not have 64 bytes, or is not good")                                         \
    ROW(FBDP_NO_ROOM, 2, "the output is too short for the message, or under 14 bytes at a receive")                    \
    ROW(FBDP_CLOSED, 3, "the endpoint is closed")                                                                      \
    ROW(FBDP_BAD_BUNDLE, 10, "not a frame count of 1 to 16, its lengths and its bodies, ending exactly")               \
    ROW(FBDP_BAD_CONTROL, 11, "a control frame that does not have 8 bytes, or a wrong signature")                      \
    ROW(FBDP_OTHER_VERSION, 12, "a version other than 1")                                                              \
    ROW(FBDP_UNKNOWN_TYPE, 13, "a message type other than OPEN, READY, NOOP, DATA and CLOSE")                          \
    ROW(FBDP_BAD_FLAGS, 14, "unknown flags or both, on any message but CLOSE, or a confirmation of OPEN or READY")     \
    ROW(FBDP_BAD_FRAMES, 15, "data frames other than 1 for OPEN, 0 or 1 for DATA, 0 for READY, NOOP, a confirmation")  \
    ROW(FBDP_TOO_LARGE, 16, "any message but CLOSE above the limit, or an OPEN frame above 4,096 bytes")               \
    ROW(FBDP_NOT_ALLOWED, 17, "a message that role, flow or phase does not allow")                                     \
    ROW(FBDP_UNREADABLE, 18, "an OPEN frame, parameters or a Value that cannot be read")                               \
    ROW(FBDP_OUT_OF_RANGE, 19, "an OPEN whose name, format, socket or limit is out of range")                          \
    ROW(FBDP_UNKNOWN_SOCKET, 20, "an OPEN for a socket of 3 or more")                                                  \
    ROW(FBDP_OTHER_PIPE, 21, "an OPEN for another pipe name or socket than the offered one")                           \
    ROW(FBDP_OTHER_FORMAT, 22, "an OPEN for another format than the offered one")                                      \
    ROW(FBDP_ABOVE_OFFER, 23, "a READY with a count above the offer")                                                  \
    ROW(FBDP_UNMATCHED, 24, "a confirmation of anything but the oldest message that awaits one")                       \
    ROW(FBDP_SEND_NOT_ALLOWED, 30, "a send that role, flow or phase does not allow now")                               \
    ROW(FBDP_SEND_ABOVE_OFFER, 31, "an own READY with a count above the offer")                                        \
    ROW(FBDP_TOO_MANY_ASKS, 32, "an ask for confirmation while 16 are awaited")                                        \
    ROW(FBDP_SEND_TOO_LARGE, 33, "own DATA above the limit")                                                           \
    ROW(FBDP_BADLY_GIVEN, 34, "a bad name, format, flow or limit was given")                                           \
    ROW(FBDP_BAD_CODE, 35, "a CLOSE code that may not be sent, or not now")                                            \
    ROW(FBDP_DEFAULTS_UNREADABLE, 36, "a default Struct that cannot be read")                                          \
    ROW(FBDP_NO_SUCH_TERM, 37, "neither the parameters nor the default Struct has the key")

/* The codes of CLOSE: name, code, meaning. Those from 100 on refuse an OPEN. A receive that closes says code 1 for 10,
 * 11, 13, 14, 15 and 18; code 2 for 16, 17, 19, 23 and 24; code 102 for 20, 100 for 21, 103 for 22; and for 12 code 101
 * where a fresh server is sent an OPEN, else 1. */
#define FBDP_CLOSE_CODES(ROW)                                                                                          \
    ROW(FBDP_CLOSE_OK, 0, "closed normally")                                                                           \
    ROW(FBDP_CLOSE_INVALID_MESSAGE, 1, "what was received is not a valid message")                                     \
    ROW(FBDP_CLOSE_PROTOCOL_VIOLATION, 2, "a valid message that the protocol does not allow there")                    \
    ROW(FBDP_CLOSE_ERROR, 3, "the sender cannot go on")                                                                \
    ROW(FBDP_CLOSE_INTERNAL_ERROR, 4, "the sender cannot go on, for a reason that it did not expect")                  \
    ROW(FBDP_CLOSE_INVALID_DATA, 5, "data that is not in its format, or cannot be put into it")                        \
    ROW(FBDP_CLOSE_TIMEOUT, 6, "the sender has waited too long")                                                       \
    ROW(FBDP_CLOSE_PIPE_UNAVAILABLE, 100, "the pipe that was asked for is not available")                              \
    ROW(FBDP_CLOSE_VERSION_NOT_SUPPORTED, 101, "the server does not support this version of the protocol")             \
    ROW(FBDP_CLOSE_NOT_IMPLEMENTED, 102, "the server does not support what the client requires")                       \
    ROW(FBDP_CLOSE_FORMAT_NOT_SUPPORTED, 103, "the server does not support this data format")

/* The types of messages: name, number, word. */
#define FBDP_TYPES(ROW)                                                                                                \
    ROW(FBDP_OPEN, 1, "OPEN")                                                                                          \
    ROW(FBDP_READY, 2, "READY")                                                                                        \
    ROW(FBDP_NOOP, 3, "NOOP")                                                                                          \
    ROW(FBDP_DATA, 4, "DATA")                                                                                          \
    ROW(FBDP_CLOSE, 5, "CLOSE")

#define FBDP_CONSTANT(name, number, words) name = number,
enum { FBDP_NUMBERS(FBDP_CONSTANT) };
enum { FBDP_CLOSE_CODES(FBDP_CONSTANT) };
enum { FBDP_TYPES(FBDP_CONSTANT) };
#undef FBDP_CONSTANT

/* Each number, code and type in words, for logs and screens; one that is not listed above has words too. */
#define FBDP_WORDS(name, number, words)                                                                                \
    case number:                                                                                                       \
        return words;
static inline const char *fbdp_meaning(uint64_t number) {
    switch (number) { FBDP_NUMBERS(FBDP_WORDS) }
    return "not a number of this library";
}
static inline const char *fbdp_close_meaning(uint64_t code) {
    switch (code) { FBDP_CLOSE_CODES(FBDP_WORDS) }
    return "a code that the protocol does not name";
}
static inline const char *fbdp_type_name(uint64_t type) {
    switch (type) { FBDP_TYPES(FBDP_WORDS) }
    return "none";
}
#undef FBDP_WORDS

/* The options of a send of DATA or NOOP, bits of one number `how`: to ask for a confirmation, and to send DATA without
 * a body, which is heard as another report than one with an empty body. Other bits, and FBDP_NO_BODY at a NOOP, are not
 * looked at; leave them 0, as a later interface may give them a meaning. */
enum { FBDP_ASK = 1, FBDP_NO_BODY = 2 };

/* The flags of a message that is heard, which are not options of a send: it asks for confirmation, or it is one. */
enum { FBDP_ACK_REQUEST = 1, FBDP_ACK_REPLY = 2 };

/* Who opens the pipe, and which way the data goes: a producer sends DATA, a consumer receives it. */
enum { FBDP_CLIENT = 1, FBDP_SERVER = 2 };
enum { FBDP_PRODUCER = 1, FBDP_CONSUMER = 2 };

/* The socket that an OPEN asks for: a producer's is the server's input, a consumer's its output. */
enum { FBDP_INPUT = 1, FBDP_OUTPUT = 2 };

/* The phases of an endpoint, and what may be sent in them. Until it is closed, either end may also send NOOP from
 * FBDP_PHASE_IDLE on, and CLOSE from FBDP_PHASE_OPENING on. */
enum {
    FBDP_PHASE_FRESH = 0,   /* nothing was sent or heard: the client's OPEN */
    FBDP_PHASE_OPENING = 1, /* OPEN was sent or heard: the server's READY */
    FBDP_PHASE_IDLE = 2,    /* no batch is under way: the server's READY, which offers one */
    FBDP_PHASE_OFFER = 3,   /* a batch is offered: the client's READY, which agrees to it */
    FBDP_PHASE_BATCH = 4,   /* a batch is agreed on: the producer's DATA */
    FBDP_PHASE_CLOSED = 5   /* nothing, for good */
};

/* The least and the most that a limit may be: the bytes of a message, which are its control frame of 8 and its data
 * frame, if it has one, without count and lengths of the bundle. So a body has at most 8 less than the limit. */
enum { FBDP_LEAST_LIMIT = 1000000, FBDP_MOST_LIMIT = 50000000 };

/* The term by which a client announces its limit, a number; it is left out where that is FBDP_MOST_LIMIT. */
#define FBDP_LIMIT_KEY "max_message_bytes"

/* Sizes that suffice for a block and for what is written. */
enum {
    FBDP_BLOCK_BYTES = 64,   /* an endpoint: exactly this many */
    FBDP_REPLY_BYTES = 14,   /* what a receive wants for its reply */
    FBDP_CONTROL_BYTES = 14, /* READY, NOOP, CLOSE, and DATA without a body */
    FBDP_OPEN_BYTES = 570,   /* OPEN with the longest name and format, and a limit */
    FBDP_DATA_OVERHEAD = 18, /* DATA with a body: so many more than the body has */
    /* all that is written, and all that is accepted but for a CLOSE with data frames, to which no limit applies; a
     * longer message that arrives is such a CLOSE, or is refused */
    FBDP_MESSAGE_BYTES = 10 + FBDP_MOST_LIMIT
};

/* What a made block says; the functions below are to write it, and nobody else. */
static inline uint8_t fbdp_phase(const uint8_t *block) { return block[2]; }

/* How many confirmations are awaited, at most 16. */
static inline uint8_t fbdp_awaited(const uint8_t *block) { return block[3]; }

/* How many of them belong to DATA: so many of the reports that were sent with FBDP_ASK, the newest ones, are not
 * confirmed yet. A close clears this with all else that is awaited, so a host that wants to know what was in doubt then
 * asks before each call that may close. */
static inline uint8_t fbdp_unconfirmed(const uint8_t *block) { return block[6]; }

/* The count that is offered in FBDP_PHASE_OFFER, and that is left in FBDP_PHASE_BATCH; else 0. */
static inline uint16_t fbdp_count(const uint8_t *block) { return (uint16_t)(block[4] << 8 | block[5]); }

/* A client's limit; at a server FBDP_MOST_LIMIT until a client announces another. */
static inline uint32_t fbdp_limit(const uint8_t *block) {
    return (uint32_t)block[8] << 24 | (uint32_t)block[9] << 16 | (uint32_t)block[10] << 8 | block[11];
}

/* Makes a fresh client with the limit that it will announce, whatever stood in the block before.
 * Refuses FBDP_BAD_BLOCK (the length alone is tested), FBDP_BADLY_GIVEN.
 * A refusal leaves the block as it was. */
uint32_t fbdp_make_client(uint8_t *block, size_t block_length, uint8_t flow, uint32_t limit);

/* Makes a fresh server, whose limit is FBDP_MOST_LIMIT until a client announces another.
 * Refuses FBDP_BAD_BLOCK (the length alone is tested), FBDP_BADLY_GIVEN.
 * A refusal leaves the block as it was. */
uint32_t fbdp_make_server(uint8_t *block, size_t block_length, uint8_t flow);

/* The sends. Each writes one message from the start of `out` and nothing behind it, and says in `written` how many
 * bytes it has. Each tests FBDP_BAD_BLOCK, FBDP_CLOSED and FBDP_SEND_NOT_ALLOWED first, then what stands beside it, and
 * FBDP_NO_ROOM last; what is allowed when stands beside the phases. A refusal leaves every byte of `block` and `out` as
 * it was, and says that 0 were written. */

/* Sends OPEN, a client's first message, for the pipe of this name (1 to 255 bytes of UTF-8) and format (at most 255
 * bytes of UTF-8, none for any format), with the client's limit as its one parameter unless that is FBDP_MOST_LIMIT.
 * Refuses what every send does, and FBDP_BADLY_GIVEN.
 * Leaves the endpoint in FBDP_PHASE_OPENING, and at most FBDP_OPEN_BYTES in `out`. */
uint32_t fbdp_send_open(uint8_t *block, size_t block_length, const uint8_t *name, size_t name_length,
                        const uint8_t *format, size_t format_length, uint8_t *out, size_t out_length,
                        uint64_t *written);

/* Sends READY: a server offers a batch of `count` messages, and a client agrees to `count` of those; 0 is for none now.
 * Refuses what every send does, and at a client FBDP_SEND_ABOVE_OFFER.
 * Leaves a server in FBDP_PHASE_OFFER and a client in FBDP_PHASE_BATCH, either in FBDP_PHASE_IDLE where the count is 0,
 * and FBDP_CONTROL_BYTES in `out`. */
uint32_t fbdp_send_ready(uint8_t *block, size_t block_length, uint16_t count, uint8_t *out, size_t out_length,
                         uint64_t *written);

/* Sends DATA, by a producer in a batch: a number of the host's, and a body that may be empty. `how` is 0, FBDP_ASK,
 * FBDP_NO_BODY or both; with FBDP_NO_BODY neither `body` nor `body_length` is looked at, so that NULL and 0 will do.
 * Refuses what every send does; with FBDP_ASK also FBDP_TOO_MANY_ASKS; without FBDP_NO_BODY also FBDP_SEND_TOO_LARGE.
 * Leaves one message less to send, after the last one FBDP_PHASE_IDLE; with FBDP_ASK one more awaited and one more
 * unconfirmed; and in `out` body_length + FBDP_DATA_OVERHEAD bytes, or with FBDP_NO_BODY FBDP_CONTROL_BYTES. */
uint32_t fbdp_send_data(uint8_t *block, size_t block_length, uint16_t type_data, uint8_t how, const uint8_t *body,
                        size_t body_length, uint8_t *out, size_t out_length, uint64_t *written);

/* Sends NOOP, to keep a connection alive or to see that it is: a number of the host's. `how` is 0 or FBDP_ASK.
 * Refuses what every send does; with FBDP_ASK also FBDP_TOO_MANY_ASKS.
 * Leaves phase and count as they were, with FBDP_ASK one more awaited, and FBDP_CONTROL_BYTES in `out`. */
uint32_t fbdp_send_noop(uint8_t *block, size_t block_length, uint16_t type_data, uint8_t how, uint8_t *out,
                        size_t out_length, uint64_t *written);

/* Sends CLOSE with a code of 0 to 6, or of 100 to 103 by a server that has heard OPEN and not answered it yet.
 * Refuses what every send does, and FBDP_BAD_CODE.
 * Leaves the endpoint in FBDP_PHASE_CLOSED, with nothing awaited, and FBDP_CONTROL_BYTES in `out`. */
uint32_t fbdp_send_close(uint8_t *block, size_t block_length, uint16_t code, uint8_t *out, size_t out_length,
                         uint64_t *written);

/* What was heard. Places are offsets into the message; what a message does not have is 0, and what it has and is empty
 * has its place. A DATA is a confirmation where `flags` is FBDP_ACK_REPLY, and else a report, whose body is missing
 * where `frames` is 0. */
struct fbdp_heard {
    uint64_t type;                             /* FBDP_OPEN to FBDP_CLOSE */
    uint64_t flags;                            /* as they came */
    uint64_t type_data;                        /* READY: count; CLOSE: code; NOOP, DATA: a host's number */
    uint64_t reply;                            /* bytes of the reply in `out`, of a refusal too: 0 or 14 */
    uint64_t frames;                           /* data frames: OPEN 1; DATA 1, or 0 for a missing body; a confirmation
                                                  0, of DATA too; CLOSE up to 15, which fbdp_frame places */
    uint64_t socket;                           /* OPEN: FBDP_INPUT or FBDP_OUTPUT */
    uint64_t name_at, name_length;             /* OPEN: the pipe name */
    uint64_t format_at, format_length;         /* OPEN: the format */
    uint64_t parameters_at, parameters_length; /* OPEN: the parameters, for fbdp_lookup */
    uint64_t body_at, body_length;             /* DATA with a data frame: its body, which may be empty */
    uint64_t spare[2];                         /* 0 */
};

/* Receives one message, a whole bundle, at an endpoint that offers this pipe name and format; a client may lend two empty
 * slices. They are only compared, at an OPEN: one without a format fits every offer, and an offer that no OPEN may ask
 * for fits none. No byte of a body is read. Where heard->reply is not 0, so many bytes of `out` are a confirmation or a
 * CLOSE: send them, after a refusal too. A CLOSE that is heard is accepted, and not to be answered.
 * Refuses FBDP_BAD_BLOCK, FBDP_NO_ROOM (`out` under FBDP_REPLY_BYTES, always tested) and FBDP_CLOSED, which leave every
 * byte of `block` and `out` as it was, so that what comes behind a close is dropped; and FBDP_BAD_BUNDLE to
 * FBDP_UNMATCHED, in the order of their numbers, which close the endpoint and reply with a CLOSE, but not as a client in
 * FBDP_PHASE_FRESH, nor to a CLOSE that is refused as FBDP_NOT_ALLOWED.
 * Leaves the block moved or closed, the reply at the start of `out` and nothing behind it, and in `heard` what was
 * heard, or for a refusal zeros in all but `reply`. */
uint32_t fbdp_receive(uint8_t *block, size_t block_length, const uint8_t *message, size_t message_length,
                      const uint8_t *name, size_t name_length, const uint8_t *format, size_t format_length,
                      uint8_t *out, size_t out_length, struct fbdp_heard *heard);

/* Where a frame stands in a bundle. */
struct fbdp_frame_place {
    uint64_t found; /* 1, or 0 where there is no such frame */
    uint64_t at;
    uint64_t length;
};

/* Hands out the place of one frame of a bundle; index 0 is the control frame. No byte of a body is read.
 * Refuses FBDP_BAD_BUNDLE.
 * Leaves the place, or three zeros for a refusal and behind the last frame, which is accepted. */
uint32_t fbdp_frame(const uint8_t *bundle, size_t bundle_length, uint32_t index, struct fbdp_frame_place *place);

/* The kinds of Values. */
enum { FBDP_NULL = 1, FBDP_NUMBER = 2, FBDP_TEXT = 3, FBDP_BOOL = 4, FBDP_STRUCT = 5, FBDP_LIST = 6 };

/* What a Value holds. */
struct fbdp_value_held {
    uint64_t kind;   /* FBDP_NULL to FBDP_LIST */
    uint64_t held;   /* a number's double bit by bit; a text's offset in `bytes`; a bool's 0 or 1; else 0 */
    uint64_t length; /* of a text: well-formed UTF-8, not ended by a zero; else 0 */
};

/* Says what a Value holds: protobuf's google.protobuf.Value, its bytes without tag and length, as fbdp_lookup places
 * them. All of it is read, at every level; its own Struct or list is level 1 of at most 8. Of these only the kind is
 * told.
 * Refuses FBDP_UNREADABLE: bytes that break a rule, or none at all.
 * Leaves what it holds, or three zeros for a refusal. */
uint32_t fbdp_value(const uint8_t *bytes, size_t bytes_length, struct fbdp_value_held *value);

/* The slices that a term may stand in. */
enum { FBDP_IN_CLIENT = 1, FBDP_IN_DEFAULTS = 2 };

/* Where the Value of a term stands: its bytes, without tag and length. */
struct fbdp_term_place {
    uint64_t slice; /* FBDP_IN_CLIENT or FBDP_IN_DEFAULTS */
    uint64_t at;    /* offset into that slice */
    uint64_t length;
};

/* Looks a term up by its key: in the client's parameters, an empty slice where it sent none, and failing that in the
 * default Struct. Both are protobuf's google.protobuf.Struct, without tag and length, and only their outermost entries
 * are looked at. A null that is found is an answer; an empty key finds an entry with no key or an empty one. Both are
 * read whole at each call, in a time that grows with the square of the number of entries of one Struct.
 * Refuses FBDP_UNREADABLE, FBDP_DEFAULTS_UNREADABLE, FBDP_NO_SUCH_TERM, in this order.
 * Leaves the place, of a Value that fbdp_value reads, or for a refusal FBDP_IN_CLIENT, 0, 0. */
uint32_t fbdp_lookup(const uint8_t *client, size_t client_length, const uint8_t *defaults, size_t defaults_length,
                     const uint8_t *key, size_t key_length, struct fbdp_term_place *place);

/* What refers to fbdp_interface_3: a constant that stays where a linker leaves out what nothing uses, and of a compiler
 * that has no such constants a function that is called before main. */
#if defined(__has_attribute)
#if __has_attribute(used) && __has_attribute(retain)
#define FBDP_RETAINED
#endif
#endif
#ifdef FBDP_RETAINED
__attribute__((used, retain)) static uint32_t (*const fbdp_interface_linked)(void) = fbdp_interface_3;
#undef FBDP_RETAINED
#elif defined(__GNUC__)
__attribute__((constructor)) static void fbdp_interface_linked(void) { (void)fbdp_interface_3(); }
#else
static uint32_t (*const fbdp_interface_linked)(void) = fbdp_interface_3;
#endif

#ifdef __cplusplus
}
#endif

#endif
