/* Parts of the library, exported for the comparison alone by libprobe.a.
 * Conventions are those of fbdp.h. */
#ifndef PROBE_H
#define PROBE_H

#include <stdbool.h>
#include <stddef.h>
#include <stdint.h>

/* The number that the 1, 2, 4 or 8 bytes at `at` say, most significant first; 0 where they do not all lie in the slice. */
uint8_t probe_read8(const uint8_t *bytes, size_t length, size_t at);
uint16_t probe_read16(const uint8_t *bytes, size_t length, size_t at);
uint32_t probe_read32(const uint8_t *bytes, size_t length, size_t at);
uint64_t probe_read64(const uint8_t *bytes, size_t length, size_t at);

/* Stores the number's bytes, most significant first, from `at` on; changes no byte where they do not all fit. */
void probe_store16(uint8_t *out, size_t out_length, size_t at, uint16_t number);
void probe_store32(uint8_t *out, size_t out_length, size_t at, uint32_t number);
void probe_store64(uint8_t *out, size_t out_length, size_t at, uint64_t number);

/* Copies `bytes` into `out` from `at` on; changes no byte where they do not all fit. */
void probe_copy(uint8_t *out, size_t out_length, size_t at, const uint8_t *bytes, size_t length);

/* contents = frame count, place and length of the control frame, size of the message (the sum of its frame lengths);
 * 10 and zeros for a bad bundle. */
uint32_t probe_contents(const uint8_t *bundle, size_t length, uint64_t contents[4]);

/* Hands out the next frame of a reader that has handed out `position` frames of this bundle. handed = found (0 or 1),
 * place and length of the frame, zeros where there is none, and how many frames the reader has handed out afterwards:
 * one more where there was a frame, else as many as before. 10 and no frame for a bad bundle. */
uint32_t probe_hand_out(const uint8_t *bundle, size_t length, size_t position, uint64_t handed[4]);

/* control = type, flags, type-data of a control frame; 11, 12 or 13 and zeros where it is refused. */
uint32_t probe_control(const uint8_t *frame, size_t length, uint64_t control[3]);

/* Writes the bundle of a control frame alone, or with `with_body` of a control frame and one body; returns the bytes
 * written. Returns 0 and changes no byte where the type is none of 1 to 5 or the bundle does not fit. */
uint64_t probe_write(uint8_t *out, size_t out_length, uint8_t type, uint8_t flags, uint16_t type_data, bool with_body,
                     const uint8_t *body, size_t body_length);

/* Fills `line` from its start with what peek writes for this input, newline included; returns its length.
 * The bytes behind it are left as they were. */
uint64_t probe_line(const uint8_t *input, size_t length, uint8_t line[96]);

/* Whether the bytes are well-formed UTF-8. */
bool probe_text(const uint8_t *bytes, size_t length);

/* field = number, wire type, value, payload place, position behind it, of the field whose tag is at `at` in a message
 * that ends at `end`. The value is what a varint says, or how long a length-delimited payload is, else 0; the payload
 * is the varint, the fixed bytes, or what stands behind the length. Returns 0, or with zeros the kind of its fault:
 * 1 cut short (an `end` behind the slice and an `at` at or behind the `end` too), 2 bad varint or tag, 3 wire type. */
uint32_t probe_field(const uint8_t *bytes, size_t length, size_t at, size_t end, uint64_t field[5]);

/* Stores the shortest varint of the number from `at` on; changes no byte where it does not all fit. Returns the
 * varint's length in either case. */
uint64_t probe_varint(uint8_t *out, size_t out_length, size_t at, uint64_t number);

/* Whether a Struct, or with `value` a Value, is readable: 0 and zeros, or 18 and fault = kind, offset of the first
 * field that breaks a rule or of the end of the message that lacks something. Kinds: 1 cut short, 2 bad varint or tag,
 * 3 wire type, 4 repeated field or key, 5 bad UTF-8, 6 any other, 7 too deep. */
uint32_t probe_check(const uint8_t *bytes, size_t length, bool value, uint64_t fault[2]);

/* Fills `bytes` with the double of this number, low byte first. */
void probe_limit_bytes(uint32_t number, uint8_t bytes[8]);

/* limit = 0, 0 where the parameters (a Struct) have no outermost key max_message_bytes; 1 and the limit where that is
 * a good one; 2, 0 where it is anything else. 18 and zeros where the parameters are unreadable. */
uint32_t probe_limit(const uint8_t *parameters, size_t length, uint64_t limit[2]);

/* Reads the OPEN frame that stands in `message` from place `at` up to place `end`, as a server of this flow that offers
 * this name and this format. Returns 0, or 18 to 22. heard = socket, place and length of name, of format and of
 * parameters, and the limit announced or 50,000,000; all zeros where it is refused. Behind them, slots 8 and 9, stand
 * the kind of the fault and its offset where it is refused as 18 (kinds as for probe_check), else zeros. Places and the
 * offset are into `message`. An `at` at or behind the `end` is a frame without fields; one in front of an `end` that is
 * behind the slice is cut short at `at`. */
uint32_t probe_open(const uint8_t *message, size_t length, size_t at, size_t end, bool producer, const uint8_t *name,
                    size_t name_length, const uint8_t *format, size_t format_length, uint64_t heard[10]);

/* Stores the OPEN frame of a client of this flow from place `at` of `out` on; changes no byte where it does not all
 * fit. Returns 0 and its length (also where it does not fit), or 34 and 0, changing no byte, for a bad name or format.
 * The limit is any number, and is left out where it is 50,000,000. */
uint32_t probe_open_frame(uint8_t *out, size_t out_length, size_t at, bool producer, const uint8_t *name,
                          size_t name_length, const uint8_t *format, size_t format_length, uint32_t limit,
                          uint64_t *frame_length);

#endif
