/* Carries out the calls that the second program asks for on standard input, and answers on standard output what
 * came of each.
 *
 * A message is a verb, a count and a length, 4 bytes each, and then as many bytes as the length says. Every number
 * stands low byte first. Each message is answered by one with the same verb; the end of the input ends the program.
 *
 * VERB_CALLS asks for `count` calls. A call is the function's code (1 byte), a pattern (8 bytes) and the arguments in
 * the order of the header: a number is 8 bytes, a lent input its length (4 bytes) and its bytes, what is lent to be
 * changed in place likewise, a lent room its length (4 bytes), a lent array of numbers nothing. The answer to a call is
 * the function's code (1 byte), the lent argument that is an input and was changed (1 byte: 1 for the first lent, 0 for
 * none), the number returned (8 bytes, 0 where the function returns none), and each slice that may be written and array
 * of numbers with its guards.
 *
 * VERB_SPEED asks for times; see answer_speed. */
#include "fbdp.h"
#include "probe.h"

#include <stddef.h>
#include <stdint.h>
#include <stdio.h>
#include <stdlib.h>
#include <string.h>
#include <time.h>

enum { VERB_CALLS = 1, VERB_SPEED = 2 };

enum {
    HEADER_BYTES = 12,
    GUARD = 32,       /* bytes before and behind whatever is lent */
    MOST_LENT = 8,    /* slices and arrays of numbers in one call */
    LINE_BYTES = 96,  /* the room that probe_line is given */
    DOUBLE_BYTES = 8, /* the room that probe_limit_bytes is given */
    PLACE_SLOTS = 3,  /* the numbers that fbdp_frame, fbdp_value and fbdp_lookup are given */
    HEARD_SLOTS = 16  /* the numbers that fbdp_receive is given */
};

static void fail(const char *why)
{
    fprintf(stderr, "host: %s\n", why);
    exit(3);
}

static void *allocate(size_t length)
{
    void *bytes = malloc(length);
    if (bytes == NULL) {
        fail("out of memory");
    }
    return bytes;
}

/* Numbers in messages, low byte first. */

static uint64_t low_byte_first(const uint8_t *bytes, size_t width)
{
    uint64_t number = 0;
    for (size_t i = 0; i < width; i++) {
        number |= (uint64_t)bytes[i] << (8 * i);
    }
    return number;
}

static void store_low_byte_first(uint8_t *bytes, size_t width, uint64_t number)
{
    for (size_t i = 0; i < width; i++) {
        bytes[i] = (uint8_t)(number >> (8 * i));
    }
}

/* The request, taken from its start to its end. */

struct request {
    const uint8_t *bytes;
    size_t left;
};

static const uint8_t *take_bytes(struct request *request, size_t length)
{
    if (length > request->left) {
        fail("the request is cut short");
    }
    const uint8_t *bytes = request->bytes;
    request->bytes += length;
    request->left -= length;
    return bytes;
}

static uint64_t take_number(struct request *request, size_t width)
{
    return low_byte_first(take_bytes(request, width), width);
}

/* The answer, which grows at its end. */

struct answer {
    uint8_t *bytes;
    size_t length;
    size_t room;
};

static uint8_t *grow(struct answer *answer, size_t length)
{
    if (length > answer->room - answer->length) {
        answer->room = 2 * (answer->length + length);
        answer->bytes = realloc(answer->bytes, answer->room);
        if (answer->bytes == NULL) {
            fail("out of memory");
        }
    }
    uint8_t *end = answer->bytes + answer->length;
    answer->length += length;
    return end;
}

static void put_number(struct answer *answer, size_t width, uint64_t number)
{
    store_low_byte_first(grow(answer, width), width, number);
}

/* What one call lends. Each lent part has its own fresh area: a guard, the part itself, and a guard. */

struct lent {
    uint8_t *area;
    size_t area_length;
    uint8_t *kept; /* for an input, its area as it was before the call; for what may be written, NULL */
};

struct call {
    struct request *request;
    uint64_t pattern;
    struct lent lent[MOST_LENT];
    size_t lent_count;
};

struct input {
    const uint8_t *bytes;
    size_t length;
};

struct room {
    uint8_t *bytes;
    size_t length;
};

/* A fresh area. Its word k of 8 bytes is the pattern plus k times an odd number, so that no two words are alike. */
static struct lent *lend(struct call *call, size_t length)
{
    if (call->lent_count == MOST_LENT) {
        fail("a call lends too much");
    }
    struct lent *lent = &call->lent[call->lent_count++];
    const size_t words = (GUARD + length + GUARD + 7) / 8;
    lent->area = allocate(8 * words);
    lent->area_length = GUARD + length + GUARD;
    lent->kept = NULL;
    for (size_t k = 0; k < words; k++) {
        store_low_byte_first(lent->area + 8 * k, 8, call->pattern + k * UINT64_C(0x9E3779B97F4A7C15));
    }
    return lent;
}

/* An empty slice is lent as a null pointer, or as one to no byte, by turns. */
static uint8_t *first_byte(const struct call *call, const struct lent *lent, size_t length)
{
    return length == 0 && call->pattern % 2 == 0 ? NULL : lent->area + GUARD;
}

/* A fresh area with the bytes that the request gives. */
static struct lent *lend_given(struct call *call, size_t *length)
{
    *length = (size_t)take_number(call->request, 4);
    const uint8_t *bytes = take_bytes(call->request, *length);
    struct lent *lent = lend(call, *length);
    if (*length != 0) {
        memcpy(lent->area + GUARD, bytes, *length);
    }
    return lent;
}

static struct input lend_input(struct call *call)
{
    size_t length;
    struct lent *lent = lend_given(call, &length);
    lent->kept = allocate(lent->area_length);
    memcpy(lent->kept, lent->area, lent->area_length);
    return (struct input){first_byte(call, lent, length), length};
}

/* What is lent to be changed in place: its bytes are given, and come back as they are afterwards. */
static struct room lend_in_place(struct call *call)
{
    size_t length;
    struct lent *lent = lend_given(call, &length);
    return (struct room){first_byte(call, lent, length), length};
}

static struct room lend_room_of(struct call *call, size_t length)
{
    struct lent *lent = lend(call, length);
    return (struct room){first_byte(call, lent, length), length};
}

static struct room lend_room(struct call *call)
{
    return lend_room_of(call, (size_t)take_number(call->request, 4));
}

static void *lend_numbers(struct call *call, size_t count)
{
    return lend(call, count * sizeof(uint64_t))->area + GUARD;
}

static uint64_t number(struct call *call)
{
    return take_number(call->request, 8);
}

/* The calls: each takes its arguments in the order of the header and gives the number returned. */

static uint64_t call_frame(struct call *call)
{
    const struct input bundle = lend_input(call);
    const uint32_t index = (uint32_t)number(call);
    struct fbdp_frame_place *place = lend_numbers(call, PLACE_SLOTS);
    return fbdp_frame(bundle.bytes, bundle.length, index, place);
}

static uint64_t call_read8(struct call *call)
{
    const struct input bytes = lend_input(call);
    const size_t at = (size_t)number(call);
    return probe_read8(bytes.bytes, bytes.length, at);
}

static uint64_t call_read16(struct call *call)
{
    const struct input bytes = lend_input(call);
    const size_t at = (size_t)number(call);
    return probe_read16(bytes.bytes, bytes.length, at);
}

static uint64_t call_read32(struct call *call)
{
    const struct input bytes = lend_input(call);
    const size_t at = (size_t)number(call);
    return probe_read32(bytes.bytes, bytes.length, at);
}

static uint64_t call_read64(struct call *call)
{
    const struct input bytes = lend_input(call);
    const size_t at = (size_t)number(call);
    return probe_read64(bytes.bytes, bytes.length, at);
}

static uint64_t call_store16(struct call *call)
{
    const struct room out = lend_room(call);
    const size_t at = (size_t)number(call);
    probe_store16(out.bytes, out.length, at, (uint16_t)number(call));
    return 0;
}

static uint64_t call_store32(struct call *call)
{
    const struct room out = lend_room(call);
    const size_t at = (size_t)number(call);
    probe_store32(out.bytes, out.length, at, (uint32_t)number(call));
    return 0;
}

static uint64_t call_store64(struct call *call)
{
    const struct room out = lend_room(call);
    const size_t at = (size_t)number(call);
    probe_store64(out.bytes, out.length, at, number(call));
    return 0;
}

static uint64_t call_copy(struct call *call)
{
    const struct room out = lend_room(call);
    const size_t at = (size_t)number(call);
    const struct input bytes = lend_input(call);
    probe_copy(out.bytes, out.length, at, bytes.bytes, bytes.length);
    return 0;
}

static uint64_t call_contents(struct call *call)
{
    const struct input bundle = lend_input(call);
    uint64_t *contents = lend_numbers(call, 4);
    return probe_contents(bundle.bytes, bundle.length, contents);
}

static uint64_t call_hand_out(struct call *call)
{
    const struct input bundle = lend_input(call);
    const size_t position = (size_t)number(call);
    uint64_t *handed = lend_numbers(call, 4);
    return probe_hand_out(bundle.bytes, bundle.length, position, handed);
}

static uint64_t call_control(struct call *call)
{
    const struct input frame = lend_input(call);
    uint64_t *control = lend_numbers(call, 3);
    return probe_control(frame.bytes, frame.length, control);
}

static uint64_t call_write_one(struct call *call)
{
    const struct room out = lend_room(call);
    const uint8_t type = (uint8_t)number(call);
    const uint8_t flags = (uint8_t)number(call);
    const uint16_t type_data = (uint16_t)number(call);
    return probe_write(out.bytes, out.length, type, flags, type_data, false, NULL, 0);
}

static uint64_t call_write_two(struct call *call)
{
    const struct room out = lend_room(call);
    const uint8_t type = (uint8_t)number(call);
    const uint8_t flags = (uint8_t)number(call);
    const uint16_t type_data = (uint16_t)number(call);
    const struct input body = lend_input(call);
    return probe_write(out.bytes, out.length, type, flags, type_data, true, body.bytes, body.length);
}

static uint64_t call_line(struct call *call)
{
    const struct input input = lend_input(call);
    const struct room line = lend_room_of(call, LINE_BYTES);
    return probe_line(input.bytes, input.length, line.bytes);
}

static uint64_t call_value(struct call *call)
{
    const struct input bytes = lend_input(call);
    struct fbdp_value_held *value = lend_numbers(call, PLACE_SLOTS);
    return fbdp_value(bytes.bytes, bytes.length, value);
}

static uint64_t call_lookup(struct call *call)
{
    const struct input client = lend_input(call);
    const struct input defaults = lend_input(call);
    const struct input key = lend_input(call);
    struct fbdp_term_place *place = lend_numbers(call, PLACE_SLOTS);
    return fbdp_lookup(client.bytes, client.length, defaults.bytes, defaults.length, key.bytes, key.length, place);
}

static uint64_t call_text(struct call *call)
{
    const struct input bytes = lend_input(call);
    return probe_text(bytes.bytes, bytes.length);
}

static uint64_t call_field(struct call *call)
{
    const struct input bytes = lend_input(call);
    const size_t at = (size_t)number(call);
    const size_t end = (size_t)number(call);
    uint64_t *field = lend_numbers(call, 5);
    return probe_field(bytes.bytes, bytes.length, at, end, field);
}

static uint64_t call_varint(struct call *call)
{
    const struct room out = lend_room(call);
    const size_t at = (size_t)number(call);
    return probe_varint(out.bytes, out.length, at, number(call));
}

static uint64_t call_check(struct call *call)
{
    const struct input bytes = lend_input(call);
    const bool value = number(call) != 0;
    uint64_t *fault = lend_numbers(call, 2);
    return probe_check(bytes.bytes, bytes.length, value, fault);
}

static uint64_t call_limit_bytes(struct call *call)
{
    const uint32_t limit = (uint32_t)number(call);
    const struct room bytes = lend_room_of(call, DOUBLE_BYTES);
    probe_limit_bytes(limit, bytes.bytes);
    return 0;
}

static uint64_t call_limit(struct call *call)
{
    const struct input parameters = lend_input(call);
    uint64_t *limit = lend_numbers(call, 2);
    return probe_limit(parameters.bytes, parameters.length, limit);
}

static uint64_t call_open(struct call *call)
{
    const struct input message = lend_input(call);
    const size_t at = (size_t)number(call);
    const size_t end = (size_t)number(call);
    const bool producer = number(call) != 0;
    const struct input name = lend_input(call);
    const struct input format = lend_input(call);
    uint64_t *heard = lend_numbers(call, 10);
    return probe_open(message.bytes, message.length, at, end, producer, name.bytes, name.length, format.bytes,
                      format.length, heard);
}

static uint64_t call_open_frame(struct call *call)
{
    const struct room out = lend_room(call);
    const size_t at = (size_t)number(call);
    const bool producer = number(call) != 0;
    const struct input name = lend_input(call);
    const struct input format = lend_input(call);
    const uint32_t limit = (uint32_t)number(call);
    uint64_t *frame_length = lend_numbers(call, 1);
    return probe_open_frame(out.bytes, out.length, at, producer, name.bytes, name.length, format.bytes, format.length,
                            limit, frame_length);
}

static uint64_t call_make_client(struct call *call)
{
    const struct room block = lend_in_place(call);
    const uint8_t flow = (uint8_t)number(call);
    const uint32_t limit = (uint32_t)number(call);
    return fbdp_make_client(block.bytes, block.length, flow, limit);
}

static uint64_t call_make_server(struct call *call)
{
    const struct room block = lend_in_place(call);
    const uint8_t flow = (uint8_t)number(call);
    return fbdp_make_server(block.bytes, block.length, flow);
}

static uint64_t call_send_open(struct call *call)
{
    const struct room block = lend_in_place(call);
    const struct input name = lend_input(call);
    const struct input format = lend_input(call);
    const struct room out = lend_room(call);
    uint64_t *written = lend_numbers(call, 1);
    return fbdp_send_open(block.bytes, block.length, name.bytes, name.length, format.bytes, format.length, out.bytes,
                          out.length, written);
}

static uint64_t call_send_ready(struct call *call)
{
    const struct room block = lend_in_place(call);
    const uint16_t count = (uint16_t)number(call);
    const struct room out = lend_room(call);
    uint64_t *written = lend_numbers(call, 1);
    return fbdp_send_ready(block.bytes, block.length, count, out.bytes, out.length, written);
}

static uint64_t call_send_data(struct call *call)
{
    const struct room block = lend_in_place(call);
    const uint16_t type_data = (uint16_t)number(call);
    const uint8_t how = (uint8_t)number(call);
    const struct input body = lend_input(call);
    const struct room out = lend_room(call);
    uint64_t *written = lend_numbers(call, 1);
    return fbdp_send_data(block.bytes, block.length, type_data, how, body.bytes, body.length, out.bytes, out.length,
                          written);
}

static uint64_t call_send_noop(struct call *call)
{
    const struct room block = lend_in_place(call);
    const uint16_t type_data = (uint16_t)number(call);
    const uint8_t how = (uint8_t)number(call);
    const struct room out = lend_room(call);
    uint64_t *written = lend_numbers(call, 1);
    return fbdp_send_noop(block.bytes, block.length, type_data, how, out.bytes, out.length, written);
}

static uint64_t call_send_close(struct call *call)
{
    const struct room block = lend_in_place(call);
    const uint16_t code = (uint16_t)number(call);
    const struct room out = lend_room(call);
    uint64_t *written = lend_numbers(call, 1);
    return fbdp_send_close(block.bytes, block.length, code, out.bytes, out.length, written);
}

static uint64_t call_receive(struct call *call)
{
    const struct room block = lend_in_place(call);
    const struct input message = lend_input(call);
    const struct input name = lend_input(call);
    const struct input format = lend_input(call);
    const struct room out = lend_room(call);
    struct fbdp_heard *heard = lend_numbers(call, HEARD_SLOTS);
    return fbdp_receive(block.bytes, block.length, message.bytes, message.length, name.bytes, name.length, format.bytes,
                        format.length, out.bytes, out.length, heard);
}

static uint64_t call_interface(struct call *call)
{
    (void)call;
    return fbdp_interface_3();
}

static uint64_t call_phase(struct call *call)
{
    return fbdp_phase(lend_input(call).bytes);
}

static uint64_t call_awaited(struct call *call)
{
    return fbdp_awaited(lend_input(call).bytes);
}

static uint64_t call_unconfirmed(struct call *call)
{
    return fbdp_unconfirmed(lend_input(call).bytes);
}

static uint64_t call_count(struct call *call)
{
    return fbdp_count(lend_input(call).bytes);
}

static uint64_t call_block_limit(struct call *call)
{
    return fbdp_limit(lend_input(call).bytes);
}

/* A function's code is its place in this table, as in the second program's own. */
static uint64_t (*const calls[])(struct call *call) = {
    call_frame,
    call_read8,
    call_read16,
    call_read32,
    call_read64,
    call_store16,
    call_store32,
    call_store64,
    call_copy,
    call_contents,
    call_hand_out,
    call_control,
    call_write_one,
    call_write_two,
    call_line,
    call_value,
    call_lookup,
    call_text,
    call_field,
    call_varint,
    call_check,
    call_limit_bytes,
    call_limit,
    call_open,
    call_open_frame,
    call_make_client,
    call_make_server,
    call_send_open,
    call_send_ready,
    call_send_data,
    call_send_noop,
    call_send_close,
    call_receive,
    call_interface,
    call_phase,
    call_awaited,
    call_unconfirmed,
    call_count,
    call_block_limit,
};

/* The first lent argument, counted from 1, that is an input and is no longer what it was; 0 for none. */
static uint8_t changed_input(const struct call *call)
{
    for (size_t i = 0; i < call->lent_count; i++) {
        const struct lent *lent = &call->lent[i];
        if (lent->kept != NULL && memcmp(lent->kept, lent->area, lent->area_length) != 0) {
            return (uint8_t)(i + 1);
        }
    }
    return 0;
}

static void answer_call(struct request *request, struct answer *answer)
{
    const size_t code = (size_t)take_number(request, 1);
    if (code >= sizeof calls / sizeof calls[0]) {
        fail("a function is asked for that is not known");
    }
    struct call call = {.request = request, .pattern = take_number(request, 8), .lent_count = 0};
    const uint64_t returned = calls[code](&call);
    put_number(answer, 1, code);
    put_number(answer, 1, changed_input(&call));
    put_number(answer, 8, returned);
    for (size_t i = 0; i < call.lent_count; i++) {
        const struct lent *lent = &call.lent[i];
        if (lent->kept == NULL) {
            memcpy(grow(answer, lent->area_length), lent->area, lent->area_length);
        }
        free(lent->kept);
        free(lent->area);
    }
}

/* Times: functions read a bundle of two frames, a DATA message, once of 100 bytes and once of 50,000,000; and a text of
 * 4,096 bytes, once of characters of two bytes and once of one. The answer holds, for each function and each of the
 * two, the nanoseconds of the best round and the calls in that round, 8 bytes each. */

enum { TIMED_INPUTS = 2, TRIALS = 5, ROUNDS = 200, TEXT_BYTES = 4096 };

static const size_t bundle_lengths[TIMED_INPUTS] = {100, 50000000};

/* Nanoseconds: long beside what reading the clock takes, and so short that on a busy machine some of the rounds are
 * not interrupted. */
static const uint64_t shortest_round = 200000;
static const uint64_t most_calls = 1u << 20;

typedef uint32_t timed(const struct input *input);

static uint32_t timed_frame(const struct input *bundle)
{
    struct fbdp_frame_place place;
    return fbdp_frame(bundle->bytes, bundle->length, 1, &place);
}

/* A server that consumes, in a batch of 65,535 messages of at most 50,000,000 bytes: it accepts every such bundle. */
static const uint8_t in_batch[FBDP_BLOCK_BYTES] = {2, FBDP_CONSUMER, 4, 0, 0xFF, 0xFF, 0, 0, 0x02, 0xFA, 0xF0, 0x80};

/* Each call changes a block of its own, so that all of them do the same. */
static uint32_t timed_receive(const struct input *bundle)
{
    uint8_t block[FBDP_BLOCK_BYTES];
    uint8_t out[FBDP_REPLY_BYTES];
    struct fbdp_heard heard;
    memcpy(block, in_batch, sizeof block);
    return fbdp_receive(block, sizeof block, bundle->bytes, bundle->length, NULL, 0, NULL, 0, out, sizeof out, &heard);
}

static uint32_t timed_contents(const struct input *bundle)
{
    uint64_t contents[4];
    return probe_contents(bundle->bytes, bundle->length, contents);
}

static timed *const timed_on_bundles[] = {timed_frame, timed_receive, timed_contents};

static uint32_t timed_text(const struct input *text)
{
    return probe_text(text->bytes, text->length) ? 0 : 1;
}

/* A text of these two bytes again and again. */
static uint8_t *text_of(uint8_t first, uint8_t second)
{
    uint8_t *text = allocate(TEXT_BYTES);
    for (size_t i = 0; i < TEXT_BYTES; i += 2) {
        text[i] = first;
        text[i + 1] = second;
    }
    return text;
}

/* A bundle of a DATA control frame and a body, every byte of it written. */
static uint8_t *two_frames(size_t length)
{
    static const uint8_t control[8] = {0x46, 0x42, 0x44, 0x50, 0x21, 0x00, 0x12, 0x34};
    uint8_t *bundle = allocate(length);
    memset(bundle, 0x5A, length);
    memset(bundle, 0, 10);
    bundle[1] = 2;
    bundle[5] = 8;
    for (size_t i = 0; i < 4; i++) {
        bundle[6 + i] = (uint8_t)((length - 18) >> (8 * (3 - i)));
    }
    memcpy(bundle + 10, control, sizeof control);
    return bundle;
}

static uint64_t nanoseconds(void)
{
    struct timespec now;
    if (timespec_get(&now, TIME_UTC) != TIME_UTC) {
        fail("there is no clock");
    }
    return (uint64_t)now.tv_sec * 1000000000u + (uint64_t)now.tv_nsec;
}

/* The nanoseconds of so many calls. A clock that was set back meanwhile gives a time that is never the best. */
static uint64_t time_of(timed *function, const struct input *input, uint64_t count)
{
    uint64_t refused = 0;
    const uint64_t start = nanoseconds();
    for (uint64_t i = 0; i < count; i++) {
        refused += function(input);
    }
    const uint64_t end = nanoseconds();
    if (refused != 0) {
        fail("a timed call was refused");
    }
    return end > start ? end - start : UINT64_MAX;
}

/* The calls that make a round. An interruption lengthens a time and never shortens it: the least of some trials says
 * whether so many calls are enough. */
static uint64_t calls_of_round(timed *function, const struct input *input)
{
    for (uint64_t count = 1; count < most_calls; count *= 2) {
        uint64_t least = UINT64_MAX;
        for (size_t trial = 0; trial < TRIALS; trial++) {
            const uint64_t time = time_of(function, input, count);
            least = time < least ? time : least;
        }
        if (least >= shortest_round) {
            return count;
        }
    }
    return most_calls;
}

/* The rounds of the two inputs take turns, so that both meet the same machine. */
static void answer_times(timed *function, const struct input inputs[TIMED_INPUTS], struct answer *answer)
{
    uint64_t count[TIMED_INPUTS];
    uint64_t best[TIMED_INPUTS];
    for (size_t i = 0; i < TIMED_INPUTS; i++) {
        count[i] = calls_of_round(function, &inputs[i]);
        best[i] = UINT64_MAX;
    }
    for (size_t round = 0; round < ROUNDS; round++) {
        for (size_t i = 0; i < TIMED_INPUTS; i++) {
            const uint64_t time = time_of(function, &inputs[i], count[i]);
            best[i] = time < best[i] ? time : best[i];
        }
    }
    for (size_t i = 0; i < TIMED_INPUTS; i++) {
        put_number(answer, 8, best[i]);
        put_number(answer, 8, count[i]);
    }
}

static uint32_t answer_speed(struct answer *answer)
{
    uint8_t *bytes[TIMED_INPUTS];
    struct input bundles[TIMED_INPUTS];
    for (size_t i = 0; i < TIMED_INPUTS; i++) {
        bytes[i] = two_frames(bundle_lengths[i]);
        bundles[i] = (struct input){bytes[i], bundle_lengths[i]};
    }
    const uint32_t functions = sizeof timed_on_bundles / sizeof timed_on_bundles[0];
    for (size_t i = 0; i < functions; i++) {
        answer_times(timed_on_bundles[i], bundles, answer);
    }
    uint8_t *of_two = text_of(0xC3, 0xBC), *of_one = text_of('o', 'k');
    answer_times(timed_text, (struct input[]){{of_two, TEXT_BYTES}, {of_one, TEXT_BYTES}}, answer);
    free(of_two);
    free(of_one);
    for (size_t i = 0; i < TIMED_INPUTS; i++) {
        free(bytes[i]);
    }
    return functions + 1;
}

/* Messages. */

/* How many were answered. */
static uint32_t answer_calls(struct request request, uint32_t count, struct answer *answer)
{
    uint32_t answered = 0;
    while (answered < count) {
        answer_call(&request, answer);
        answered++;
    }
    if (request.left != 0) {
        fail("the request has bytes behind its last call");
    }
    return answered;
}

static void write_answer(uint32_t verb, uint32_t count, const struct answer *answer)
{
    if (answer->length > UINT32_MAX) {
        fail("the answer is too long for a message");
    }
    uint8_t header[HEADER_BYTES];
    store_low_byte_first(header, 4, verb);
    store_low_byte_first(header + 4, 4, count);
    store_low_byte_first(header + 8, 4, answer->length);
    if (fwrite(header, 1, sizeof header, stdout) != sizeof header ||
        fwrite(answer->bytes, 1, answer->length, stdout) != answer->length || fflush(stdout) != 0) {
        fail("the answer cannot be written");
    }
}

static void answer_message(const uint8_t header[HEADER_BYTES])
{
    const uint32_t verb = (uint32_t)low_byte_first(header, 4);
    const uint32_t count = (uint32_t)low_byte_first(header + 4, 4);
    const size_t length = (size_t)low_byte_first(header + 8, 4);
    uint8_t *bytes = allocate(length + 1);
    if (fread(bytes, 1, length, stdin) != length) {
        fail("the message is cut short");
    }
    struct answer answer = {allocate(4096), 0, 4096};
    if (verb == VERB_CALLS) {
        write_answer(verb, answer_calls((struct request){bytes, length}, count, &answer), &answer);
    } else if (verb == VERB_SPEED) {
        write_answer(verb, answer_speed(&answer), &answer);
    } else {
        fail("the verb is not known");
    }
    free(answer.bytes);
    free(bytes);
}

int main(void)
{
    uint8_t header[HEADER_BYTES];
    size_t length;
    while ((length = fread(header, 1, sizeof header, stdin)) == sizeof header) {
        answer_message(header);
    }
    if (length != 0) {
        fail("the message is cut short");
    }
    return 0;
}
