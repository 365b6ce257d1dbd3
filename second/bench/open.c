/* Times the proved reader of an OPEN frame against nanopb's decoding of the same frame, and prints a table.
 * Before a frame is timed, both are held to what was put into it.
 *
 * The two do not do the same work: nanopb copies every text and number out of the frame, and tests neither UTF-8 nor
 * repeated keys; the proved reader tests all of the rules and the offer, finds the limit, and hands out places. */
#define _POSIX_C_SOURCE 200809L

#include "open.pb.h"
#include "probe.h"

#include <pb_decode.h>
#include <pb_encode.h>
#include <stdbool.h>
#include <stddef.h>
#include <stdint.h>
#include <stdio.h>
#include <stdlib.h>
#include <string.h>
#include <time.h>

enum {
    MOST_FRAME_BYTES = 4096, /* the longest frame that the rules allow */
    INPUT_SOCKET = 1,        /* what a consumer offers and a producer opens */
    ROUNDS = 40,
    ROUND_NANOSECONDS = 5000000 /* the least that a round takes: short, so that some round is left undisturbed */
};

#define LIMIT_KEY "max_message_bytes"
#define LIMIT 1000000

/* What is aimed at for long texts: less than this part of nanopb's time. */
#define MOST_OF_NANOPB 0.8

/* The slots of what probe_open hears. */
enum {
    SOCKET,
    NAME_AT,
    NAME_LENGTH,
    FORMAT_AT,
    FORMAT_LENGTH,
    PARAMETERS_AT,
    PARAMETERS_LENGTH,
    HEARD_LIMIT,
    HEARD_SLOTS = 10 /* with the kind and the offset of a fault */
};

struct frame {
    const char *title;
    Open content;
    uint8_t bytes[MOST_FRAME_BYTES];
    size_t length;
};

static void fail(const char *title, const char *why)
{
    fprintf(stderr, "bench: frame `%s`: %s\n", title, why);
    exit(1);
}

/* The frames. */

#define TERM(name, tag, held) {.key = name, .has_value = true, .value = {.which_kind = tag, .kind = {held}}}
#define NUMBER(name, number) TERM(name, Value_number_value_tag, .number_value = number)
#define TEXT(name, text) TERM(name, Value_string_value_tag, .string_value = text)
#define TRUTH(name, truth) TERM(name, Value_bool_value_tag, .bool_value = truth)
#define NOTHING(name) TERM(name, Value_null_value_tag, .null_value = NullValue_NULL_VALUE)

/* A frame has the first so many of these as its parameters. */
static const Entry terms[] = {
    NUMBER(LIMIT_KEY, LIMIT),
    TEXT("press", "press seven, hall two"),
    NUMBER("makeready_hours", 1.25),
    NUMBER("sheets_per_hour", 11500),
    TRUTH("perfecting", true),
    NOTHING("varnish"),
    TEXT("job", "2024-0815 spring catalogue"),
    NUMBER("sheets", 48000),
    TEXT("customer", "Verlag am Markt"),
    TEXT("paper", "coated matt 135"),
    NUMBER("grammage", 135),
    NUMBER("sheet_width", 1020),
    NUMBER("sheet_height", 720),
    NUMBER("plates", 8),
    NUMBER("colours_front", 4),
    NUMBER("colours_back", 4),
    TRUTH("spot_colour", false),
    NOTHING("spot_colour_name"),
    TEXT("operator", "m.weber"),
    TEXT("shift", "early"),
    NUMBER("waste_sheets", 650),
    NUMBER("waste_share", 0.0135),
    NUMBER("wash_ups", 2),
    NUMBER("stops", 3),
    NUMBER("stop_minutes", 17.5),
    TRUTH("dryer", true),
    NUMBER("dryer_degrees", 42.5),
    NUMBER("humidity", 0.55),
    TEXT("ink", "process, low migration"),
    NOTHING("remark"),
    TRUTH("proofed", true),
    TEXT("proofed_by", "k.lang"),
};

static void build(struct frame *frame, const char *title, const char *name, const char *format, size_t term_count)
{
    Open *content = &frame->content;
    frame->title = title;
    *content = (Open)Open_init_zero;
    if (strlen(name) >= sizeof content->data_pipe || strlen(format) >= sizeof content->data_format) {
        fail(title, "a text is too long");
    }
    strcpy(content->data_pipe, name);
    content->pipe_socket = INPUT_SOCKET;
    strcpy(content->data_format, format);
    content->has_parameters = true;
    content->parameters.fields_count = (pb_size_t)term_count;
    memcpy(content->parameters.fields, terms, term_count * sizeof terms[0]);
    pb_ostream_t stream = pb_ostream_from_buffer(frame->bytes, sizeof frame->bytes);
    if (!pb_encode(&stream, Open_fields, content)) {
        fail(title, PB_GET_ERROR(&stream));
    }
    frame->length = stream.bytes_written;
}

/* The two readers. */

static uint32_t read_ours(const struct frame *frame, size_t name_length, size_t format_length,
                          uint64_t heard[HEARD_SLOTS])
{
    const bool producer = false;
    const uint8_t *name = (const uint8_t *)frame->content.data_pipe;
    const uint8_t *format = (const uint8_t *)frame->content.data_format;
    return probe_open(frame->bytes, frame->length, 0, frame->length, producer, name, name_length, format,
                      format_length, heard);
}

static bool read_nanopb(const struct frame *frame, Open *message)
{
    pb_istream_t stream = pb_istream_from_buffer(frame->bytes, frame->length);
    return pb_decode(&stream, Open_fields, message);
}

/* The check that both read the same. */

static bool holds_text(const struct frame *frame, uint64_t at, uint64_t length, const char *text)
{
    return length == strlen(text) && at <= frame->length && length <= frame->length - at &&
           memcmp(frame->bytes + at, text, (size_t)length) == 0;
}

static void check_ours(const struct frame *frame)
{
    const Open *content = &frame->content;
    uint64_t heard[HEARD_SLOTS];
    if (read_ours(frame, strlen(content->data_pipe), strlen(content->data_format), heard) != 0) {
        fail(frame->title, "our reader refuses it");
    }
    if (heard[SOCKET] != content->pipe_socket || heard[HEARD_LIMIT] != LIMIT ||
        !holds_text(frame, heard[NAME_AT], heard[NAME_LENGTH], content->data_pipe) ||
        !holds_text(frame, heard[FORMAT_AT], heard[FORMAT_LENGTH], content->data_format)) {
        fail(frame->title, "our reader hears something else than was written");
    }
}

static double announced_limit(const Struct *parameters)
{
    for (size_t i = 0; i < parameters->fields_count; i++) {
        const Entry *entry = &parameters->fields[i];
        if (strcmp(entry->key, LIMIT_KEY) == 0 && entry->value.which_kind == Value_number_value_tag) {
            return entry->value.kind.number_value;
        }
    }
    return 0;
}

static void check_nanopb(const struct frame *frame)
{
    const Open *content = &frame->content;
    Open message = Open_init_zero;
    if (!read_nanopb(frame, &message)) {
        fail(frame->title, "nanopb refuses it");
    }
    if (strcmp(message.data_pipe, content->data_pipe) != 0 || message.pipe_socket != content->pipe_socket ||
        strcmp(message.data_format, content->data_format) != 0 || announced_limit(&message.parameters) != LIMIT ||
        message.parameters.fields_count != content->parameters.fields_count) {
        fail(frame->title, "nanopb decodes something else than was written");
    }
}

/* The times. */

/* Reads a frame so many times, and answers a number that every reading has a part in. */
typedef uint64_t repeated(const struct frame *frame, uint64_t times);

static uint64_t repeat_ours(const struct frame *frame, uint64_t times)
{
    size_t name_length = strlen(frame->content.data_pipe), format_length = strlen(frame->content.data_format);
    uint64_t sum = 0;
    for (uint64_t i = 0; i < times; i++) {
        uint64_t heard[HEARD_SLOTS];
        sum += read_ours(frame, name_length, format_length, heard);
        sum += heard[NAME_AT] + heard[HEARD_LIMIT];
    }
    return sum;
}

static uint64_t repeat_nanopb(const struct frame *frame, uint64_t times)
{
    uint64_t sum = 0;
    for (uint64_t i = 0; i < times; i++) {
        Open message = Open_init_zero;
        sum += read_nanopb(frame, &message);
        sum += message.pipe_socket + message.parameters.fields_count;
    }
    return sum;
}

/* Keeps the compiler from leaving a reading out. */
static volatile uint64_t consumed;

static uint64_t nanoseconds(repeated *reader, const struct frame *frame, uint64_t times)
{
    struct timespec start, stop;
    clock_gettime(CLOCK_MONOTONIC, &start);
    consumed = reader(frame, times);
    clock_gettime(CLOCK_MONOTONIC, &stop);
    return (uint64_t)(stop.tv_sec - start.tv_sec) * 1000000000u + (uint64_t)stop.tv_nsec - (uint64_t)start.tv_nsec;
}

struct timing {
    repeated *reader;
    uint64_t times;
    uint64_t best;
};

static struct timing warmed_up(repeated *reader, const struct frame *frame)
{
    struct timing timing = {.reader = reader, .times = 1, .best = UINT64_MAX};
    while (nanoseconds(reader, frame, timing.times) < ROUND_NANOSECONDS) {
        timing.times *= 2;
    }
    return timing;
}

static void run_round(struct timing *timing, const struct frame *frame)
{
    uint64_t taken = nanoseconds(timing->reader, frame, timing->times);
    if (taken < timing->best) {
        timing->best = taken;
    }
}

/* Prints the times of a frame, and answers our time as a part of nanopb's. */
static double compare(const struct frame *frame)
{
    check_ours(frame);
    check_nanopb(frame);
    struct timing ours = warmed_up(repeat_ours, frame), nanopb = warmed_up(repeat_nanopb, frame);
    for (int round = 0; round < ROUNDS; round++) {
        run_round(&ours, frame);
        run_round(&nanopb, frame);
    }
    double our_time = (double)ours.best / (double)ours.times;
    double its_time = (double)nanopb.best / (double)nanopb.times;
    double ratio = our_time / its_time;
    printf("%-12s %6zu %10.1f %10.1f %12.2f\n", frame->title, frame->length, our_time, its_time, ratio);
    fflush(stdout);
    return ratio;
}

int main(void)
{
    static struct frame frame;
    char longest[256];
    memset(longest, 'p', sizeof longest - 1);
    longest[sizeof longest - 1] = '\0';
    printf("%-12s %6s %10s %10s %12s\n", "frame", "bytes", "ours ns", "nanopb ns", "ours/nanopb");
    build(&frame, "smallest", "press7", "press-run-1", 1);
    compare(&frame);
    build(&frame, "8 terms", "press7", "press-run-1", 8);
    compare(&frame);
    build(&frame, "long texts", longest, longest, 1);
    double long_texts = compare(&frame);
    build(&frame, "32 terms", "press7", "press-run-1", 32);
    compare(&frame);
    printf("\naim: name and format of 255 bytes take less than %.1f of nanopb's time: %s\n", MOST_OF_NANOPB,
           long_texts < MOST_OF_NANOPB ? "met" : "MISSED");
    return 0;
}
