/* A press and the estimating desk in one process: the press opens a pipe and sends its run reports in batches, and
 * between two runs one with no body, whose number says that it is still turning; the desk confirms each of them, the
 * press closes. Two queues in memory stand for the transport. */
#include <fbdp.h>
#include <inttypes.h>
#include <stdio.h>
#include <string.h>

enum { PLACES = 8, REPORTS = 6, OFFER = 3, STILL_TURNING = 500 };

/* The runs, and NULL where the press says no more than STILL_TURNING. */
static const char *const reports[REPORTS] = {
    "run 4711: 12000 sheets, 31 wasted", NULL, "run 4712: 800 sheets, 12 wasted", "run 4713: 800 sheets, 9 wasted",
    "run 4714: 25000 sheets, 58 wasted", "run 4715: 150 sheets, 40 wasted",
};

struct message {
    uint8_t bytes[FBDP_OPEN_BYTES];
    uint64_t length;
};

/* One end of the pipe, with the messages on their way to it, oldest first: at most a batch or its confirmations, and an
 * offer. What it offers is empty at the client. */
struct end {
    const char *title, *pipe, *format;
    struct end *other;
    uint8_t block[FBDP_BLOCK_BYTES];
    struct message incoming[PLACES];
    size_t first, count, sent;
};

/* The place for the next message to an end, on its way once `post` has counted it. */
static struct message *next(struct end *to) { return &to->incoming[(to->first + to->count) % PLACES]; }

static uint32_t post(struct end *to, uint32_t number) {
    to->count += next(to)->length > 0;
    if (number != FBDP_ACCEPTED) printf("%s refused: %s\n", to->other->title, fbdp_meaning(number));
    return number;
}

static const uint8_t *bytes(const char *text) { return (const uint8_t *)text; }

static void say(const struct end *end, const struct message *message, const struct fbdp_heard *heard) {
    const char *text = (const char *)message->bytes;
    const int confirms = heard->type != FBDP_CLOSE && (heard->flags & FBDP_ACK_REPLY);
    printf("%s heard %s %" PRIu64, end->title, fbdp_type_name(heard->type), heard->type_data);
    if (heard->type == FBDP_OPEN) printf(": pipe %.*s", (int)heard->name_length, text + heard->name_at);
    if (heard->type == FBDP_CLOSE) printf(": %s", fbdp_close_meaning(heard->type_data));
    if (heard->type == FBDP_DATA && !confirms) {
        if (heard->frames > 0) printf(": %.*s", (int)heard->body_length, text + heard->body_at);
        else printf(": %s", heard->type_data == STILL_TURNING ? "still turning" : "no body");
    }
    if (confirms) printf(" confirmed, %u unconfirmed", fbdp_unconfirmed(end->block));
    printf("\n");
}

/* Hears the oldest message on its way to this end; a reply goes to the other. */
static uint32_t hear(struct end *end) {
    const struct message *message = &end->incoming[end->first];
    struct message *reply = next(end->other);
    struct fbdp_heard heard;
    uint32_t number = fbdp_receive(end->block, sizeof end->block, message->bytes, (size_t)message->length,
                                   bytes(end->pipe), strlen(end->pipe), bytes(end->format), strlen(end->format),
                                   reply->bytes, sizeof reply->bytes, &heard);
    reply->length = heard.reply;
    if (number == FBDP_ACCEPTED) say(end, message, &heard);
    end->first = (end->first + 1) % PLACES;
    end->count--;
    return post(end->other, number);
}

/* Sends the next report, to be confirmed. */
static uint32_t send_report(struct end *press, struct message *out) {
    const char *report = reports[press->sent];
    if (report == NULL) {
        return fbdp_send_data(press->block, FBDP_BLOCK_BYTES, STILL_TURNING, FBDP_ASK | FBDP_NO_BODY, NULL, 0,
                              out->bytes, sizeof out->bytes, &out->length);
    }
    return fbdp_send_data(press->block, FBDP_BLOCK_BYTES, (uint16_t)(press->sent + 1), FBDP_ASK, bytes(report),
                          strlen(report), out->bytes, sizeof out->bytes, &out->length);
}

/* The press opens, agrees to what it has reports for, sends them, and closes once all are sent and confirmed. */
static uint32_t press_sends(struct end *press) {
    struct message *out = next(press->other);
    uint8_t *block = press->block;
    const char *pipe = press->other->pipe, *format = press->other->format;
    const size_t left = REPORTS - press->sent;
    const uint16_t count = left < fbdp_count(block) ? (uint16_t)left : fbdp_count(block);
    uint32_t number = FBDP_ACCEPTED;
    out->length = 0;
    if (fbdp_phase(block) == FBDP_PHASE_FRESH) {
        number = fbdp_send_open(block, FBDP_BLOCK_BYTES, bytes(pipe), strlen(pipe), bytes(format), strlen(format),
                                out->bytes, sizeof out->bytes, &out->length);
    } else if (fbdp_phase(block) == FBDP_PHASE_BATCH) {
        number = send_report(press, out);
        press->sent += number == FBDP_ACCEPTED;
    } else if (fbdp_phase(block) == FBDP_PHASE_OFFER && left > 0) {
        number = fbdp_send_ready(block, FBDP_BLOCK_BYTES, count, out->bytes, sizeof out->bytes, &out->length);
    } else if (left == 0 && fbdp_awaited(block) == 0) {
        number = fbdp_send_close(block, FBDP_BLOCK_BYTES, FBDP_CLOSE_OK, out->bytes, sizeof out->bytes, &out->length);
    }
    return post(press->other, number);
}

/* The desk offers a batch whenever none is under way. */
static uint32_t desk_sends(struct end *desk) {
    struct message *out = next(desk->other);
    uint32_t number = FBDP_ACCEPTED;
    out->length = 0;
    if (fbdp_phase(desk->block) == FBDP_PHASE_OPENING || fbdp_phase(desk->block) == FBDP_PHASE_IDLE) {
        number = fbdp_send_ready(desk->block, FBDP_BLOCK_BYTES, OFFER, out->bytes, sizeof out->bytes, &out->length);
    }
    return post(desk->other, number);
}

int main(void) {
    static struct end press, desk;
    uint32_t number = fbdp_make_client(press.block, sizeof press.block, FBDP_PRODUCER, FBDP_LEAST_LIMIT);
    press.title = "press", press.pipe = press.format = "", press.other = &desk;
    desk.title = "desk ", desk.pipe = "press7", desk.format = "text/plain", desk.other = &press;
    if (number == FBDP_ACCEPTED) number = fbdp_make_server(desk.block, sizeof desk.block, FBDP_CONSUMER);
    while (number == FBDP_ACCEPTED && fbdp_phase(desk.block) != FBDP_PHASE_CLOSED) {
        do number = press_sends(&press);
        while (number == FBDP_ACCEPTED && fbdp_phase(press.block) == FBDP_PHASE_BATCH);
        while (number == FBDP_ACCEPTED && desk.count > 0) number = hear(&desk);
        if (number == FBDP_ACCEPTED) number = desk_sends(&desk);
        while (number == FBDP_ACCEPTED && press.count > 0) number = hear(&press);
    }
    /* A refusal has closed one end, and its CLOSE is on the way to the other. */
    while (desk.count > 0) hear(&desk);
    while (press.count > 0) hear(&press);
    printf("%zu reports sent: %s\n", press.sent, fbdp_meaning(number));
    return number == FBDP_ACCEPTED ? 0 : 1;
}
