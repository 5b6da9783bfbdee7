/*
 * A ring of five stations in one process, over rtep.h alone: what a driver does with its calls, and what it can
 * count on. The first thing that is not as expected ends the program with a message.
 *
 * Every buffer is allocated with exactly the octets that the call is told, so that a memory checker sees the first
 * octet read or written outside.
 */
#include "rtep.h"

#include <inttypes.h>
#include <stdbool.h>
#include <stdio.h>
#include <stdlib.h>
#include <string.h>

#define STATIONS 5
#define RETRIES 2
#define NOTES 64
#define ALL 0xFFu

#define CHECK(what, ...)                                            \
    do {                                                            \
        if (!(what)) {                                              \
            fprintf(stderr, "%s:%d: %s: ", __FILE__, __LINE__, #what); \
            fprintf(stderr, __VA_ARGS__);                           \
            fprintf(stderr, "\n");                                  \
            abort();                                                \
        }                                                           \
    } while (0)

static const uint64_t addresses[STATIONS] = {
    0x020000000010, 0x0200000000A1, 0x020000000022, 0xFE00000000FF, 0x021234567890,
};

/* A message as an application knows it. The payload's octets all are its tag. */
struct note {
    uint64_t other;
    unsigned priority, channel, length, tag;
};

struct station {
    uint8_t *record, *store;
    bool down;                  /* hears nothing, and its timer does not run */
    unsigned struck[STATIONS];  /* how often its application was told that a station is struck */
    struct note given_up[NOTES];
    unsigned given_up_count;
};

struct frame {
    unsigned from, to; /* positions */
    size_t octets;
    uint8_t packet[RTEP_OUT];
};

static struct station ring[STATIONS];
static struct frame wire;     /* the frame on the wire, or the last one that was */
static bool on_wire;          /* whether somebody has yet to hear it */
static unsigned calls, frames, informations, timers, strikes, told_given_up, takes;

static unsigned position(uint64_t address)
{
    for (unsigned place = 0; place < STATIONS; place++)
        if (addresses[place] == address)
            return place;
    CHECK(false, "no station has address %" PRIx64, address);
    return 0;
}

static void *exactly(size_t octets)
{
    void *buffer = malloc(octets == 0 ? 1 : octets);
    CHECK(buffer != NULL, "no memory");
    return buffer;
}

static unsigned state(unsigned which)
{
    return rtep_state(ring[which].record);
}

/* What a driver does with what start, frame and timer leave: it sends the frame, and tells its application. */
static void told_by(unsigned which, const uint8_t *out, const struct rtep_told *told)
{
    struct station *station = &ring[which];
    if (told->struck != 0) {
        station->struck[position(told->struck)]++;
        strikes++;
    }
    CHECK(told->given_up <= RTEP_MESSAGES, "%" PRIu64 " given up", told->given_up);
    for (unsigned i = 0; i < told->given_up; i++) {
        const struct rtep_message *message = &told->messages[i];
        CHECK(station->given_up_count < NOTES, "more given up than ever queued");
        CHECK(message->place < RTEP_MESSAGES, "place %" PRIu64, message->place);
        struct note *note = &station->given_up[station->given_up_count++];
        const uint8_t *payload = rtep_payload(station->store, message);
        note->other = message->to;
        note->priority = (unsigned)message->priority;
        note->channel = (unsigned)message->channel;
        note->length = (unsigned)message->length;
        note->tag = note->length > 0 ? payload[0] : 0;
        for (unsigned at = 0; at < note->length; at++)
            CHECK(payload[at] == note->tag, "octet %u of a payload given up", at);
        told_given_up++;
    }
    CHECK(rtep_given_up(station->record) == station->given_up_count, "the record's count of station %u", which);
    if (told->octets != 0) {
        CHECK(!on_wire, "station %u sends while a frame of %u is on the wire", which, wire.from);
        wire.from = which;
        wire.to = position(told->to);
        wire.octets = (size_t)told->octets;
        CHECK(wire.octets >= RTEP_PACKET_LEAST && wire.octets <= RTEP_PACKET_MOST, "%zu octets", wire.octets);
        memcpy(wire.packet, out, wire.octets);
        on_wire = true;
        frames++;
        informations += wire.packet[0] == 3;
    } else {
        CHECK(told->to == 0, "an addressee and no frame");
    }
}

static void start(unsigned which)
{
    uint8_t *out = exactly(RTEP_OUT);
    struct rtep_told *told = exactly(sizeof *told);
    uint32_t number = rtep_start(ring[which].record, RTEP_RECORD, out, RTEP_OUT, told);
    CHECK(number == RTEP_DONE, "start of %u gave %u", which, number);
    calls++;
    told_by(which, out, told);
    free(out);
    free(told);
}

/* Hands a packet over; gives the number, with its offset. */
static uint32_t hear(unsigned which, uint64_t from, uint64_t to, const uint8_t *octets, size_t len)
{
    uint8_t *packet = exactly(len), *out = exactly(RTEP_OUT);
    struct rtep_told *told = exactly(sizeof *told);
    memcpy(packet, octets, len);
    uint32_t number = rtep_frame(ring[which].record, RTEP_RECORD, ring[which].store, RTEP_STORE,
                                 from, to, packet, len, out, RTEP_OUT, told);
    calls++;
    if (number == RTEP_DONE)
        told_by(which, out, told);
    free(packet);
    free(out);
    free(told);
    return number;
}

static uint32_t timer(unsigned which)
{
    uint8_t *out = exactly(RTEP_OUT);
    struct rtep_told *told = exactly(sizeof *told);
    uint32_t number = rtep_timer(ring[which].record, RTEP_RECORD, ring[which].store, RTEP_STORE,
                                 out, RTEP_OUT, told);
    calls++;
    timers++;
    if (number == RTEP_DONE)
        told_by(which, out, told);
    free(out);
    free(told);
    return number;
}

static uint32_t queue(unsigned from, unsigned to, unsigned priority, unsigned channel, unsigned length, unsigned tag)
{
    uint8_t *payload = exactly(length);
    memset(payload, (int)tag, length);
    uint32_t number = rtep_queue(ring[from].record, RTEP_RECORD, ring[from].store, RTEP_STORE,
                                 addresses[to], priority, channel, payload, length);
    calls++;
    free(payload);
    return number;
}

/* Takes from a channel with room for so many octets. */
static uint32_t take(unsigned which, unsigned channel, unsigned room_len, struct note *note)
{
    uint8_t *room = exactly(room_len);
    struct rtep_taken taken;
    memset(room, 0xEE, room_len);
    uint32_t number = rtep_take(ring[which].record, RTEP_RECORD, ring[which].store, RTEP_STORE,
                                channel, room, room_len, &taken);
    calls++;
    unsigned length = 0;
    if (number == RTEP_DONE) {
        takes++;
        length = (unsigned)taken.length;
        *note = (struct note){ taken.from, (unsigned)taken.priority, (unsigned)taken.channel, length,
                               length > 0 ? room[0] : 0 };
        for (unsigned at = 0; at < length; at++)
            CHECK(room[at] == note->tag, "octet %u of a payload taken", at);
    }
    for (unsigned at = length; at < room_len; at++)
        CHECK(room[at] == 0xEE, "room's octet %u was written", at);
    free(room);
    return number;
}

static void expect_taken(unsigned which, unsigned from, unsigned priority, unsigned channel, unsigned length,
                         unsigned tag)
{
    struct note note = { 0, 0, 0, 0, 0 };
    uint32_t number = take(which, channel, length, &note);
    CHECK(number == RTEP_DONE, "take gave %u", number);
    CHECK(note.other == addresses[from] && note.priority == priority && note.channel == channel
              && note.length == length && note.tag == (length > 0 ? tag : 0),
          "taken: from %" PRIx64 ", priority %u, channel %u, length %u, tag %u; expected tag %u",
          note.other, note.priority, note.channel, note.length, note.tag, tag);
}

static void expect_given_up(unsigned which, unsigned place, unsigned to, unsigned priority, unsigned length, unsigned tag)
{
    CHECK(place < ring[which].given_up_count, "station %u gave up only %u", which, ring[which].given_up_count);
    const struct note *note = &ring[which].given_up[place];
    CHECK(note->other == addresses[to] && note->priority == priority && note->length == length && note->tag == tag,
          "given up by %u at place %u: priority %u, length %u, tag %u", which, place, note->priority, note->length,
          note->tag);
}

/* One turn of the wire: the frame on it is heard by every other station but those of the set `lost`; if none is on
 * it, the timer of the last sender runs. */
static void step(unsigned lost)
{
    if (!on_wire) {
        CHECK(!ring[wire.from].down, "the last sender is down");
        uint32_t number = timer(wire.from);
        CHECK(number == RTEP_DONE, "timer of %u gave %u", wire.from, number);
        return;
    }
    struct frame frame = wire;
    on_wire = false;
    for (unsigned which = 0; which < STATIONS; which++) {
        if (which == frame.from || ring[which].down || (lost >> which & 1))
            continue;
        uint32_t number = hear(which, addresses[frame.from], addresses[frame.to], frame.packet, frame.octets);
        CHECK(number == RTEP_DONE, "a frame from %u to %u: station %u gave %u", frame.from, frame.to, which, number);
        CHECK(!on_wire || wire.from == frame.to, "station %u answers for %u", wire.from, frame.to);
    }
    if (!ring[frame.to].down && !(lost >> frame.to & 1))
        CHECK(on_wire, "station %u does not answer %u", frame.to, frame.from);
}

/* Runs until an information frame is on the wire. */
static void until_information(void)
{
    for (unsigned turn = 0; turn < 100; turn++) {
        step(0);
        if (on_wire && wire.packet[0] == 3)
            return;
    }
    CHECK(false, "no information frame in 100 turns");
}

/* Runs until nobody has a message to send: a token comes back to its master with priority 0. */
static void until_quiet(void)
{
    for (unsigned turn = 0; turn < 1000; turn++) {
        step(0);
        if (on_wire && wire.packet[0] == 1 && wire.packet[1] == 0 && rtep_address(wire.packet + 4) == addresses[wire.to])
            return;
    }
    CHECK(false, "no quiet in 1,000 turns");
}

/* A call that is refused changes nothing. */
static void refused(unsigned which, uint32_t given, uint32_t expected, const uint8_t *record, const uint8_t *store)
{
    uint32_t number = RTEP_NUMBER(given);
    CHECK(number == expected, "station %u gave %u for %u", which, number, expected);
    CHECK(number == RTEP_REFUSED_FIELD || RTEP_OFFSET(given) == 0, "%u has the offset %u", number, RTEP_OFFSET(given));
    CHECK(memcmp(record, ring[which].record, RTEP_RECORD) == 0, "%u changed the record", number);
    CHECK(memcmp(store, ring[which].store, RTEP_STORE) == 0, "%u changed the store", number);
}

/* The same of a packet that is bad at an offset. */
static void bad_at(unsigned which, uint32_t given, uint32_t offset, const uint8_t *record, const uint8_t *store)
{
    refused(which, given, RTEP_REFUSED_FIELD, record, store);
    CHECK(RTEP_OFFSET(given) == offset, "station %u gave the offset %u for %u", which, RTEP_OFFSET(given), offset);
}

static void make_all(void)
{
    uint8_t *file = exactly(2 + 6 * STATIONS);
    file[0] = (uint8_t)(0x10 | (STATIONS - 1) >> 2);
    file[1] = (uint8_t)((STATIONS - 1) << 6 | RETRIES << 2);
    for (unsigned i = 0; i < STATIONS; i++)
        rtep_put_address(file + 2 + 6 * i, addresses[i]);
    for (unsigned i = 0; i < STATIONS; i++) {
        ring[i].record = exactly(RTEP_RECORD);
        ring[i].store = exactly(RTEP_STORE);
        /* Octets that nobody reads before they are written need no value; these only let them be compared. */
        memset(ring[i].store, 0xDD, RTEP_STORE);
        uint32_t number = rtep_make(ring[i].record, RTEP_RECORD, file, 2 + 6 * STATIONS, addresses[i]);
        CHECK(number == RTEP_DONE, "make of %u gave %u", i, number);
        CHECK(state(i) == RTEP_OFFLINE, "station %u is in state %u", i, state(i));
        calls++;
    }
    CHECK(rtep_make(ring[0].record, RTEP_RECORD - 1, file, 2 + 6 * STATIONS, addresses[0]) == RTEP_REFUSED_NOT_WHOLE, "35");
    CHECK(rtep_make(ring[0].record, RTEP_RECORD, file, 1, addresses[0]) == RTEP_REFUSED_FILE_LENGTH, "1");
    CHECK(rtep_make(ring[0].record, RTEP_RECORD, file, 2 + 6 * STATIONS, 1) == RTEP_REFUSED_OWN_ABSENT, "8");
    calls += 3;
    free(file);
}

static void start_all(void)
{
    CHECK(queue(1, 2, 5, 0, 10, 1) == RTEP_REFUSED_NOT_RUNNING, "queue before start");
    CHECK(timer(1) == RTEP_REFUSED_NOT_RUNNING, "timer before start");
    for (unsigned i = STATIONS; i-- > 0;) {
        start(i);
        CHECK(on_wire == (i == 0), "station %u", i);
    }
    CHECK(wire.from == 0 && wire.to == 1 && wire.octets == 46, "the first token");
    static const uint8_t head[4] = { 1, 0, 0, 0 };
    CHECK(memcmp(wire.packet, head, 4) == 0, "token, priority 0, number 0");
    CHECK(state(0) == RTEP_WAITING && state(1) == RTEP_IDLE, "after start");
    uint8_t out[RTEP_OUT];
    struct rtep_told told;
    CHECK(rtep_start(ring[0].record, RTEP_RECORD, out, RTEP_OUT, &told) == RTEP_REFUSED_STARTED, "started twice");
    CHECK(rtep_start(ring[0].record, RTEP_RECORD, out, RTEP_OUT - 1, &told) == RTEP_REFUSED_BUFFER, "9");
    CHECK(timer(1) == RTEP_DONE, "timer when Idle");
    calls += 2;
}

/* The highest priority of the whole ring goes first; of equal ones of a station the earliest accepted. */
static void priority_order(void)
{
    static const struct { unsigned from, priority, length, tag; } sent[] = {
        { 3, 255, 1492, 1 }, { 1, 200, 0, 2 }, { 2, 90, 38, 3 }, { 2, 90, 39, 4 }, { 1, 7, 100, 5 }, { 0, 1, 1, 6 },
    };
    /* Queued in another order; of the two of station 2 with equal priority, tag 3 before tag 4. */
    static const unsigned queued[] = { 5, 2, 4, 1, 0, 3 };
    const unsigned count_sent = sizeof sent / sizeof *sent;
    for (unsigned i = 0; i < count_sent; i++) {
        unsigned which = queued[i];
        CHECK(queue(sent[which].from, 4, sent[which].priority, 3, sent[which].length, sent[which].tag) == RTEP_DONE,
              "queue %u", which);
    }
    for (unsigned i = 0; i < count_sent; i++) {
        until_information();
        CHECK(wire.from == sent[i].from && wire.to == 4 && wire.packet[1] == sent[i].priority,
              "information %u: from %u with priority %u", i, wire.from, wire.packet[1]);
        CHECK(wire.octets == (sent[i].length < 38 ? 46 : 8 + sent[i].length), "%zu octets", wire.octets);
    }
    until_quiet();
    for (unsigned i = 0; i < count_sent; i++)
        expect_taken(4, sent[i].from, sent[i].priority, 3, sent[i].length, sent[i].tag);
    struct note note;
    CHECK(take(4, 3, RTEP_PLACE, &note) == RTEP_REFUSED_NO_MESSAGE, "nothing is left");
    CHECK(take(4, 8, RTEP_PLACE, &note) == RTEP_REFUSED_CHANNEL, "channel 8");

    /* Received in one order, taken in another: the best first. */
    static const unsigned priorities[] = { 10, 30, 20, 30 };
    for (unsigned i = 0; i < 4; i++) {
        CHECK(queue(i % 3, 4, priorities[i], 5, 20, 40 + i) == RTEP_DONE, "queue");
        until_quiet();
    }
    expect_taken(4, 1, 30, 5, 20, 41);
    expect_taken(4, 0, 30, 5, 20, 43);
    expect_taken(4, 2, 20, 5, 20, 42);
    expect_taken(4, 0, 10, 5, 20, 40);
}

/* Equal priorities: the first to hear the token keeps it. And the master does not look at its own list again when its
 * token comes back: what it has queued since goes in a later round. */
static void turns(void)
{
    until_quiet();
    unsigned master = wire.to, first = (master + 1) % STATIONS, second = (master + 2) % STATIONS;
    CHECK(queue(second, first, 77, 1, 3, 50) == RTEP_DONE, "queue");
    CHECK(queue(first, second, 77, 1, 4, 51) == RTEP_DONE, "queue");
    until_information();
    CHECK(wire.from == first, "station %u was granted before %u", wire.from, first);
    until_information();
    CHECK(wire.from == second, "station %u was granted", wire.from);
    until_quiet();
    expect_taken(second, first, 77, 1, 4, 51);
    expect_taken(first, second, 77, 1, 3, 50);

    master = wire.to;
    first = (master + 1) % STATIONS;
    step(0);
    CHECK(wire.from == master && wire.packet[0] == 1 && rtep_address(wire.packet + 4) == addresses[master], "a new round");
    CHECK(queue(master, first, 200, 1, 5, 52) == RTEP_DONE, "queue");
    CHECK(queue(first, master, 100, 1, 6, 53) == RTEP_DONE, "queue");
    until_information();
    CHECK(wire.from == first && wire.packet[1] == 100, "station %u was granted", wire.from);
    until_information();
    CHECK(wire.from == master && wire.packet[1] == 200, "station %u was granted", wire.from);
    until_quiet();
    expect_taken(master, first, 100, 1, 6, 53);
    expect_taken(first, master, 200, 1, 5, 52);
}

/* Frames that are no frames of this ring, or damaged on the way, change nothing. */
static void damaged_frames(void)
{
    uint8_t record[RTEP_RECORD], *store = exactly(RTEP_STORE), packet[RTEP_OUT + 1] = { 0 };
    unsigned which = wire.to, other = (wire.to + 1) % STATIONS;
    uint64_t from = addresses[wire.from], to = addresses[wire.to];
    memcpy(record, ring[which].record, RTEP_RECORD);
    memcpy(store, ring[which].store, RTEP_STORE);
    memcpy(packet, wire.packet, wire.octets);
    CHECK(on_wire && wire.octets == 46, "a short frame is on the wire");
    on_wire = false;
    refused(which, hear(which, from + 1, to, packet, 46), RTEP_REFUSED_STATIONS, record, store);
    refused(which, hear(which, to, to, packet, 46), RTEP_REFUSED_STATIONS, record, store);
    refused(which, hear(which, to, addresses[other], packet, 46), RTEP_REFUSED_STATIONS, record, store);
    refused(which, hear(which, from, to, packet, 45), RTEP_REFUSED_PACKET_SIZE, record, store);
    refused(which, hear(which, from, to, packet, 1501), RTEP_REFUSED_PACKET_SIZE, record, store);
    bad_at(which, hear(which, from, to, packet, 47), 0, record, store);
    packet[0] = 0;
    refused(which, hear(which, from, to, packet, 46), RTEP_REFUSED_IDENTIFIER, record, store);
    packet[0] = wire.packet[0];
    packet[45] = 1;
    bad_at(which, hear(which, from, to, packet, 46), 45, record, store);
    bad_at(which, hear(which, from, to, packet, 47), 45, record, store);
    packet[21] ^= 1;
    bad_at(which, hear(which, from, to, packet, 46), 16, record, store);
    on_wire = true;
    free(store);
}

/* A frame that nobody hears goes again; so does one whose acknowledgement nobody hears, and is handled once. */
static void lost_frames(void)
{
    CHECK(queue(1, 3, 50, 2, 700, 60) == RTEP_DONE, "queue");
    until_information();
    struct frame information = wire;
    for (unsigned retry = 0; retry < RETRIES; retry++) {
        step(ALL);
        CHECK(!on_wire && state(1) == RTEP_WAITING, "nobody heard it");
        step(0);
        CHECK(on_wire && wire.to == 3 && wire.octets == information.octets
                  && memcmp(wire.packet, information.packet, information.octets) == 0, "the same frame again");
    }
    step(0);
    CHECK(on_wire && wire.packet[0] == 1 && wire.from == 3 && state(1) == RTEP_WAITING, "the new master's token");
    step(0);
    CHECK(state(1) == RTEP_IDLE, "acknowledged by it");

    /* The acknowledgement is lost: the sender tries again, the receiver has already handled it. */
    CHECK(queue(1, 3, 50, 2, 800, 61) == RTEP_DONE, "queue");
    until_information();
    information = wire;
    step(0);
    struct frame token = wire;
    step(ALL);
    CHECK(!on_wire && state(1) == RTEP_WAITING && state(3) == RTEP_WAITING, "both wait");
    CHECK(timer(1) == RTEP_DONE && on_wire && wire.octets == information.octets, "the information again");
    on_wire = false;
    for (unsigned which = 0; which < STATIONS; which++)
        if (which != 1)
            CHECK(hear(which, addresses[1], addresses[3], information.packet, information.octets) == RTEP_DONE && !on_wire,
                  "station %u answers it a second time", which);
    CHECK(timer(3) == RTEP_DONE && on_wire && memcmp(wire.packet, token.packet, 46) == 0, "the token again");
    step(0);
    CHECK(state(1) == RTEP_IDLE, "acknowledged");
    step(0);
    CHECK(state(3) == RTEP_IDLE, "acknowledged too");
    CHECK(hear(3, addresses[1], addresses[3], information.packet, information.octets) == RTEP_DONE,
          "the last handled number once more, and no answer");
    expect_taken(3, 1, 50, 2, 700, 60);
    expect_taken(3, 1, 50, 2, 800, 61);
    struct note note;
    CHECK(take(3, 2, RTEP_PLACE, &note) == RTEP_REFUSED_NO_MESSAGE, "stored once");
    for (unsigned which = 0; which < STATIONS; which++)
        for (unsigned other = 0; other < STATIONS; other++)
            CHECK(ring[which].struck[other] == 0, "station %u struck %u", which, other);
    until_quiet();
}

/* The send list takes 16 messages; the receive list too, and what comes then is counted as lost. */
static void full_lists(void)
{
    uint8_t record[RTEP_RECORD], *store = exactly(RTEP_STORE);
    for (unsigned i = 0; i < RTEP_MESSAGES; i++)
        CHECK(queue(0, 1, 100, 6, 30 + i, 70 + i) == RTEP_DONE, "message %u", i);
    memcpy(record, ring[0].record, RTEP_RECORD);
    memcpy(store, ring[0].store, RTEP_STORE);
    refused(0, queue(0, 1, 100, 6, 10, 99), RTEP_REFUSED_LIST_FULL, record, store);
    refused(0, queue(0, 1, 100, 6, 1493, 99), RTEP_REFUSED_PAYLOAD, record, store);
    refused(0, queue(0, 1, 100, 8, 10, 99), RTEP_REFUSED_CHANNEL, record, store);
    refused(0, queue(0, 0, 100, 6, 10, 99), RTEP_REFUSED_DESTINATION, record, store);
    refused(0, queue(0, 1, 0, 6, 10, 99), RTEP_REFUSED_PRIORITY, record, store);
    refused(0, queue(0, 1, 256, 6, 10, 99), RTEP_REFUSED_PRIORITY, record, store);
    for (unsigned i = 0; i < 3; i++)
        CHECK(queue(2, 1, 20, 6, 5, 90 + i) == RTEP_DONE, "three more for the same station");
    until_quiet();
    CHECK(rtep_lost(ring[1].record) == 3, "%u lost", rtep_lost(ring[1].record));

    /* Too little room: the message stays. */
    memcpy(record, ring[1].record, RTEP_RECORD);
    memcpy(store, ring[1].store, RTEP_STORE);
    struct note note;
    refused(1, take(1, 6, 29, &note), RTEP_REFUSED_ROOM, record, store);
    refused(1, take(1, 6, 0, &note), RTEP_REFUSED_ROOM, record, store);
    for (unsigned i = 0; i < RTEP_MESSAGES; i++)
        expect_taken(1, 0, 100, 6, 30 + i, 70 + i);
    CHECK(take(1, 6, RTEP_PLACE, &note) == RTEP_REFUSED_NO_MESSAGE, "16 were there");
    /* Free places are used again. */
    CHECK(queue(2, 1, 20, 6, 1492, 95) == RTEP_DONE, "queue");
    until_quiet();
    expect_taken(1, 2, 20, 6, 1492, 95);
    CHECK(rtep_lost(ring[1].record) == 3, "no more lost");
    free(store);
}

static void expect_struck(unsigned gone, unsigned survivors)
{
    for (unsigned which = 0; which < STATIONS; which++)
        CHECK(ring[which].struck[gone] == (survivors >> which & 1), "station %u was told %u times of %u", which,
              ring[which].struck[gone], gone);
}

/* Station 2 falls silent while a token goes round. The station before it strikes it out, the others on hearing. */
static void dead_station(void)
{
    ring[2].down = true;
    /* The token comes to station 2 before any of these can go: station 1 is the next to hold it. */
    while (!(on_wire && wire.packet[0] == 1 && wire.to == 1))
        step(0);
    CHECK(queue(1, 2, 60, 0, 10, 101) == RTEP_DONE, "queue");
    CHECK(queue(1, 3, 61, 0, 11, 102) == RTEP_DONE, "queue");
    CHECK(queue(1, 2, 62, 1, 12, 103) == RTEP_DONE, "queue");
    CHECK(queue(0, 2, 63, 0, 1492, 104) == RTEP_DONE, "queue");
    CHECK(queue(4, 2, 1, 0, 1, 105) == RTEP_DONE, "queue");
    step(0);
    CHECK(on_wire && wire.from == 1 && wire.to == 2 && wire.packet[1] == 62, "the token to the dead station");
    struct frame token = wire;
    for (unsigned retry = 0; retry < RETRIES; retry++) {
        step(0);
        CHECK(!on_wire, "it does not answer");
        step(0);
        CHECK(on_wire && wire.to == 2 && memcmp(wire.packet, token.packet, 46) == 0, "again");
    }
    expect_struck(2, 0);
    step(0);
    step(0);
    expect_struck(2, 1u << 1);
    CHECK(on_wire && wire.from == 1 && wire.to == 3, "round it");
    CHECK(wire.packet[3] == (uint8_t)(token.packet[3] + 1), "the next number");
    CHECK(rtep_address(wire.packet + 10) == addresses[2], "it names the dead station as failing");
    CHECK(ring[1].given_up_count == 2, "%u given up", ring[1].given_up_count);
    expect_given_up(1, 0, 2, 60, 10, 101);
    expect_given_up(1, 1, 2, 62, 12, 103);
    step(0);
    expect_struck(2, 1u << 0 | 1u << 1 | 1u << 3 | 1u << 4);
    CHECK(ring[0].given_up_count == 1 && ring[4].given_up_count == 1 && ring[3].given_up_count == 0, "on hearing");
    expect_given_up(0, 0, 2, 63, 1492, 104);
    expect_given_up(4, 0, 2, 1, 1, 105);
    until_quiet();
    /* Nobody is told twice, though the token that names it went on. */
    expect_struck(2, 1u << 0 | 1u << 1 | 1u << 3 | 1u << 4);
    expect_taken(3, 1, 61, 0, 11, 102);
    CHECK(queue(0, 2, 5, 0, 1, 1) == RTEP_REFUSED_STRUCK, "queue to a struck station");
    CHECK(RTEP_NUMBER(hear(0, addresses[2], addresses[0], wire.packet, wire.octets)) == RTEP_REFUSED_STATIONS,
          "a struck sender");
}

/* Station 4 falls silent just as information goes to it: waiting messages are given up, then the one in flight. */
static void dead_receiver(void)
{
    CHECK(queue(3, 4, 150, 0, 200, 110) == RTEP_DONE, "queue");
    CHECK(queue(3, 4, 20, 0, 201, 111) == RTEP_DONE, "queue");
    CHECK(queue(3, 1, 10, 0, 202, 112) == RTEP_DONE, "queue");
    CHECK(queue(3, 4, 30, 0, 203, 113) == RTEP_DONE, "queue");
    until_information();
    CHECK(wire.from == 3 && wire.to == 4 && wire.packet[1] == 150, "the first of them");
    ring[4].down = true;
    for (unsigned turn = 0; turn <= RETRIES; turn++) {
        step(0);
        CHECK(!on_wire && ring[3].given_up_count == 0, "no answer");
        step(0);
    }
    CHECK(on_wire && wire.packet[0] == 1 && wire.from == 3 && wire.to == 0, "a round starts");
    CHECK(ring[3].given_up_count == 3, "%u given up", ring[3].given_up_count);
    expect_given_up(3, 0, 4, 20, 201, 111);
    expect_given_up(3, 1, 4, 30, 203, 113);
    expect_given_up(3, 2, 4, 150, 200, 110);
    until_quiet();
    expect_struck(4, 1u << 0 | 1u << 1 | 1u << 3);
    expect_taken(1, 3, 10, 0, 202, 112);
}

/* Station 3 is deaf for a while, is struck, and hears of it: Excluded. Its messages stay, and take still runs. */
static void excluded_station(void)
{
    CHECK(queue(0, 3, 40, 7, 300, 120) == RTEP_DONE, "queue");
    until_quiet();
    while (!(on_wire && wire.to == 3))
        step(0);
    CHECK(queue(3, 1, 2, 0, 5, 121) == RTEP_DONE, "queue");
    for (unsigned turn = 0; turn <= RETRIES; turn++) {
        step(1u << 3);
        step(1u << 3);
    }
    CHECK(on_wire && wire.to != 3, "it was struck");
    unsigned to = wire.to, from = wire.from;
    CHECK((to == 0 || to == 1) && (from == 0 || from == 1), "two are left");
    step(0);
    CHECK(state(3) == RTEP_EXCLUDED, "station 3 is in state %u", state(3));
    expect_struck(3, 1u << 0 | 1u << 1 | 1u << 3);
    CHECK(ring[3].given_up_count == 3, "waiting messages stay");
    CHECK(queue(3, 1, 2, 0, 5, 122) == RTEP_REFUSED_NOT_RUNNING && timer(3) == RTEP_REFUSED_NOT_RUNNING, "Excluded");
    CHECK(RTEP_NUMBER(hear(3, addresses[0], addresses[1], wire.packet, wire.octets)) == RTEP_REFUSED_NOT_RUNNING,
          "Excluded");
    expect_taken(3, 0, 40, 7, 300, 120);
    ring[3].down = true;
    CHECK(queue(1, 0, 33, 4, 50, 130) == RTEP_DONE, "two go on");
    until_quiet();
    expect_taken(0, 1, 33, 4, 50, 130);
}

/* Station 0 falls silent: station 1 is alone. */
static void alone(void)
{
    CHECK(queue(0, 1, 9, 0, 6, 140) == RTEP_DONE, "queue");
    until_quiet();
    while (wire.from != 1)
        step(0);
    ring[0].down = true;
    CHECK(queue(1, 0, 9, 0, 7, 141) == RTEP_DONE, "queue");
    unsigned before = ring[1].given_up_count;
    for (unsigned turn = 0; turn <= RETRIES; turn++) {
        CHECK(on_wire, "a frame goes");
        step(0);
        CHECK(!on_wire, "no answer");
        CHECK(timer(1) == RTEP_DONE, "timer");
    }
    CHECK(!on_wire && state(1) == RTEP_ALONE, "station 1 is in state %u", state(1));
    expect_struck(0, 1u << 1);
    CHECK(ring[1].given_up_count == before + 1, "what waited is given up");
    expect_given_up(1, before, 0, 9, 7, 141);
    CHECK(timer(1) == RTEP_REFUSED_NOT_RUNNING && queue(1, 0, 9, 0, 1, 1) == RTEP_REFUSED_NOT_RUNNING, "Alone");
    expect_taken(1, 0, 9, 0, 6, 140);
}

static void not_whole(void)
{
    uint8_t record[RTEP_RECORD], *store = exactly(RTEP_STORE);
    ring[1].record[RTEP_AT_STATE] = 5;
    memcpy(record, ring[1].record, RTEP_RECORD);
    memcpy(store, ring[1].store, RTEP_STORE);
    struct note note;
    refused(1, take(1, 0, RTEP_PLACE, &note), RTEP_REFUSED_NOT_WHOLE, record, store);
    refused(1, timer(1), RTEP_REFUSED_NOT_WHOLE, record, store);
    refused(1, queue(1, 0, 1, 0, 0, 0), RTEP_REFUSED_NOT_WHOLE, record, store);
    refused(1, hear(1, addresses[0], addresses[1], wire.packet, wire.octets), RTEP_REFUSED_NOT_WHOLE, record, store);
    free(store);
}

/* The archive is of this header's layout, by its number and by what it says of each size and place. */
static void layout(void)
{
    CHECK(rtep_layout() == RTEP_LAYOUT, "layout %u", rtep_layout());
    CHECK(rtep_record_size() == RTEP_RECORD, "record");
    CHECK(rtep_store_size() == RTEP_STORE && RTEP_STORE == 2 * RTEP_MESSAGES * RTEP_PLACE, "store");
    CHECK(rtep_place_size() == RTEP_PLACE, "place");
    CHECK(rtep_out_size() == RTEP_OUT && RTEP_OUT == RTEP_PACKET_MOST, "out");
    CHECK(rtep_told_size() == sizeof(struct rtep_told), "told");
    CHECK(rtep_taken_size() == sizeof(struct rtep_taken), "taken");
    CHECK(rtep_packet_size() == sizeof(struct rtep_packet), "packet");
    CHECK(rtep_ring_size() == sizeof(struct rtep_ring), "ring");
    CHECK(rtep_file_size() == RTEP_FILE, "ring file");
    CHECK(rtep_state_at() == RTEP_AT_STATE, "state");
    CHECK(rtep_lost_at() == RTEP_AT_LOST, "lost");
    CHECK(rtep_given_up_at() == RTEP_AT_GIVEN_UP, "given up");
}

/* A ring file in form 2 and back; a station made of it refuses a message to a closed channel. */
static void forms(void)
{
    static const uint8_t one[] = {0x10, 0x44, 2, 0, 0, 0, 0, 1, 2, 0, 0, 0, 0, 2};
    static const uint8_t two[] = {0x20, 0x45, 2, 0, 0, 0, 0, 1, 0xFF, 2, 0, 0, 0, 0, 2, 0xFF};
    uint8_t out[RTEP_FILE], back[RTEP_FILE], closed[sizeof two];
    uint64_t octets;
    CHECK(rtep_to_form_2(one, sizeof one, out, &octets) == 0 && octets == sizeof two && memcmp(out, two, sizeof two) == 0, "to form 2");
    CHECK(rtep_to_form_1(out, octets, back, &octets) == 0 && octets == sizeof one && memcmp(back, one, sizeof one) == 0, "and back");
    memcpy(closed, two, sizeof two);
    closed[15] = 0xDF; /* the second member does not listen on channel 2 */
    CHECK(rtep_to_form_1(closed, sizeof closed, back, &octets) == RTEP_REFUSED_FORM_1, "26");

    uint8_t *record = exactly(RTEP_RECORD), *store = exactly(RTEP_STORE), *packet = exactly(RTEP_OUT);
    struct rtep_told told;
    CHECK(rtep_make(record, RTEP_RECORD, closed, sizeof closed, 0x020000000001) == 0, "made of form 2");
    CHECK(rtep_start(record, RTEP_RECORD, packet, RTEP_OUT, &told) == 0, "started");
    CHECK(rtep_queue(record, RTEP_RECORD, store, RTEP_STORE, 0x020000000002, 1, 2, closed, 1) == RTEP_REFUSED_CLOSED, "28");
    CHECK(rtep_queue(record, RTEP_RECORD, store, RTEP_STORE, 0x020000000002, 1, 8, closed, 1) == RTEP_REFUSED_CHANNEL, "17 before 28");
    CHECK(rtep_queue(record, RTEP_RECORD, store, RTEP_STORE, 0x020000000002, 1, 3, closed, 1) == RTEP_DONE, "an open one");
    free(record);
    free(store);
    free(packet);
}

int main(void)
{
    layout();
    forms();
    make_all();
    start_all();
    priority_order();
    turns();
    damaged_frames();
    lost_frames();
    full_lists();
    dead_station();
    dead_receiver();
    excluded_station();
    alone();
    unsigned lost = rtep_lost(ring[1].record);
    not_whole();
    for (unsigned i = 0; i < STATIONS; i++) {
        free(ring[i].record);
        free(ring[i].store);
    }
    printf("C: a ring of %d: %u calls, %u frames (%u information), %u timers, %u strikes told, %u messages given up, "
           "%u lost, %u taken, all as expected\n",
           STATIONS, calls, frames, informations, timers, strikes, told_given_up, lost, takes);
    return 0;
}
