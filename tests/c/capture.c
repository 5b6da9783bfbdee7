/*
 * Writes frames as a capture file, and for each frame a line with what the codec reads: the number, and where that is 0
 * the packet's eight numbers, where it is 12 the offset.
 *
 *     capture FILE                 a ring of three: the rule book's ten frames, a station struck out, then bad packets
 *     capture FILE COUNT SEED      as many packets, most of them bad in one or two octets or in their length
 */
#include "rtep.h"

#include <inttypes.h>
#include <stdbool.h>
#include <stdio.h>
#include <stdlib.h>
#include <string.h>

#define STATIONS 3
#define RETRIES 1
#define LONGEST 1600 /* octets of a bad packet at most */

#define CHECK(what)                                                     \
    do {                                                                \
        if (!(what)) {                                                  \
            fprintf(stderr, "%s:%d: %s\n", __FILE__, __LINE__, #what);  \
            exit(1);                                                    \
        }                                                               \
    } while (0)

static const uint64_t addresses[STATIONS] = {0x020000000001, 0x020000000002, 0x020000000003};
static FILE *capture;
static unsigned frames;

static void put(uint64_t number, unsigned octets, bool lowest_first)
{
    for (unsigned i = 0; i < octets; i++)
        CHECK(fputc((int)(number >> 8 * (lowest_first ? i : octets - 1 - i) & 0xFF), capture) != EOF);
}

static void begin(const char *name)
{
    capture = fopen(name, "wb");
    CHECK(capture != NULL);
    put(0xA1B2C3D4, 4, true); /* times in microseconds */
    put(2, 2, true);
    put(4, 2, true);
    put(0, 8, true);
    put(65535, 4, true);
    put(1, 4, true); /* Ethernet */
}

/* One frame, a millisecond after the one before, and the line for it. */
static void frame(uint64_t from, uint64_t to, const uint8_t *packet, size_t octets)
{
    struct rtep_packet p;
    uint32_t given = rtep_read(addresses, STATIONS, packet, octets, &p);

    printf("%" PRIu32, RTEP_NUMBER(given));
    if (RTEP_NUMBER(given) == RTEP_REFUSED_FIELD)
        printf(" %" PRIu32, RTEP_OFFSET(given));
    else
        CHECK(RTEP_OFFSET(given) == 0);
    if (given == RTEP_DONE)
        printf(" %" PRIu64 " %" PRIu64 " %" PRIu64 " %012" PRIx64 " %012" PRIx64 " %012" PRIx64 " %" PRIu64 " %" PRIu64,
               p.identifier, p.priority, p.number, p.master, p.failing, p.named, p.channel, p.length);
    printf("\n");

    put(frames / 1000, 4, true);
    put(frames % 1000 * 1000, 4, true);
    put(14 + octets, 4, true);
    put(14 + octets, 4, true);
    put(to, 6, false);
    put(from, 6, false);
    put(0x1000, 2, false);
    CHECK(fwrite(packet, 1, octets, capture) == octets);
    frames++;
}

/* ---- A ring of three. ---- */

static uint8_t records[STATIONS][RTEP_RECORD], stores[STATIONS][RTEP_STORE];
static uint8_t wire[RTEP_OUT];
static size_t wire_octets;
static unsigned wire_from, wire_to;
static unsigned down = STATIONS; /* the station that hears nothing, if any */

static unsigned position(uint64_t address)
{
    unsigned i = 0;
    while (i < STATIONS && addresses[i] != address)
        i++;
    CHECK(i < STATIONS);
    return i;
}

static void sent(unsigned from, const uint8_t *out, const struct rtep_told *told)
{
    if (told->octets == 0)
        return;
    wire_octets = told->octets;
    wire_from = from;
    wire_to = position(told->to);
    memcpy(wire, out, wire_octets);
    frame(addresses[from], told->to, wire, wire_octets);
}

static void step(void)
{
    uint8_t packet[RTEP_OUT], out[RTEP_OUT];
    struct rtep_told told;
    size_t octets = wire_octets;
    unsigned from = wire_from, to = wire_to;

    memcpy(packet, wire, octets);
    for (unsigned i = 0; i < STATIONS; i++) {
        if (i == from || i == down)
            continue;
        CHECK(rtep_frame(records[i], RTEP_RECORD, stores[i], RTEP_STORE, addresses[from], addresses[to], packet, octets,
                         out, sizeof out, &told) == RTEP_DONE);
        sent(i, out, &told);
    }
}

static void timer(unsigned i)
{
    uint8_t out[RTEP_OUT];
    struct rtep_told told;
    CHECK(rtep_timer(records[i], RTEP_RECORD, stores[i], RTEP_STORE, out, sizeof out, &told) == RTEP_DONE);
    sent(i, out, &told);
}

static void queue(unsigned from, unsigned to, size_t priority, size_t channel, const char *words, size_t octets)
{
    uint8_t payload[RTEP_PLACE];
    for (size_t i = 0; i < octets; i++)
        payload[i] = (uint8_t)words[i % strlen(words)];
    CHECK(rtep_queue(records[from], RTEP_RECORD, stores[from], RTEP_STORE, addresses[to], priority, channel, payload,
                     octets) == RTEP_DONE);
}

static void ring(void)
{
    uint8_t file[2 + 6 * STATIONS] = {0x10 | (STATIONS - 1) >> 2, ((STATIONS - 1) & 3) << 6 | RETRIES << 2};
    uint8_t out[RTEP_OUT];
    struct rtep_told told;

    for (unsigned i = 0; i < STATIONS; i++)
        rtep_put_address(file + 2 + 6 * i, addresses[i]);
    for (unsigned i = STATIONS; i-- > 0;) {
        CHECK(rtep_make(records[i], RTEP_RECORD, file, sizeof file, addresses[i]) == RTEP_DONE);
        CHECK(rtep_start(records[i], RTEP_RECORD, out, sizeof out, &told) == RTEP_DONE);
        sent(i, out, &told);
    }
    queue(1, 2, 5, 0, "notice ", 100);
    queue(0, 1, 9, 0, "-", 0);
    for (unsigned i = 0; i < 9; i++)
        step();

    /* Station 1 hears the information of frame 9 and starts a round, but station 2 hears nothing more. */
    queue(0, 1, 255, 7, "short", 5);
    down = 2;
    step();
    step();
    timer(1);
    step();
    timer(1); /* strikes station 2, and the token that goes on names it */
    for (unsigned i = 0; i < 4; i++)
        step();
}

/* ---- Packets by their numbers. ---- */

static size_t written(uint8_t out[LONGEST], const struct rtep_packet *packet)
{
    uint8_t information[RTEP_PLACE];
    struct rtep_written told;
    size_t octets = packet->length;

    for (size_t i = 0; i < octets; i++)
        information[i] = (uint8_t)(i * 7 + 1);
    memset(out, 0, LONGEST);
    CHECK(rtep_write(addresses, STATIONS, packet, information, octets, out, LONGEST, &told) == RTEP_DONE);
    return told.octets;
}

static void bad_packets(void)
{
    const struct rtep_packet bases[] = {
        {1, 4, 500, addresses[0], 0, addresses[1], 0, 0}, {2, 4, 501, addresses[0], 0, addresses[1], 0, 0},
        {3, 4, 502, 0, 0, 0, 3, 10}, {3, 4, 503, 0, 0, 0, 3, 50}, {3, 4, 504, 0, 0, 0, 3, 1492},
    };
    static const struct {
        unsigned base;      /* which of the five */
        size_t octets;      /* as many octets instead; 0: as many as it has */
        size_t at;          /* where an octet is replaced */
        unsigned octet, number, offset;
    } cases[] = {
        {0, 45, 0, 1, 10, 0},  {4, 1501, 0, 3, 10, 0}, {0, 0, 0, 0, 11, 0},   {0, 0, 0, 4, 11, 0},  {1, 0, 1, 0, 12, 1},
        {2, 0, 1, 0, 12, 1},   {0, 0, 9, 4, 12, 4},    {0, 0, 15, 9, 12, 10}, {0, 0, 21, 0, 12, 16}, {0, 0, 4, 3, 12, 4},
        {1, 0, 15, 2, 12, 10}, {0, 0, 45, 1, 12, 45},  {0, 47, 0, 1, 12, 0},  {2, 0, 5, 8, 12, 4},  {2, 0, 4, 1, 12, 4},
        {2, 0, 45, 1, 12, 45}, {2, 0, 18, 1, 12, 18},  {2, 47, 0, 3, 12, 6},  {3, 57, 0, 3, 12, 6}, {3, 59, 0, 3, 12, 6},
        {3, 0, 6, 6, 12, 6},   {2, 0, 7, 39, 12, 6},   {0, 0, 10, 2, 12, 10},
    };
    uint8_t packet[LONGEST];
    struct rtep_packet told;

    frame(addresses[0], addresses[1], packet, written(packet, &bases[4]));
    for (size_t i = 0; i < sizeof cases / sizeof *cases; i++) {
        size_t octets = written(packet, &bases[cases[i].base]);
        if (cases[i].octets != 0)
            octets = cases[i].octets;
        packet[cases[i].at] = (uint8_t)cases[i].octet;
        uint32_t given = rtep_read(addresses, STATIONS, packet, octets, &told);
        CHECK(RTEP_NUMBER(given) == cases[i].number && RTEP_OFFSET(given) == cases[i].offset);
        frame(addresses[0], addresses[1], packet, octets);
    }
}

static uint64_t state;
static size_t below(size_t bound)
{
    state ^= state << 13;
    state ^= state >> 7;
    state ^= state << 17;
    return state % bound;
}

static void random_packet(void)
{
    static const size_t lengths[] = {0, 1, 37, 38, 39, 40, 255, 256, 1491, 1492};
    struct rtep_packet p = {.identifier = 1 + below(3), .priority = 1 + below(255), .number = below(65536)};
    uint8_t packet[LONGEST];

    if (p.identifier == 3) {
        p.channel = below(8);
        p.length = below(2) ? lengths[below(sizeof lengths / sizeof *lengths)] : below(60);
    } else {
        p.master = addresses[below(STATIONS)];
        p.failing = p.identifier == 1 && below(2) ? addresses[below(STATIONS)] : 0;
        p.named = addresses[below(STATIONS)];
    }
    size_t octets = written(packet, &p);
    for (size_t changes = below(3); changes > 0; changes--)
        packet[below(below(2) ? 24 : octets)] = (uint8_t)(below(2) ? below(8) : below(256));
    switch (below(8)) {
    case 0: octets += below(3); break;
    case 1: octets -= below(3); break;
    case 2: octets = 8 + below(LONGEST - 8); break;
    }
    frame(addresses[below(STATIONS)], addresses[below(STATIONS)], packet, octets);
}

int main(int count, char **words)
{
    CHECK(count == 2 || count == 4);
    begin(words[1]);
    if (count == 2) {
        ring();
        bad_packets();
    } else {
        state = strtoull(words[3], NULL, 10) * 2 + 1;
        for (unsigned long left = strtoul(words[2], NULL, 10); left > 0; left--)
            random_packet();
    }
    CHECK(fclose(capture) == 0);
    return 0;
}
