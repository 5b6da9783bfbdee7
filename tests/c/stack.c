/*
 * Measures the stack that each call uses: it runs on a stack of its own that was painted before, and the deepest octet
 * that is no longer painted counts. What the caller itself puts there (return address, arguments past the sixth) is
 * measured with a function that does nothing, and taken off.
 */
#define _XOPEN_SOURCE 700
#include "rtep.h"

#include <stdio.h>
#include <stdlib.h>
#include <string.h>
#include <ucontext.h>

#define MEMBERS 64
#define STACK 65536

static uint8_t stack[STACK] __attribute__((aligned(4096)));
static ucontext_t home, away;

static uint8_t file[2 + 6 * MEMBERS], record[RTEP_RECORD], kept[RTEP_RECORD];
static uint8_t store[RTEP_STORE], packet[RTEP_OUT], out[RTEP_OUT], payload[RTEP_PLACE], room[RTEP_PLACE];
static size_t packet_len;
static uint64_t from, to, own;
static struct rtep_told told;
static struct rtep_taken taken;
static struct rtep_ring members;
static struct rtep_packet numbers;
static struct rtep_written written;
static volatile uint32_t number;
static uint32_t expected;

static void *(*volatile nothing)(void);
static void *do_nothing(void) { return NULL; }

typedef uint32_t frame_call(uint8_t *, size_t, uint8_t *, size_t, uint64_t, uint64_t, const uint8_t *, size_t,
                            uint8_t *, size_t, struct rtep_told *);
static uint32_t no_frame(uint8_t *a, size_t b, uint8_t *c, size_t d, uint64_t e, uint64_t f, const uint8_t *g, size_t h,
                         uint8_t *i, size_t j, struct rtep_told *k)
{
    (void)a, (void)b, (void)c, (void)d, (void)e, (void)f, (void)g, (void)h, (void)i, (void)j, (void)k;
    return 0;
}
static frame_call *volatile a_frame = rtep_frame;

static void call_nothing(void) { number = nothing() != NULL; }
static void call_frame(void)
{
    number = a_frame(record, sizeof record, store, sizeof store, from, to, packet, packet_len, out, sizeof out, &told);
}
static void call_make(void) { number = rtep_make(record, sizeof record, file, sizeof file, own); }
static void call_start(void) { number = rtep_start(record, sizeof record, out, sizeof out, &told); }
static void call_timer(void)
{
    number = rtep_timer(record, sizeof record, store, sizeof store, out, sizeof out, &told);
}
static void call_queue(void)
{
    number = rtep_queue(record, sizeof record, store, sizeof store, to, 7, 3, payload, sizeof payload);
}
static void call_take(void)
{
    number = rtep_take(record, sizeof record, store, sizeof store, 3, room, sizeof room, &taken);
}
static void call_ring(void) { number = rtep_ring(file, sizeof file, &members); }
static void call_read(void) { number = rtep_read(members.addresses, MEMBERS, packet, packet_len, &numbers); }
static void call_write(void)
{
    number = rtep_write(members.addresses, MEMBERS, &numbers, payload, numbers.length, out, sizeof out, &written);
}

static size_t depth(void (*call)(void), uint8_t paint)
{
    memset(stack, paint, sizeof stack);
    getcontext(&away);
    away.uc_stack.ss_sp = stack;
    away.uc_stack.ss_size = sizeof stack;
    away.uc_link = &home;
    makecontext(&away, call, 0);
    swapcontext(&home, &away);
    size_t at = 0;
    while (at < sizeof stack && stack[at] == paint)
        at++;
    return sizeof stack - at;
}

/* The record before each call is the one in `kept`. */
static size_t measure(void (*call)(void), size_t caller)
{
    size_t most = 0;
    for (unsigned turn = 0; turn < 2; turn++) {
        memcpy(record, kept, sizeof record);
        size_t used = depth(call, turn == 0 ? 0x5A : 0xA5);
        if (RTEP_NUMBER(number) != expected) {
            fprintf(stderr, "stack: %u, not %u\n", RTEP_NUMBER(number), expected);
            exit(1);
        }
        most = used > most ? used : most;
    }
    return most - caller;
}

static uint64_t address(unsigned position) { return 0x020000000000 + 3 * (uint64_t)position + 1; }

static void put(uint8_t *octets, uint64_t value, unsigned count)
{
    for (unsigned i = 0; i < count; i++)
        octets[i] = (uint8_t)(value >> 8 * (count - 1 - i));
}

static void short_packet(uint8_t identifier, uint8_t priority, unsigned frame_number, unsigned master, unsigned failing,
                         unsigned named)
{
    memset(packet, 0, packet_len = RTEP_PACKET_LEAST);
    packet[0] = identifier;
    packet[1] = priority;
    put(packet + 2, frame_number, 2);
    put(packet + 4, address(master), 6);
    put(packet + 10, failing < MEMBERS ? address(failing) : 0, 6);
    put(packet + 16, address(named), 6);
}

static void information(unsigned frame_number)
{
    memset(packet, 1, packet_len = sizeof packet);
    packet[0] = 3;
    packet[1] = 9;
    put(packet + 2, frame_number, 2);
    put(packet + 4, 3, 2);
    put(packet + 6, RTEP_PLACE, 2);
}

static void must(uint32_t given)
{
    if (given != RTEP_DONE) {
        fprintf(stderr, "stack: a preparation gave %u\n", given);
        exit(1);
    }
}

/* The station at position 1, started, with 15 messages in each list: from station 2, and to stations 2 and 3. */
static void prepare(void)
{
    must(rtep_make(record, sizeof record, file, sizeof file, address(1)));
    must(rtep_start(record, sizeof record, out, sizeof out, &told));
    for (unsigned i = 0; i < RTEP_MESSAGES - 1; i++) {
        /* A message comes, and the token that the station answers with is acknowledged. */
        information(3 * i);
        must(rtep_frame(record, sizeof record, store, sizeof store, address(2), address(1), packet, packet_len,
                        out, sizeof out, &told));
        short_packet(1, 0, 3 * i + 2, 5, MEMBERS, 5);
        must(rtep_frame(record, sizeof record, store, sizeof store, address(2), address(5), packet, packet_len,
                        out, sizeof out, &told));
    }
    for (unsigned i = 0; i < RTEP_MESSAGES - 1; i++)
        must(rtep_queue(record, sizeof record, store, sizeof store, address(2 + i % 2), 7, 3, payload, sizeof payload));
    if (rtep_state(record) != RTEP_IDLE) {
        fprintf(stderr, "stack: the station is not Idle\n");
        exit(1);
    }
    memcpy(kept, record, sizeof kept);
}

static void heard(void)
{
    must(rtep_frame(record, sizeof record, store, sizeof store, from, to, packet, packet_len, out, sizeof out, &told));
    memcpy(kept, record, sizeof kept);
}

static void row(const char *call, const char *what, size_t octets, size_t *most)
{
    printf("  %-6s %-44s %6zu\n", call, what, octets);
    *most = octets > *most ? octets : *most;
}

int main(void)
{
    size_t most = 0;
    put(file, 1u << 12 | (MEMBERS - 1) << 6 | 1 << 2, 2);
    for (unsigned i = 0; i < MEMBERS; i++)
        put(file + 2 + 6 * i, address(i), 6);
    memset(payload, 1, sizeof payload);
    nothing = do_nothing;
    size_t plain = depth(call_nothing, 0x5A);
    a_frame = no_frame;
    size_t many = depth(call_frame, 0x5A);
    a_frame = rtep_frame;

    printf("stack of each call in octets, below what its caller puts there; %d members, 15 messages in each list\n", MEMBERS);
    own = address(MEMBERS - 1);
    row("make", "", measure(call_make, plain), &most);
    must(rtep_make(kept, sizeof kept, file, sizeof file, address(0)));
    row("start", "at position 0", measure(call_start, plain), &most);

    prepare();
    from = address(0);
    to = address(1);
    short_packet(1, 3, 1000, 0, MEMBERS, 0);
    row("frame", "a token to pass on", measure(call_frame, many), &most);
    short_packet(1, 3, 1000, 1, MEMBERS, 0);
    row("frame", "a token back: grants", measure(call_frame, many), &most);
    short_packet(1, 3, 1000, 0, 2, 2);
    row("frame", "a failing station struck, 8 given up", measure(call_frame, many), &most);
    short_packet(1, 3, 1000, 0, 1, 0);
    row("frame", "itself struck", measure(call_frame, many), &most);
    information(1000);
    row("frame", "information of 1,492 stored", measure(call_frame, many), &most);
    to = address(5);
    row("frame", "heard by a bystander", measure(call_frame, many), &most);
    to = address(1);
    short_packet(2, 3, 1000, 0, MEMBERS, 1);
    row("frame", "a transmit token: information of 1,492 sent", measure(call_frame, many), &most);
    packet[45] = 1;
    expected = RTEP_REFUSED_FIELD;
    row("frame", "12", measure(call_frame, many), &most);
    from = 1;
    expected = RTEP_REFUSED_STATIONS;
    row("frame", "13", measure(call_frame, many), &most);
    expected = RTEP_DONE;

    to = address(2);
    row("queue", "1,492 octets", measure(call_queue, plain), &most);
    row("take", "1,492 octets", measure(call_take, plain), &most);

    from = address(0);
    to = address(1);
    short_packet(1, 3, 1000, 0, MEMBERS, 0);
    heard();
    row("timer", "the same token again", measure(call_timer, plain), &most);
    prepare();
    short_packet(2, 3, 1000, 0, MEMBERS, 1);
    heard();
    row("timer", "the same information of 1,492 again", measure(call_timer, plain), &most);
    memcpy(kept, record, sizeof kept);
    row("timer", "the last one: struck, 8 given up", measure(call_timer, plain), &most);

    row("ring", "", measure(call_ring, plain), &most);
    short_packet(1, 3, 1000, MEMBERS - 1, 2, MEMBERS - 2);
    row("read", "a token", measure(call_read, plain), &most);
    row("write", "a token", measure(call_write, plain), &most);
    information(1000);
    row("read", "information of 1,492", measure(call_read, plain), &most);
    row("write", "information of 1,492", measure(call_write, plain), &most);
    printf("deepest: %zu octets\n", most);
    return 0;
}
