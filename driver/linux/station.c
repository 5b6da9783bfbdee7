/*
 * One station on a real wire: RT-EP over raw Ethernet on Linux, one process for each station, over rtep.h alone.
 *
 *     station [-a] [-d DELAY] INTERFACE RINGFILE ADDRESS TIMER
 *
 * TIMER is the time to wait for an acknowledgement, DELAY the time to wait before the start, both in milliseconds.
 * Standard input: one notice a line, "ADDRESS PRIORITY CHANNEL TEXT"; its end does not end the station. A notice that
 * finds the send list full waits, and those behind it. Standard output, one line for each of:
 *
 *     state NAME                                  offline, idle, waiting, alone, excluded; see print_state
 *     taken ADDRESS PRIORITY CHANNEL TEXT         a notice from ADDRESS
 *     struck ADDRESS                              a station struck out, this one included
 *     given-up ADDRESS PRIORITY CHANNEL TEXT      a notice to ADDRESS that was given up
 *
 * Standard error: what was wrong. The exit status is 0 after SIGTERM or SIGINT, 1 if the system refused something,
 * 2 for a bad argument or ring file. docs/WIRE.md says what an installation needs.
 */
#define _GNU_SOURCE
#include "rtep.h"

#include <arpa/inet.h>
#include <ctype.h>
#include <errno.h>
#include <fcntl.h>
#include <inttypes.h>
#include <linux/if_packet.h>
#include <net/if.h>
#include <poll.h>
#include <signal.h>
#include <stdarg.h>
#include <stdbool.h>
#include <stdio.h>
#include <stdlib.h>
#include <string.h>
#include <sys/socket.h>
#include <time.h>
#include <unistd.h>

#define ETHER_TYPE 0x1000
#define HEADER 14
#define LONGEST_TIME 600000 /* ms */
#define LINE 2048           /* a line of standard input at most, with its line feed */

static uint8_t record[RTEP_RECORD], store[RTEP_STORE], out[HEADER + RTEP_OUT];
static struct rtep_told told;
static uint64_t own;
static int card;            /* the socket */
static int64_t timer;       /* its length, ns */
static int64_t deadline;    /* when it runs out, if the station is Waiting */
static bool all_states;     /* print Idle and Waiting each time */
static enum rtep_state shown; /* the state printed last */

static char line[LINE];     /* standard input that was read and not yet dealt with */
static size_t line_len;
static bool line_skipped;   /* the rest of a line that is too long is yet to come */
static bool input_open = true;

static volatile sig_atomic_t stopped;

static void stop(int number)
{
    (void)number;
    stopped = 1;
}

__attribute__((noreturn, format(printf, 2, 3))) static void fail(int status, const char *format, ...)
{
    va_list arguments;
    va_start(arguments, format);
    fputs("station: ", stderr);
    vfprintf(stderr, format, arguments);
    fputc('\n', stderr);
    va_end(arguments);
    exit(status);
}

static int64_t now(void)
{
    struct timespec t;
    clock_gettime(CLOCK_MONOTONIC, &t);
    return (int64_t)t.tv_sec * 1000000000 + t.tv_nsec;
}

/* Addresses: six pairs of hexadecimal digits, parted by colons. */

static bool read_address(const char *text, uint64_t *address)
{
    *address = 0;
    for (size_t i = 0; i < 17; i++) {
        if (i % 3 == 2) {
            if (text[i] != ':') return false;
            continue;
        }
        int c = tolower((unsigned char)text[i]);
        if (!isxdigit(c)) return false;
        *address = *address << 4 | (uint64_t)(c <= '9' ? c - '0' : c - 'a' + 10);
    }
    return text[17] == '\0';
}

static void print_address(const char *word, uint64_t address)
{
    uint8_t o[6];
    rtep_put_address(o, address);
    printf("%s %02x:%02x:%02x:%02x:%02x:%02x", word, o[0], o[1], o[2], o[3], o[4], o[5]);
}

/* A whole number of 1 to 9 digits. */
static bool read_number(const char *text, size_t *number)
{
    size_t digits = strspn(text, "0123456789");
    if (digits == 0 || digits > 9 || text[digits] != '\0') return false;
    *number = strtoul(text, NULL, 10);
    return true;
}

/* What the application is told. A text's octets that do not print are shown as dots: one line stays one line. */

static void print_notice(const char *word, uint64_t address, uint64_t priority, uint64_t channel,
                         const uint8_t *text, uint64_t length)
{
    print_address(word, address);
    printf(" %" PRIu64 " %" PRIu64 " ", priority, channel);
    for (uint64_t i = 0; i < length; i++) putchar(text[i] < 32 || text[i] == 127 ? '.' : text[i]);
    putchar('\n');
}

/* Idle and Waiting follow each other with every frame; unless asked to, only the first of them is told. */
static void print_state(void)
{
    static const char *const names[] = {"offline", "idle", "waiting", "alone", "excluded"};
    enum rtep_state state = rtep_state(record);
    bool running = (state == RTEP_IDLE || state == RTEP_WAITING) && (shown == RTEP_IDLE || shown == RTEP_WAITING);
    if (state != shown && (all_states || !running)) printf("state %s\n", names[state]);
    shown = state;
}

static void take_all(void)
{
    static uint8_t room[RTEP_PLACE];
    struct rtep_taken taken;
    for (size_t channel = 0; channel < RTEP_CHANNELS; channel++)
        while (rtep_take(record, sizeof record, store, sizeof store, channel, room, sizeof room, &taken) == RTEP_DONE)
            print_notice("taken", taken.from, taken.priority, taken.channel, room, taken.length);
}

/* Does what start, frame or timer told. A frame that the card refuses is as one lost on the wire: the timer runs. */
static void act(void)
{
    if (told.octets != 0) {
        rtep_put_address(out, told.to);
        if (send(card, out, HEADER + told.octets, 0) < 0)
            fprintf(stderr, "station: frame not sent: %s\n", strerror(errno));
        deadline = now() + timer;
    }
    if (told.struck != 0) {
        print_address("struck", told.struck);
        putchar('\n');
    }
    for (size_t i = 0; i < told.given_up; i++) {
        const struct rtep_message *m = &told.messages[i];
        print_notice("given-up", m->to, m->priority, m->channel, rtep_payload(store, m), m->length);
    }
    print_state();
    take_all();
}

/* Refused frames are dropped: damaged, or not of this ring's live stations, or this station is out. Of those that are no
 * packets it is said why, and where a field, a pad octet or the length is bad. */
static void done_or_dropped(const char *call, uint32_t given)
{
    uint32_t number = RTEP_NUMBER(given);
    if (number == RTEP_DONE) act();
    else if (number == RTEP_REFUSED_BUFFER || number == RTEP_REFUSED_NOT_WHOLE) fail(1, "%s gave %" PRIu32, call, number);
    else if (number == RTEP_REFUSED_FIELD)
        fprintf(stderr, "station: %s refused (%" PRIu32 " at octet %" PRIu32 "), %s\n", call, number, RTEP_OFFSET(given),
                rtep_reason(given));
    else if (number == RTEP_REFUSED_PACKET_SIZE || number == RTEP_REFUSED_IDENTIFIER)
        fprintf(stderr, "station: %s refused (%" PRIu32 "), %s\n", call, number, rtep_reason(given));
}

/* Hears what has come, but not for ever where frames come without end: the ring waits for a station that does not
 * answer, so that what it missed is some two rounds at most. */
static void hear_all(void)
{
    static uint8_t heard[HEADER + RTEP_PACKET_MOST + 1];
    for (int i = 0; i < 4 * RTEP_MEMBERS; i++) {
        struct sockaddr_ll from;
        socklen_t from_len = sizeof from;
        ssize_t got = recvfrom(card, heard, sizeof heard, MSG_DONTWAIT, (struct sockaddr *)&from, &from_len);
        if (got < 0 && (errno == EAGAIN || errno == EWOULDBLOCK)) return;
        if (got < 0 && errno != EINTR && errno != ENETDOWN) fail(1, "cannot hear: %s", strerror(errno));
        if (got < HEADER || from.sll_pkttype == PACKET_OUTGOING) continue;
        done_or_dropped("frame", rtep_frame(record, sizeof record, store, sizeof store, rtep_address(heard + 6),
                                            rtep_address(heard), heard + HEADER, (size_t)got - HEADER, out + HEADER,
                                            RTEP_OUT, &told));
    }
}

/* Queues the notice of one line, which ends with a zero octet; false if it must wait. */
static bool queue_line(const char *text)
{
    char words[3][24];
    const char *rest = text;
    for (int i = 0; i < 3; i++) {
        size_t len = strcspn(rest, " ");
        if (len == 0 || len >= sizeof words[i] || (i < 2 && rest[len] == '\0')) {
            fprintf(stderr, "station: bad line, not ADDRESS PRIORITY CHANNEL TEXT: %.60s\n", text);
            return true;
        }
        memcpy(words[i], rest, len);
        words[i][len] = '\0';
        rest += rest[len] == ' ' ? len + 1 : len;
    }
    uint64_t to;
    size_t priority, channel;
    if (!read_address(words[0], &to) || !read_number(words[1], &priority) || !read_number(words[2], &channel)) {
        fprintf(stderr, "station: bad line, an address or a number is none: %.60s\n", text);
        return true;
    }
    uint32_t number = rtep_queue(record, sizeof record, store, sizeof store, to, priority, channel,
                                 (const uint8_t *)rest, strlen(rest));
    if (number == RTEP_REFUSED_LIST_FULL) return false;
    if (number == RTEP_REFUSED_BUFFER || number == RTEP_REFUSED_NOT_WHOLE) fail(1, "queue gave %" PRIu32, number);
    if (number != RTEP_DONE)
        fprintf(stderr, "station: notice refused (%" PRIu32 "), %s: %.60s\n", number, rtep_reason(number), text);
    return true;
}

/* Queues what stands in the buffer, line by line; false if a notice waits for room in the send list. */
static bool queue_lines(void)
{
    char *end;
    while ((end = memchr(line, '\n', line_len)) != NULL || (!input_open && line_len != 0)) {
        size_t len = end != NULL ? (size_t)(end - line) : line_len;
        line[len] = '\0'; /* room is left for it where the line feed is missing */
        if (!line_skipped && !queue_line(line)) {
            if (end != NULL) *end = '\n';
            return false;
        }
        line_skipped = false;
        line_len -= end != NULL ? len + 1 : len;
        memmove(line, line + len + 1, line_len);
    }
    if (line_len == sizeof line - 1) { /* no line feed in all of it */
        if (!line_skipped) fprintf(stderr, "station: bad line, above %d octets: %.60s\n", LINE - 2, line);
        line_skipped = true;
        line_len = 0;
    }
    return true;
}

static void read_input(void)
{
    ssize_t got = read(STDIN_FILENO, line + line_len, sizeof line - 1 - line_len);
    if (got > 0) line_len += (size_t)got;
    else if (got == 0 || (errno != EINTR && errno != EAGAIN)) input_open = false;
}

static void open_card(const char *name)
{
    unsigned index = if_nametoindex(name);
    if (index == 0 || strlen(name) >= IFNAMSIZ) fail(2, "no interface %s", name);
    card = socket(AF_PACKET, SOCK_RAW | SOCK_CLOEXEC, 0);
    if (card < 0) fail(1, "no raw socket (root or CAP_NET_RAW is needed): %s", strerror(errno));
    struct packet_mreq every = {.mr_ifindex = (int)index, .mr_type = PACKET_MR_PROMISC};
    if (setsockopt(card, SOL_PACKET, PACKET_ADD_MEMBERSHIP, &every, sizeof every) < 0)
        fail(1, "%s does not hear all frames: %s", name, strerror(errno));
    struct sockaddr_ll at = {.sll_family = AF_PACKET, .sll_protocol = htons(ETHER_TYPE), .sll_ifindex = (int)index};
    if (bind(card, (struct sockaddr *)&at, sizeof at) < 0) fail(1, "cannot bind to %s: %s", name, strerror(errno));
    rtep_put_address(out + 6, own);
    out[12] = ETHER_TYPE >> 8;
    out[13] = ETHER_TYPE & 255;
}

static void make(const char *path)
{
    uint8_t file[RTEP_FILE + 1]; /* one more, so that a longer file is seen to be one */
    int opened = open(path, O_RDONLY | O_CLOEXEC);
    if (opened < 0) fail(2, "ring file %s: %s", path, strerror(errno));
    size_t len = 0;
    ssize_t got;
    while ((got = read(opened, file + len, sizeof file - len)) > 0) len += (size_t)got;
    if (got < 0) fail(2, "ring file %s: %s", path, strerror(errno));
    close(opened);
    uint32_t number = rtep_make(record, sizeof record, file, len, own);
    if (number != RTEP_DONE) fail(2, "ring file %s is bad (%" PRIu32 "): %s", path, number, rtep_reason(number));
}

/* Waits until a frame, a line or a signal comes, or the time is over; until < 0: no end. True if a line came. */
static bool wait_for(int64_t until, bool lines, const sigset_t *open_signals)
{
    struct pollfd both[2] = {{.fd = card, .events = POLLIN},
                             {.fd = lines ? STDIN_FILENO : -1, .events = POLLIN}};
    int64_t left = until < 0 ? 0 : until - now();
    if (left < 0) left = 0;
    struct timespec t = {.tv_sec = left / 1000000000, .tv_nsec = left % 1000000000};
    if (ppoll(both, 2, until < 0 ? NULL : &t, open_signals) < 0) {
        if (errno != EINTR) fail(1, "poll: %s", strerror(errno));
        return false;
    }
    return both[1].revents != 0;
}

int main(int count, char **arguments)
{
    static char printed[BUFSIZ];
    size_t delay = 0, milliseconds;
    int option;
    if (rtep_layout() != RTEP_LAYOUT)
        fail(1, "built for layout %d, and the library has %" PRIu32, RTEP_LAYOUT, rtep_layout());
    while ((option = getopt(count, arguments, "ad:")) != -1) {
        if (option == 'a') all_states = true;
        else if (option != 'd') return 2;
        else if (!read_number(optarg, &delay) || delay > LONGEST_TIME)
            fail(2, "delay %s is not 0 to %d ms", optarg, LONGEST_TIME);
    }
    if (count - optind != 4) fail(2, "usage: station [-a] [-d DELAY] INTERFACE RINGFILE ADDRESS TIMER");
    arguments += optind;
    if (!read_address(arguments[2], &own)) fail(2, "address %s is not six pairs of hexadecimal digits", arguments[2]);
    if (!read_number(arguments[3], &milliseconds) || milliseconds == 0 || milliseconds > LONGEST_TIME)
        fail(2, "timer %s is not 1 to %d ms", arguments[3], LONGEST_TIME);
    timer = (int64_t)milliseconds * 1000000;
    make(arguments[1]);
    open_card(arguments[0]);
    setvbuf(stdout, printed, _IOLBF, sizeof printed);

    sigset_t closed_signals, open_signals;
    sigemptyset(&closed_signals);
    sigaddset(&closed_signals, SIGTERM);
    sigaddset(&closed_signals, SIGINT);
    sigprocmask(SIG_BLOCK, &closed_signals, &open_signals);
    struct sigaction action = {.sa_handler = stop};
    sigaction(SIGTERM, &action, NULL);
    sigaction(SIGINT, &action, NULL);

    shown = RTEP_OFFLINE;
    for (int64_t begin = now() + (int64_t)delay * 1000000; !stopped && now() < begin;) {
        wait_for(begin, false, &open_signals);
        hear_all(); /* and drops: not started */
    }
    done_or_dropped("start", rtep_start(record, sizeof record, out + HEADER, RTEP_OUT, &told));
    while (!stopped) {
        bool room = queue_lines();
        bool waiting = rtep_state(record) == RTEP_WAITING;
        bool lines = wait_for(waiting ? deadline : -1, input_open && room, &open_signals);
        hear_all(); /* first: an acknowledgement that came in time counts, however late this process runs */
        if (rtep_state(record) == RTEP_WAITING && now() >= deadline)
            done_or_dropped("timer",
                            rtep_timer(record, sizeof record, store, sizeof store, out + HEADER, RTEP_OUT, &told));
        if (lines) read_input();
    }
    return 0;
}
