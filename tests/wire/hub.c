/*
 * A hub for the tests: hands each frame of type 0x1000 that comes in on one link out on all others, loses some by
 * rule, and writes every frame that came in, lost or not, to a pcap file. With one link it only writes.
 *
 *     hub PCAP PAUSE RULE LINK=ADDRESS...
 *
 * PAUSE: microseconds between a frame coming in and going out, for a wire slow enough to share a machine. RULE:
 *     none
 *     addressee:K        every Kth frame is lost for its addressee only
 *     all:K              every Kth frame is lost for all
 *     each:K:SEED        every station misses every frame with a chance of one in K
 *     waiting:ADDRESS    once, after 100 frames: the frame that answers one of ADDRESS and goes to a third station is
 *                        lost for ADDRESS alone; the hub then prints "lost"
 *     grantor:ADDRESS    once: the four frames behind a transmit token of ADDRESS are lost for ADDRESS alone
 *
 * After SIGTERM it prints how many frames came in and how many were lost; with "each", how many times one was missed.
 */
#define _GNU_SOURCE
#include <arpa/inet.h>
#include <errno.h>
#include <inttypes.h>
#include <linux/if_packet.h>
#include <net/if.h>
#include <poll.h>
#include <signal.h>
#include <stdbool.h>
#include <stdint.h>
#include <stdio.h>
#include <stdlib.h>
#include <string.h>
#include <sys/socket.h>
#include <time.h>
#include <unistd.h>

#define LINKS 8
#define FRAME 1518

static uint8_t addresses[LINKS][6];
static struct pollfd polls[LINKS];
static int count;
static volatile sig_atomic_t stopped;

static void stop(int number) { (void)number, stopped = 1; }

static void fail(const char *what)
{
    fprintf(stderr, "hub: %s: %s\n", what, strerror(errno));
    exit(1);
}

static bool read_address(const char *text, uint8_t address[6])
{
    char end;
    return sscanf(text, "%2hhx:%2hhx:%2hhx:%2hhx:%2hhx:%2hhx%c", address, address + 1, address + 2, address + 3,
                  address + 4, address + 5, &end) == 6;
}

static void open_link(char *argument)
{
    char *address = strchr(argument, '=');
    if (count == LINKS || address == NULL || !read_address(address + 1, addresses[count])) fail("bad link");
    *address = '\0';
    int index = (int)if_nametoindex(argument);
    int card = socket(AF_PACKET, SOCK_RAW, 0);
    struct packet_mreq every = {.mr_ifindex = index, .mr_type = PACKET_MR_PROMISC};
    struct sockaddr_ll at = {.sll_family = AF_PACKET, .sll_protocol = htons(0x1000), .sll_ifindex = index};
    if (index == 0 || card < 0 || setsockopt(card, SOL_PACKET, PACKET_ADD_MEMBERSHIP, &every, sizeof every) < 0 ||
        bind(card, (struct sockaddr *)&at, sizeof at) < 0)
        fail(argument);
    polls[count] = (struct pollfd){.fd = card, .events = POLLIN};
    count++;
}

/* One of a series of numbers that the seed decides (splitmix64). */
static uint64_t draw(uint64_t *state)
{
    uint64_t z = *state += 0x9E3779B97F4A7C15;
    z = (z ^ z >> 30) * 0xBF58476D1CE4E5B9;
    z = (z ^ z >> 27) * 0x94D049BB133111EB;
    return z ^ z >> 31;
}

static void write_frame(FILE *pcap, const uint8_t *frame, size_t len)
{
    struct timespec t;
    clock_gettime(CLOCK_REALTIME, &t);
    uint32_t head[4] = {(uint32_t)t.tv_sec, (uint32_t)(t.tv_nsec / 1000), (uint32_t)len, (uint32_t)len};
    if (fwrite(head, sizeof head, 1, pcap) != 1 || fwrite(frame, len, 1, pcap) != 1) fail("pcap");
}

int main(int argc, char **argv)
{
    if (argc < 5) return 2;
    FILE *pcap = fopen(argv[1], "wb");
    if (pcap == NULL) fail(argv[1]);
    const uint32_t heading[6] = {0xA1B2C3D4, 0x00040002, 0, 0, 65535, 1};
    fwrite(heading, sizeof heading, 1, pcap);
    struct timespec pause = {.tv_nsec = atol(argv[2]) * 1000};

    unsigned long to_addressee = 0, to_all = 0, to_each = 0;
    uint64_t series = 0;
    uint8_t one[6]; /* the ADDRESS */
    bool to_waiting = false, to_grantor = false;
    if (sscanf(argv[3], "addressee:%lu", &to_addressee) != 1 && sscanf(argv[3], "all:%lu", &to_all) != 1 &&
        sscanf(argv[3], "each:%lu:%" SCNu64, &to_each, &series) != 2 &&
        !(to_waiting = strncmp(argv[3], "waiting:", 8) == 0 && read_address(argv[3] + 8, one)) &&
        !(to_grantor = strncmp(argv[3], "grantor:", 8) == 0 && read_address(argv[3] + 8, one)) &&
        strcmp(argv[3], "none") != 0)
        return 2;
    for (int i = 4; i < argc; i++) open_link(argv[i]);

    struct sigaction action = {.sa_handler = stop};
    sigaction(SIGTERM, &action, NULL);
    puts("ready");
    fflush(stdout);

    unsigned long frames = 0, lost = 0, behind = 0; /* behind: so many more are lost for the grantor */
    uint8_t frame[FRAME], last[18] = {0};
    while (!stopped) {
        if (poll(polls, (nfds_t)count, 100) < 0 && errno != EINTR) fail("poll");
        for (int i = 0; i < count; i++) {
            struct sockaddr_ll from;
            socklen_t from_len = sizeof from;
            ssize_t got = recvfrom(polls[i].fd, frame, sizeof frame, MSG_DONTWAIT, (struct sockaddr *)&from, &from_len);
            if (got < 18 || from.sll_pkttype == PACKET_OUTGOING) continue;
            frames++;
            write_frame(pcap, frame, (size_t)got);
            if (count == 1) continue;
            if (pause.tv_nsec != 0) nanosleep(&pause, NULL);

            /* the frame before was from the waiting station, and this one, to a third, is its addressee's answer */
            uint16_t number = (uint16_t)(frame[16] << 8 | frame[17]), before = (uint16_t)(last[16] << 8 | last[17]);
            bool answers = to_waiting && frames > 100 && memcmp(last + 6, one, 6) == 0 &&
                           memcmp(last, frame + 6, 6) == 0 && memcmp(frame, one, 6) != 0 &&
                           number == (uint16_t)(before + 1);
            bool none = to_all != 0 && frames % to_all == 0;
            bool not_addressee = to_addressee != 0 && frames % to_addressee == 0;
            if (answers) {
                to_waiting = false;
                puts("lost");
                fflush(stdout);
            }
            bool not_one = answers || behind != 0;
            if (behind != 0) behind--;
            if (to_grantor && frame[14] == 2 && memcmp(frame + 6, one, 6) == 0) {
                to_grantor = false;
                behind = 4;
            }
            if (not_one || none || not_addressee) lost++;
            memcpy(last, frame, sizeof last);
            for (int j = 0; j < count && !none; j++) {
                if (j == i || (not_addressee && memcmp(addresses[j], frame, 6) == 0) ||
                    (not_one && memcmp(addresses[j], one, 6) == 0))
                    continue;
                if (to_each != 0 && draw(&series) % to_each == 0) {
                    lost++;
                    continue;
                }
                if (send(polls[j].fd, frame, (size_t)got, 0) < 0 && errno != ENOBUFS)
                    fail("send");
            }
        }
    }
    if (fclose(pcap) != 0) fail("pcap");
    printf("frames %lu lost %lu\n", frames, lost);
    return 0;
}
