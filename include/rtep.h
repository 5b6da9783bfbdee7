/*
 * RT-EP: one station, its packets and its ring file, for a driver in C or C++. Link with librtep.a.
 *
 * Every call takes any input, ends, and returns a number of docs/RULES.md, beside which rtep_read and rtep_frame give an
 * offset (RTEP_NUMBER, RTEP_OFFSET): 0 is done, and any other number changes and sends nothing, in none of the buffers.
 * The memory is the caller's duty: each pointer leads to as many elements as its length or its type says and is not
 * null, even where the length is 0; buffers that are lent to one call do not overlap. A call keeps no pointer and
 * nothing outside its buffers.
 *
 * Addresses are 48-bit numbers in 64 bits: the first octet on the wire is the highest. docs/DRIVER.md tells which
 * call to make when, and the layout of record and store.
 */
#ifndef RTEP_H
#define RTEP_H

#include <assert.h>
#include <stddef.h>
#include <stdint.h>

#ifdef __cplusplus
extern "C" {
#endif

/* The layout that this header describes. It is another number where a record, a store, a struct below or what a call
 * takes or gives back is another; so a driver asks first of all whether rtep_layout() gives it. */
#define RTEP_LAYOUT 3

/* Sizes in octets. */
#define RTEP_RECORD 735     /* a station record, exactly */
#define RTEP_STORE 47744    /* a payload store, exactly: 16 send places, then 16 receive places */
#define RTEP_PLACE 1492     /* a place of the store; a payload has at most as many */
#define RTEP_OUT 1500       /* the fewest of an out buffer */
#define RTEP_FILE 450       /* the longest ring file: form 2, with 64 members */
#define RTEP_PACKET_LEAST 46
#define RTEP_PACKET_MOST 1500

/* Counts. */
#define RTEP_MEMBERS 64     /* members of a ring at most; at least 2 */
#define RTEP_MESSAGES 16    /* messages of a send list, and of a receive list, at most */
#define RTEP_CHANNELS 8     /* channels are 0 to 7 */
#define RTEP_PRIORITIES 255 /* priorities of messages are 1 to 255; 255 is the highest */

/* A message that was given up. */
struct rtep_message {
    uint64_t to;       /* its destination */
    uint64_t priority;
    uint64_t channel;
    uint64_t length;
    uint64_t place;    /* where its payload still lies, see rtep_payload */
};

/* What start, frame and timer tell. The messages behind the last one told stay as they were. */
struct rtep_told {
    uint64_t octets;   /* octets of the packet at the start of the out buffer; 0: no frame to send */
    uint64_t to;       /* its addressee; 0 if no frame */
    uint64_t struck;   /* the station newly struck, this one included; 0: none */
    uint64_t given_up; /* how many messages were given up, 0 to 16 */
    struct rtep_message messages[RTEP_MESSAGES]; /* these, in order */
};

/* What take tells. */
struct rtep_taken {
    uint64_t from;     /* the sender */
    uint64_t priority;
    uint64_t channel;
    uint64_t length;
};

/* A packet; 0 where its kind has no such number. */
struct rtep_packet {
    uint64_t identifier; /* 1 token, 2 transmit token, 3 information */
    uint64_t priority;
    uint64_t number;
    uint64_t master;     /* of a token or a transmit token */
    uint64_t failing;    /* of a token; 0: none */
    uint64_t named;      /* of a token or a transmit token */
    uint64_t channel;    /* of information */
    uint64_t length;     /* of information */
};

/* What writing a packet tells. */
struct rtep_written {
    uint64_t octets;  /* of the packet at the start of the out buffer */
    uint64_t on_wire; /* octets on the wire */
};

/* A ring. */
struct rtep_ring {
    uint64_t members;                  /* N */
    uint64_t retry_limit;              /* R */
    uint64_t addresses[RTEP_MEMBERS];  /* N of them in ring order; those behind stay as they were */
};

static_assert(sizeof(struct rtep_message) == 5 * 8, "a message told is 5 numbers");
static_assert(sizeof(struct rtep_told) == (4 + 16 * 5) * 8, "start, frame and timer tell 84 numbers");
static_assert(offsetof(struct rtep_told, messages) == 4 * 8, "the messages come behind 4 numbers");
static_assert(sizeof(struct rtep_taken) == 4 * 8, "take tells 4 numbers");
static_assert(sizeof(struct rtep_packet) == 8 * 8, "a packet is 8 numbers");
static_assert(sizeof(struct rtep_written) == 2 * 8, "writing tells 2 numbers");
static_assert(sizeof(struct rtep_ring) == (2 + 64) * 8, "a ring is 66 numbers");
static_assert(offsetof(struct rtep_ring, addresses) == 2 * 8, "the addresses come behind N and R");

enum rtep_state {
    RTEP_OFFLINE = 0,  /* made and not started */
    RTEP_IDLE = 1,
    RTEP_WAITING = 2,  /* for the acknowledgement of the frame that it sent last */
    RTEP_ALONE = 3,    /* nobody else is left */
    RTEP_EXCLUDED = 4  /* struck out by the others */
};

/* The numbers given back: done, or refused and why. rtep_reason has a text for each. */
enum rtep_number {
    RTEP_DONE = 0,
    RTEP_REFUSED_FILE_LENGTH = 1,       /* ring file: under 2 octets, or not 2 + 6 N in form 1, 2 + 7 N in form 2 */
    RTEP_REFUSED_FILE_FORM = 2,         /* ring file: form number neither 1 nor 2 */
    RTEP_REFUSED_FILE_ZERO_BITS = 3,    /* ring file of form 1: the 2 zero bits are not zero */
    RTEP_REFUSED_FILE_ONE_MEMBER = 4,   /* ring file: N - 1 = 0 */
    RTEP_REFUSED_FILE_NO_RETRY = 5,     /* ring file: R = 0 */
    RTEP_REFUSED_FILE_BAD_ADDRESS = 6,  /* ring file: an address that is zero, or with the lowest bit of its first octet 1 */
    RTEP_REFUSED_FILE_SEEN_EARLIER = 7, /* ring file: an address seen earlier */
    RTEP_REFUSED_OWN_ABSENT = 8,        /* make: own address not in the ring file */
    RTEP_REFUSED_BUFFER = 9,            /* store not RTEP_STORE octets, or out buffer under RTEP_OUT */
    RTEP_REFUSED_PACKET_SIZE = 10,      /* packet under 46 or over 1,500 octets */
    RTEP_REFUSED_IDENTIFIER = 11,       /* identifier not 1 to 3 */
    RTEP_REFUSED_FIELD = 12,            /* a field out of range or not a member, a pad octet not zero, or a length its
                                           fields do not call for */
    RTEP_REFUSED_STATIONS = 13,         /* sender or addressee not a member, both the same, sender not live or this station */
    RTEP_REFUSED_PRIORITY = 14,         /* priority 0 or above 255 */
    RTEP_REFUSED_DESTINATION = 15,      /* destination not a member, or this station */
    RTEP_REFUSED_STRUCK = 16,           /* destination struck out */
    RTEP_REFUSED_CHANNEL = 17,          /* channel above 7 */
    RTEP_REFUSED_PAYLOAD = 18,          /* payload above 1,492 octets */
    RTEP_REFUSED_LIST_FULL = 19,        /* 16 messages in the send list */
    RTEP_REFUSED_NO_MESSAGE = 20,       /* no message on the channel */
    RTEP_REFUSED_ROOM = 21,             /* take's room shorter than the message, which stays */
    RTEP_REFUSED_NOT_RUNNING = 22,      /* frame, timer or queue when Offline, Alone or Excluded */
    RTEP_REFUSED_STARTED = 23,          /* start when not Offline */
    RTEP_REFUSED_CAPTURE_LENGTH = 24,   /* no call of this library: a capture's length, by rtep_replay */
    RTEP_REFUSED_CAPTURE_RECORD = 25,   /* the same: a capture's record */
    RTEP_REFUSED_FORM_1 = 26,           /* to form 1: another version than 1, or a closed channel */
    RTEP_REFUSED_FILE_VERSION = 27,     /* ring file of form 2: rule version 0 or 3 */
    RTEP_REFUSED_CLOSED = 28,           /* the destination has that channel closed */
    RTEP_REFUSED_NOT_WHOLE = 35,        /* a record that is not whole; make: a record buffer not of RTEP_RECORD octets */
    RTEP_REFUSED_WIRE_FULL = 36         /* rtep_replay: a timer record with 64 frames on the wire */
};

/* What rtep_read and rtep_frame give back is a number in its lower 16 bits and an offset in its upper: 12 has the place in the
 * packet where it is bad, which is that of the first octet of its first bad field in wire order; else of its first pad octet
 * that is not zero; else, where only its length disagrees, 6 for information and 0 for a short packet. Beside any other
 * number the offset is 0. So compare RTEP_NUMBER of what they give, and never itself, with anything but RTEP_DONE. */
#define RTEP_NUMBER(given) ((uint32_t)(given) & 0xFFFFu)
#define RTEP_OFFSET(given) ((uint32_t)(given) >> 16)

/* The text for a number, with or without an offset beside it. */
static inline const char *rtep_reason(uint32_t given)
{
    switch (RTEP_NUMBER(given)) {
    case RTEP_DONE: return "done";
    case RTEP_REFUSED_FILE_LENGTH: return "the ring file's length is not 2 + 6 N octets in form 1, 2 + 7 N in form 2";
    case RTEP_REFUSED_FILE_FORM: return "the ring file's form number is neither 1 nor 2";
    case RTEP_REFUSED_FILE_ZERO_BITS: return "the ring file's two zero bits are not zero";
    case RTEP_REFUSED_FILE_ONE_MEMBER: return "the ring file has one member only";
    case RTEP_REFUSED_FILE_NO_RETRY: return "the ring file's retry limit is 0";
    case RTEP_REFUSED_FILE_BAD_ADDRESS: return "an address of the ring file is zero, or the lowest bit of its first octet is 1";
    case RTEP_REFUSED_FILE_SEEN_EARLIER: return "an address of the ring file is there twice";
    case RTEP_REFUSED_OWN_ABSENT: return "this station's address is not in the ring file";
    case RTEP_REFUSED_BUFFER: return "the store is not of its size, or the out buffer too small";
    case RTEP_REFUSED_PACKET_SIZE: return "the packet is not of 46 to 1500 octets";
    case RTEP_REFUSED_IDENTIFIER: return "the packet's identifier is not 1 to 3";
    case RTEP_REFUSED_FIELD: return "a field, a pad octet or the length of the packet is bad";
    case RTEP_REFUSED_STATIONS: return "the frame is not from a live station of the ring to another member";
    case RTEP_REFUSED_PRIORITY: return "the priority is not 1 to 255";
    case RTEP_REFUSED_DESTINATION: return "the destination is not another member of the ring";
    case RTEP_REFUSED_STRUCK: return "the destination has been struck out";
    case RTEP_REFUSED_CHANNEL: return "the channel is above 7";
    case RTEP_REFUSED_PAYLOAD: return "the payload is above 1492 octets";
    case RTEP_REFUSED_LIST_FULL: return "16 messages are in the send list";
    case RTEP_REFUSED_NO_MESSAGE: return "no message is on the channel";
    case RTEP_REFUSED_ROOM: return "the room is shorter than the message";
    case RTEP_REFUSED_NOT_RUNNING: return "this station is not started, alone or excluded";
    case RTEP_REFUSED_STARTED: return "this station was started before";
    case RTEP_REFUSED_CAPTURE_LENGTH: return "the capture's length is not a multiple of 5 octets, or over 60000";
    case RTEP_REFUSED_CAPTURE_RECORD: return "a record of the capture is none, or names a station outside the ring";
    case RTEP_REFUSED_FORM_1: return "the ring file has another version than 1 or a closed channel, which form 1 cannot say";
    case RTEP_REFUSED_FILE_VERSION: return "the ring file's rule version is neither 1 nor 2";
    case RTEP_REFUSED_CLOSED: return "the destination does not listen on the channel";
    case RTEP_REFUSED_NOT_WHOLE: return "the record is not whole, or not of its size";
    case RTEP_REFUSED_WIRE_FULL: return "a timer would put a 65th frame on the wire";
    default: return "no number of RT-EP";
    }
}

/* What a driver may read of a record, and never write. Both counts stop at 4,294,967,295. */
#define RTEP_AT_STATE 451
#define RTEP_AT_LOST 469
#define RTEP_AT_GIVEN_UP 473

static inline enum rtep_state rtep_state(const uint8_t *record)
{
    return (enum rtep_state)record[RTEP_AT_STATE];
}

/* A number that lies in so many octets, the highest first. */
static inline uint64_t rtep_number_in(const uint8_t *octets, size_t count)
{
    uint64_t number = 0;
    for (size_t i = 0; i < count; i++) number = number << 8 | octets[i];
    return number;
}

/* How many messages were lost at a full receive list. */
static inline uint32_t rtep_lost(const uint8_t *record)
{
    return (uint32_t)rtep_number_in(record + RTEP_AT_LOST, 4);
}

/* How many messages were given up. */
static inline uint32_t rtep_given_up(const uint8_t *record)
{
    return (uint32_t)rtep_number_in(record + RTEP_AT_GIVEN_UP, 4);
}

/* An address from its six octets on the wire, and into them. */
static inline uint64_t rtep_address(const uint8_t *octets)
{
    return rtep_number_in(octets, 6);
}

static inline void rtep_put_address(uint8_t *octets, uint64_t address)
{
    for (int i = 0; i < 6; i++) octets[i] = (uint8_t)(address >> (40 - 8 * i));
}

/* The payload of a message that was given up, until the next one is queued. */
static inline const uint8_t *rtep_payload(const uint8_t *store, const struct rtep_message *message)
{
    return store + message->place * RTEP_PLACE;
}

/* The layout that the archive was built for; RTEP_LAYOUT, or the driver must not go on. */
uint32_t rtep_layout(void);

/* The sizes above in octets, for those who bind from another language. */
size_t rtep_record_size(void);
size_t rtep_store_size(void);
size_t rtep_place_size(void);
size_t rtep_out_size(void);
size_t rtep_told_size(void);
size_t rtep_taken_size(void);
size_t rtep_packet_size(void);
size_t rtep_ring_size(void);
size_t rtep_file_size(void);

/* And where in a record state, lost and given up stand. */
size_t rtep_state_at(void);
size_t rtep_lost_at(void);
size_t rtep_given_up_at(void);

/* Makes a station of a ring file and its own address: record is then a station that is Offline, with all N
 * members live, empty lists, and counts of 0. What was in the record before does not matter.
 * Refuses, in this order, with 35 (record_len), 1 to 7 and 27 (the ring file's own order), 8. */
uint32_t rtep_make(uint8_t *record, size_t record_len, const uint8_t *file, size_t file_len, uint64_t own);

/* Starts the station: that at position 0 starts a round with frame number 0 and waits, others become Idle.
 * Leaves the packet to send, if any, at the start of out, and what it tells in told.
 * Refuses, in this order, with 9 (out_len), 35, 23. */
uint32_t rtep_start(uint8_t *record, size_t record_len, uint8_t *out, size_t out_len, struct rtep_told *told);

/* A frame was heard, whoever it is addressed to: its two addresses, and the data field as packet.
 * Leaves the packet to send, if any, at the start of out, what it tells in told, and the payload of a message
 * that was received in the store.
 * Refuses, in this order, with 9 (store_len, out_len), 35, 22, 13, 10, 11, 12 and its offset: RTEP_NUMBER, RTEP_OFFSET. */
uint32_t rtep_frame(uint8_t *record, size_t record_len, uint8_t *store, size_t store_len,
                    uint64_t from, uint64_t to, const uint8_t *packet, size_t packet_len,
                    uint8_t *out, size_t out_len, struct rtep_told *told);

/* The driver's timer ran out. Waiting, the station sends the same frame again, or strikes out the addressee
 * after R retries and goes on without it; Idle, it does nothing and gives 0.
 * Leaves the packet to send, if any, at the start of out, and what it tells in told.
 * Refuses, in this order, with 9 (store_len, out_len), 35, 22. */
uint32_t rtep_timer(uint8_t *record, size_t record_len, const uint8_t *store, size_t store_len,
                    uint8_t *out, size_t out_len, struct rtep_told *told);

/* Queues a message: it joins the send list, and its payload is copied into the store.
 * Refuses, in this order, with 9 (store_len), 35, 22, 14, 15, 16, 17, 28, 18, 19. */
uint32_t rtep_queue(uint8_t *record, size_t record_len, uint8_t *store, size_t store_len,
                    uint64_t to, size_t priority, size_t channel, const uint8_t *payload, size_t payload_len);

/* Takes the best received message of a channel, in any state: highest priority, earliest among equals. Its
 * payload fills the start of room, and it leaves the receive list.
 * Refuses, in this order, with 9 (store_len), 35, 17, 20, 21; on 21 the message stays. */
uint32_t rtep_take(uint8_t *record, size_t record_len, const uint8_t *store, size_t store_len,
                   size_t channel, uint8_t *room, size_t room_len, struct rtep_taken *taken);

/* The codec by itself; a driver of a station does not need it. docs/INTERFACE.md gives its numbers. */

/* Reads a ring file of either form. Refuses, in this order, with 1, 2, 3 (form 1) or 27 (form 2), 4, 5, 1, and 6 and 7
 * for each address. */
uint32_t rtep_ring(const uint8_t *file, size_t file_len, struct rtep_ring *ring);

/* The same ring in form 1, or in form 2, at the start of out, with its length in octets; octets of out behind it stay. A
 * file that has the form already is handed back as it is. Form 1 becomes form 2 with rule version 1 and every channel
 * open. Refuses as rtep_ring does, and to form 1 then with 26. */
uint32_t rtep_to_form_1(const uint8_t *file, size_t file_len, uint8_t out[RTEP_FILE], uint64_t *octets);
uint32_t rtep_to_form_2(const uint8_t *file, size_t file_len, uint8_t out[RTEP_FILE], uint64_t *octets);

/* Reads a packet against the addresses of a ring's members. The information is told->length octets from packet[8] on.
 * Refuses, in this order, with 10, 11, 12 and its offset: RTEP_NUMBER, RTEP_OFFSET. */
uint32_t rtep_read(const uint64_t *addresses, size_t members, const uint8_t *packet, size_t packet_len,
                   struct rtep_packet *told);

/* Writes a packet and its information to the start of out. Refuses, in this order, with 9 (out_len), 12; without an offset. */
uint32_t rtep_write(const uint64_t *addresses, size_t members, const struct rtep_packet *packet,
                    const uint8_t *information, size_t information_len,
                    uint8_t *out, size_t out_len, struct rtep_written *written);

#ifdef __cplusplus
}
#endif

#endif
