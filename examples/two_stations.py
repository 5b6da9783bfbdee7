"""Two stations in one process, in Python over ctypes, with the archive (tools/staticlib) as a shared library:

    gcc -shared -Wl,--whole-archive target/staticlib/librtep.a -Wl,--no-whole-archive -o librtep.so
    python3 examples/two_stations.py librtep.so

Nothing of the header is repeated here but the layout's number, the calls and the names of what they tell: sizes and places are
asked for.
"""
import os
import sys
from ctypes import CDLL, POINTER, Structure, byref, c_char_p, c_size_t, c_uint32, c_uint64, create_string_buffer, sizeof

LAYOUT = 3
SIZES = ["rtep_record_size", "rtep_store_size", "rtep_place_size", "rtep_out_size", "rtep_told_size", "rtep_taken_size", "rtep_state_at"]
DONE, IDLE, WAITING = 0, 1, 2
BAD_PACKET = 12
ADDRESSES = [0x020000000010, 0x020000000011]
RETRY_LIMIT = 3


class Message(Structure):
    _fields_ = [(name, c_uint64) for name in ("to", "priority", "channel", "length", "place")]


class Told(Structure):
    _fields_ = [(name, c_uint64) for name in ("octets", "to", "struck", "given_up")] + [("messages", Message * 16)]


class Taken(Structure):
    _fields_ = [(name, c_uint64) for name in ("sender", "priority", "channel", "length")]


OCTETS = [c_char_p, c_size_t]  # a buffer and its length
CALLS = {
    "rtep_make": [*OCTETS, *OCTETS, c_uint64],
    "rtep_start": [*OCTETS, *OCTETS, POINTER(Told)],
    "rtep_frame": [*OCTETS, *OCTETS, c_uint64, c_uint64, *OCTETS, *OCTETS, POINTER(Told)],
    "rtep_queue": [*OCTETS, *OCTETS, c_uint64, c_size_t, c_size_t, *OCTETS],
    "rtep_take": [*OCTETS, *OCTETS, c_size_t, *OCTETS, POINTER(Taken)],
}


def load(path):
    """The library, where it is of this layout."""
    library = CDLL(os.path.abspath(path))
    if library.rtep_layout() != LAYOUT:
        sys.exit(f"two_stations: written for layout {LAYOUT}, and the library has {library.rtep_layout()}")
    for name in SIZES:
        getattr(library, name).restype = c_size_t
    for name, arguments in CALLS.items():
        function = getattr(library, name)
        function.argtypes, function.restype = arguments, c_uint32
    assert library.rtep_told_size() == sizeof(Told) and library.rtep_taken_size() == sizeof(Taken)
    return library


def lent(buffer):
    return buffer, len(buffer)


class Station:
    """One station with its memory. A call that is refused raises its number, and the offset beside it."""

    def __init__(self, library, file, own):
        self.library, self.own, self.told = library, own, Told()
        self.record = create_string_buffer(library.rtep_record_size())
        self.store = create_string_buffer(library.rtep_store_size())
        self.out = create_string_buffer(library.rtep_out_size())
        self.done(library.rtep_make(*lent(self.record), *lent(file), own))

    @staticmethod
    def done(given):
        """The number is in the lower 16 bits, and where a packet is bad its offset in the upper."""
        number, offset = given & 0xFFFF, given >> 16
        if number == BAD_PACKET:
            raise ValueError(f"refused with {number} at octet {offset}")
        if number != DONE:
            raise ValueError(f"refused with {number}")

    def sent(self):
        """The frame to send, as addressee and packet, or None."""
        return (self.told.to, self.out.raw[: self.told.octets]) if self.told.octets != 0 else None

    def state(self):
        return self.record.raw[self.library.rtep_state_at()]

    def start(self):
        self.done(self.library.rtep_start(*lent(self.record), *lent(self.out), byref(self.told)))
        return self.sent()

    def hear(self, sender, to, packet):
        self.done(self.library.rtep_frame(
            *lent(self.record), *lent(self.store), sender, to, *lent(packet), *lent(self.out), byref(self.told)))
        return self.sent()

    def queue(self, to, priority, channel, payload):
        self.done(self.library.rtep_queue(
            *lent(self.record), *lent(self.store), to, priority, channel, *lent(payload)))

    def take(self, channel):
        """The best message of a channel, which must have one."""
        taken, room = Taken(), create_string_buffer(self.library.rtep_place_size())
        self.done(self.library.rtep_take(*lent(self.record), *lent(self.store), channel, *lent(room), byref(taken)))
        return taken, room.raw[: taken.length]


def ring_file(limit, addresses):
    head = 1 << 12 | len(addresses) - 1 << 6 | limit << 2
    return head.to_bytes(2, "big") + b"".join(address.to_bytes(6, "big") for address in addresses)


def main(path):
    library = load(path)
    file = ring_file(RETRY_LIMIT, ADDRESSES)
    first, second = stations = [Station(library, file, address) for address in ADDRESSES]
    assert second.start() is None and second.state() == IDLE
    second.queue(first.own, 9, 3, b"ready")
    second.queue(first.own, 200, 3, b"stop the line")
    sender, frame = first, first.start()
    assert first.state() == WAITING
    for _ in range(8):
        to, packet = frame
        print(f"{stations.index(sender)} to {ADDRESSES.index(to)}: kind {packet[0]}, priority {packet[1]}, {len(packet)} octets")
        hearer = stations[ADDRESSES.index(to)]
        sender, frame = hearer, hearer.hear(sender.own, to, packet)
    for _ in range(2):
        taken, payload = first.take(3)
        print(f"0 takes '{payload.decode()}' of priority {taken.priority} from {ADDRESSES.index(taken.sender)}")
    try:
        first.take(3)
    except ValueError as refused:
        print(f"0 takes nothing more: {refused}")
    to, packet = frame
    damaged = packet[:-1] + b"\x01"
    try:
        stations[ADDRESSES.index(to)].hear(sender.own, to, damaged)
    except ValueError as refused:
        print(f"a frame with a pad octet that is not zero: {refused}")


if __name__ == "__main__":
    if len(sys.argv) != 2:
        sys.exit("usage: two_stations.py LIBRARY")
    main(sys.argv[1])
