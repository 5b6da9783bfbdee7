"""Holds tools/ring to the library's reader: ring.py LIBRARY REASONS, the numbers' reasons a line each."""
import ctypes
import importlib.machinery
import importlib.util
import random
import sys

FILES, SEED = 20000, 20261115


def tool():
    loader = importlib.machinery.SourceFileLoader("ring", "tools/ring")
    module = importlib.util.module_from_spec(importlib.util.spec_from_loader("ring", loader))
    sys.dont_write_bytecode = True
    loader.exec_module(module)
    return module


def reader(library):
    library.rtep_ring.argtypes = [ctypes.c_char_p, ctypes.c_size_t, ctypes.POINTER(ctypes.c_uint64)]
    told = (ctypes.c_uint64 * (library.rtep_ring_size() // 8))()
    return lambda octets: (library.rtep_ring(octets, len(octets), told), told)


def former(library, asked):
    call = {1: library.rtep_to_form_1, 2: library.rtep_to_form_2}[asked]
    call.argtypes = [ctypes.c_char_p, ctypes.c_size_t, ctypes.c_char_p, ctypes.POINTER(ctypes.c_uint64)]
    out = ctypes.create_string_buffer(library.rtep_file_size())
    told = (ctypes.c_uint64 * 1)()

    def formed(octets):
        number = call(octets, len(octets), out, told)
        return number, out.raw[: told[0]] if number == 0 else None

    return formed


def file(choose, ring):
    """A ring file, mostly damaged."""
    members = choose.choice([1, 2, 3, 5, 63, 64])
    form = choose.choice([1, 2])
    last = choose.choice([1, 1, 2, 2, 2, 0, 3]) if form == 2 else 0
    closed = choose.randrange(2)
    ring_of = [
        (bytes([choose.randrange(128) * 2]) + choose.randbytes(5), choose.randrange(256) if closed else 255) for _ in range(members)
    ]
    octets = bytearray(ring.written(form, choose.randrange(16), last, ring_of))
    width = ring.stride(form)
    damage = choose.randrange(8)
    if damage == 0:
        octets[choose.randrange(2)] ^= 1 << choose.randrange(8)
    elif damage == 1:
        octets[2 + width * choose.randrange(members)] |= 1
    elif damage == 2:
        at = 2 + width * choose.randrange(members)
        octets[at : at + 6] = bytes(6)
    elif damage == 3:
        at, to = (2 + width * choose.randrange(members) for _ in range(2))
        octets[to : to + 6] = octets[at : at + 6]
    elif damage == 4:
        del octets[choose.randrange(len(octets)) :]
    elif damage == 5:
        octets += choose.randbytes(choose.randrange(1, 8))
    return bytes(octets)


def main(path, reasons):
    library = ctypes.CDLL(path)
    ring, read, choose = tool(), reader(library), random.Random(SEED)
    forms = {asked: former(library, asked) for asked in (1, 2)}
    with open(reasons) as lines:
        texts = dict(line.rstrip("\n").split(" ", 1) for line in lines)
    assert all(texts[str(number)] == text for number, text in ring.REASONS.items())
    counts = {}
    for _ in range(FILES):
        octets = file(choose, ring)
        number, told = read(octets)
        assert ring.refusal(octets) == number, f"{octets.hex()}: {ring.refusal(octets)}, the library gives {number}"
        if number == 0:
            form, others, limit, last = ring.head(octets)
            members = list(ring.members(octets))
            assert (others + 1, limit) == (told[0], told[1])
            assert [int.from_bytes(address, "big") for address, _ in members] == told[2 : 2 + told[0]]
            assert ring.written(form, told[1], last, members) == octets
            first, *rest = ring.words(octets)
            version = "" if form == 1 else f"rule version {last}, form 2, "
            assert first == f"a ring of {told[0]}, retry limit {told[1]}, {version}{len(octets)} octets"
            assert len(rest) == told[0]
        for asked, formed in forms.items():
            refused, given = formed(octets)
            assert refused == ring.form_refusal(asked, octets), f"{octets.hex()} to form {asked}: the library gives {refused}"
            if refused == 0:
                assert given == ring.formed(asked, octets), f"{octets.hex()} to form {asked}"
            counts[refused] = counts.get(refused, 0) + (refused == 26)
        counts[number] = counts.get(number, 0) + 1
    assert set(counts) == {*range(8), 26, 27} and all(counts.values()), counts
    print("use: tools/ring gives the library's numbers for", ", ".join(f"{counts[n]} files {n}" for n in sorted(counts)))


main(*sys.argv[1:])
