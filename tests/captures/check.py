"""What tests/captures/run asks of captures in Python.

    check.py scripts FOLDER    the bench's scripts that a capture can say, as captures, with what the bench prints of them
    check.py tool FOLDER       tools/capture beside the model, on the random days of FOLDER/random, and both ways
    check.py picture FOLDER    tools/picture on what the program prints
    check.py page FOLDER       what docs/CAPTURES.md shows of the examples
"""
import functools
import importlib.machinery
import importlib.util
import pathlib
import random
import re
import subprocess
import sys
import xml.etree.ElementTree as tree

ROOT = pathlib.Path(__file__).resolve().parent.parent.parent
SEED = 20261115
ROUND_TRIPS = 300
END = "station state live send receive lost given-up"


def tool(name):
    loader = importlib.machinery.SourceFileLoader(name, str(ROOT / "tools" / name))
    module = importlib.util.module_from_spec(importlib.util.spec_from_loader(name, loader))
    sys.dont_write_bytecode = True
    loader.exec_module(module)
    return module


def run(*command, given=b""):
    done = subprocess.run([ROOT / "tools" / command[0], *command[1:]], input=given, capture_output=True)
    assert done.returncode == 0, (command, done.stderr)
    return done.stdout


# ---- scripts


def said(script, capture):
    """A script as N and the text of a capture; none where it has a line that no event says."""
    members, lines = 0, []
    for line in script.decode("ascii", "replace").removesuffix("\n").split("\n"):
        words = line.split(" ")
        if not re.fullmatch(r"(ring|step)( \d{1,5})|queue( \d{1,5}){5}", line, re.ASCII):
            return None
        word, *numbers = words[0], *map(int, words[1:])
        if (word == "ring") == bool(members):
            return None
        if word == "ring":
            members = numbers[0]
        elif word == "step":
            lines += ["deliver"] * numbers[0]
        elif max(numbers[:2]) >= members or any(n >> capture.FIELDS[f] for f, n in zip(capture.NUMBERS, numbers)):
            return None
        else:
            lines.append(" ".join(["queue", *map(str, numbers)]))
    if not 2 <= members <= capture.MOST_MEMBERS or len(lines) * capture.RECORD > capture.LONGEST:
        return None
    return members, "".join(line + "\n" for line in lines)


def scripts(folder):
    capture, ring, choose = tool("capture"), tool("ring"), random.Random(SEED)
    names = [*ROOT.glob("examples/*.script"), *ROOT.glob("tests/scripts/*.script")]
    written = 0
    for path in sorted(names):
        day = said(path.read_bytes(), capture)
        if day is None:
            continue
        members, text = day
        addresses = [((2 * i + 2).to_bytes(6, "big"), ring.ALL_OPEN) for i in range(members)]
        name = folder / f"{path.parent.name}_{path.stem}"
        name.with_suffix(".ring").write_bytes(ring.written(1, choose.randint(1, 15), 0, addresses))
        run("capture", "write", name.with_suffix(".capture"), name.with_suffix(".ring"), given=text.encode())
        name.with_suffix(".expected").write_bytes(path.with_suffix(".expected").read_bytes())
        written += 1
    assert written >= 8, f"only {written} scripts can be said"


# ---- tools/capture


def refusal(capture, octets, members):
    """What the tool refuses: a number, and which record."""
    if len(octets) % capture.RECORD or len(octets) > capture.LONGEST:
        return 24, 0
    for at, record in enumerate(capture.records(octets)):
        if capture.fault(record, members):
            return 25, at
    return 0, len(octets) // capture.RECORD


def beside_model(capture, ring, name):
    """The number that both give, the tool having looked at the whole capture and the model up to its stop."""
    expected = name.with_suffix(".expected").read_text()
    file, octets = (name.with_suffix(suffix).read_bytes() for suffix in (".ring", ".capture"))
    if ring.refusal(file) != 0:
        assert expected == f"refused {ring.refusal(file)}\n", name
        return ring.refusal(file)
    number, at = refusal(capture, octets, len(list(ring.members(file))))
    stop = re.search(r"^stopped (\d+) at (\d+)$", expected, re.M)
    if number == 24:
        assert expected == "refused 24\n", name
    elif stop and int(stop[1]) == 36:
        assert int(stop[2]) < at, name
        return 36
    elif number == 25:
        assert stop and (int(stop[1]), int(stop[2])) == (25, at), name
    else:
        assert not stop and expected.startswith("no kind "), name
    return number


def text_of(choose):
    """Lines of events, any numbers that a record can hold."""
    count = choose.choice([0, 1, 2, 10, 300])
    shapes = [
        lambda: "deliver",
        lambda: "lose addressee",
        lambda: "lose all",
        lambda: f"timer {choose.randrange(64)}",
        lambda: " ".join(["queue", *(str(choose.choice([0, most, choose.randint(0, most)])) for most in (63, 63, 255, 7, 2047))]),
    ]
    return "".join(choose.choice(shapes)() + "\n" for _ in range(count))


def capture_tool(folder):
    capture, ring, choose = tool("capture"), tool("ring"), random.Random(SEED)
    # Most records come again and again.
    for name in ("fault", "words"):
        setattr(capture, name, functools.cache(getattr(capture, name)))
    counts = {}
    for path in sorted((folder / "random").glob("*.capture")):
        number = beside_model(capture, ring, path)
        counts[number] = counts.get(number, 0) + 1
        octets = path.read_bytes()
        if refusal(capture, octets, capture.MOST_MEMBERS)[0] == 0:
            text = "".join(capture.words(record) + "\n" for record in capture.records(octets))
            assert capture.read_text(text) == octets, path
    assert set(counts) >= {0, 1, 2, 3, 4, 5, 6, 7, 24, 25, 36}, counts
    print("captures: tools/capture gives the model's numbers for", ", ".join(f"{counts[n]} files {n}" for n in sorted(counts)))
    for _ in range(ROUND_TRIPS):
        text = text_of(choose)
        octets = capture.read_text(text)
        assert "".join(capture.words(record) + "\n" for record in capture.records(octets)) == text
        assert refusal(capture, octets, capture.MOST_MEMBERS) == (0, len(octets) // 5)
    # As it is called: text to capture to text, capture to text to capture.
    file, again = folder / "there", folder / "back"
    for path in [*sorted((folder / "random").glob("day*.capture"))[::100], *sorted(ROOT.glob("examples/captures/*.txt"))]:
        if path.suffix == ".txt":
            text = re.sub(r"^(#.*)?\n", "", path.read_text(), flags=re.M).encode()
        elif refusal(capture, path.read_bytes(), capture.MOST_MEMBERS)[0] == 0:
            text = run("capture", "show", path)
        else:
            continue
        run("capture", "write", file, given=text)
        assert run("capture", "show", file) == text, path
        run("capture", "write", again, given=run("capture", "show", file))
        assert again.read_bytes() == file.read_bytes(), path
        if path.suffix == ".capture":
            assert file.read_bytes() == path.read_bytes(), path
    print(f"captures: tools/capture goes both ways, text to octets and octets to text, {ROUND_TRIPS} random texts and every good capture")


# ---- tools/picture


def drawn(text, *members):
    picture = run("picture", *members, given=text)
    return picture, [node.text or "" for node in tree.fromstring(picture).iter("{http://www.w3.org/2000/svg}text")]


def picture(folder):
    page = run("picture", given=(ROOT / "examples/page.expected").read_bytes())
    assert page == (ROOT / "docs/page.svg").read_bytes(), "the page's picture is not docs/page.svg"
    names = [*ROOT.glob("examples/captures/*.expected"), *ROOT.glob("tests/captures/*.expected")]
    for path in sorted(names):
        text = path.read_text()
        lines = text.split("\n")[:-1]
        end = lines.index(END)
        picture, words = drawn(text.encode())
        struck = [f"station {p} struck by station {q}" for p, q in re.findall(r"^struck (\d+) by (\d+)$", text, re.M)]
        assert [word.removesuffix(" itself") for word in words if " struck by station " in word] == struck, path
        stops = [f"stopped before record {at} with {number}" for number, at in re.findall(r"^stopped (\d+) at (\d+)$", text, re.M)]
        assert [word.split(":")[0] for word in words if word.startswith("stopped ")] == stops, path
        refused = [f"queue refused with {number}" for number in re.findall(r"^refused (\d+)$", text, re.M)]
        assert [word.split(":")[0] for word in words if word.startswith("queue refused ")] == refused, path
        frames = picture.count(b"<g><title>frame ")
        assert frames + len(struck) + len(stops) + len(refused) == end - 1, (path, frames)
        table = words[words.index("at the end") + 1 + len(END.split()) :]
        assert table == " ".join(lines[end + 1 :]).split(" "), path
    for refused in (1, 24):
        _, words = drawn(f"refused {refused}\n".encode())
        assert any(word.startswith(f"refused with {refused}: ") for word in words), words
    print(f"captures: tools/picture draws the page as it is kept, and {len(names)} recorded days with their strikes, stops and ends")


# ---- docs/CAPTURES.md


def page(folder):
    """Each block of lines on the page stands so in what an example prints."""
    kept = [path.read_text() for path in ROOT.glob("examples/captures/*.expected")]
    fenced = re.findall(r"^```(\w*)\n(.*?)^```$", (ROOT / "docs/CAPTURES.md").read_text(), re.M | re.S)
    blocks = [block for language, block in fenced if not language]
    assert len(blocks) >= 3, blocks
    for block in blocks:
        assert any(block in text for text in kept), block


{"scripts": scripts, "tool": capture_tool, "picture": picture, "page": page}[sys.argv[1]](pathlib.Path(sys.argv[2]))
