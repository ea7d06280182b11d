"""Runs the command as a person would, and holds what it says and how it ends to what it should.
usage: tried.py FOLDER, with cases/, made/ and, of layout 1.0, first/ of the second program."""
import json
import os
import random
import re
import resource
import signal
import stat
import struct
import subprocess
import sys
import threading
import time

import sample

HERE = os.path.dirname(os.path.dirname(os.path.abspath(__file__)))
ZT = [os.path.join(HERE, "host/run"), os.path.join(HERE, "target/command/zt")]
SECOND = os.path.join(HERE, "second/target/release/second")
WORK = os.path.abspath(sys.argv[1])
untried = []


def zt(*words, **more):
    """Status, output, trouble."""
    more = {"stdin": subprocess.DEVNULL, "stdout": subprocess.PIPE, "stderr": subprocess.PIPE, "cwd": WORK, **more}
    if "input" in more:
        del more["stdin"]
    ended = subprocess.run([*more.pop("before", []), *ZT, *words], **more)
    return ended.returncode, ended.stdout, ended.stderr


def expect(got, wanted, what=""):
    if got != wanted:
        raise AssertionError(f"{what}\nwanted {wanted!r}\nand got {got!r}")


def put(name, content):
    with open(os.path.join(os.fsencode(WORK), os.fsencode(name)), "wb") as into:
        into.write(content)
    return name


def content(name):
    with open(os.path.join(WORK, name), "rb") as of:
        return of.read()


def done(*words, **more):
    """The output of a command that must end well and say nothing else."""
    status, said, trouble = zt(*words, **more)
    expect((status, trouble), (0, b""), words)
    return said


def told(*words, **more):
    return json.loads(done(*words, **more))


def troubled(trouble, *words, status=2, **more):
    """A command that must fail with these words on standard error, and nothing on standard output."""
    expect(zt(*words, **more), (status, b"", b"zt: " + trouble + b"\n"), words)


def answers(folder):
    with open(os.path.join(WORK, folder, "answers.txt")) as lines:
        for line in lines:
            name, *numbers = line.split()
            yield f"{folder}/{name}", tuple(map(int, numbers))


def refusals():
    """Number, name and words of each refusal, from the header."""
    with open(os.path.join(HERE, "include/zt.h")) as header:
        found = re.findall(r"^    ZT_([A-Z]+) = (\d+),? +/\* (.*) \*/$", header.read(), re.M)
    return {int(number): (name, words) for name, number, words in found}


def sound_files(most, of=None):
    """Some sound files of the second program, spread over all of them."""
    sound = [path for path, numbers in of or files if numbers[0] == 0]
    return sound[:: max(1, len(sound) // most)]


# Each function from here on whose name begins with `try_` is tried, in this order.


def try_every_refusal():
    known = refusals()
    wanted = []
    for path, (number, owner, part) in files:
        name, words = known[number]
        wanted.append(f"{path}: sound" if number == 0 else f"{path}: refused {number} {name}, object {owner}, component {part}: {words}")
    status, said, trouble = zt("check", *(path for path, _ in files))
    expect((status, trouble), (1, b""))
    expect(said.decode().splitlines(), wanted)
    expect({numbers[0] for _, numbers in files}, set(range(24)), "the files have every refusal")


def try_every_refusal_as_json():
    known = refusals()
    status, said, trouble = zt("check", "--json", *(path for path, _ in files))
    expect((status, trouble), (1, b""))
    verdicts = json.loads(said)
    expect(len(verdicts), len(files))
    for verdict, (path, (number, owner, part)) in zip(verdicts, files):
        refusal = {"number": number, "name": known[number][0], "object": owner, "component": part, "words": known[number][1]}
        expect(verdict, {"file": path, "sound": True} if number == 0 else {"file": path, "sound": False, "refusal": refusal})


def try_one_refused_file():
    put("short.zt", b"ZTEN1000")
    line = b"short.zt: refused 1 SHORT, object 0, component 0: file under 24 bytes"
    refusal = {"number": 1, "name": "SHORT", "object": 0, "component": 0, "words": "file under 24 bytes"}
    for words in (["list"], ["show"], ["map"], ["panel"], ["plan", "--page", "64"], ["plan", "--page", "64", "-o", "new.zt"], ["copy", "-o", "new.zt"]):
        troubled(line, *words, "short.zt", status=1)
    troubled(line, "get", "short.zt", "a", "b", status=1)
    expect(os.path.exists(os.path.join(WORK, "new.zt")), False)
    for command in ("list", "show", "map"):
        status, said, trouble = zt(command, "short.zt", "--json")
        expect((status, json.loads(said), trouble), (1, {"file": "short.zt", "sound": False, "refusal": refusal}, b""))


def try_listings_against_the_second_program():
    for path in sound_files(24):
        theirs = subprocess.run([SECOND, "list", path], cwd=WORK, capture_output=True, check=True).stdout
        if theirs == b"too long\n":
            continue
        expect(done("list", path), theirs, path)
        listed, objects = told("list", "--json", path), []
        for line in theirs.decode().splitlines()[1:]:
            word, *rest = line.split(" ")
            if word == "object":
                objects.append((rest[0], rest[1], []))
            else:
                objects[-1][2].append(tuple(rest))
        for thing, (name, form, lines) in zip(listed["objects"], objects, strict=True):
            expect((shown(thing["name"]), shown(thing["format"])), (name, form), path)
            parts = [(shown(part["name"]), part["dtype"], str(part["offset"]), str(part["length"])) for part in thing["components"]]
            expect(parts, lines, path)


def shown(text):
    return "".join(chr(b) if 33 <= b <= 126 and b != 92 else f"\\{b:02x}" for b in text.encode())


def try_show_and_map():
    for path in sound_files(10):
        full, listed, account = told("show", "--json", path), told("list", "--json", path), told("map", "--json", path)
        length = os.path.getsize(os.path.join(WORK, path))
        for thing, same in zip(full["objects"], listed["objects"], strict=True):
            for part, same_part in zip(thing["components"], same["components"], strict=True):
                expect({key: part[key] for key in same_part}, same_part)
            expect((thing["name"], thing["format"]), (same["name"], same["format"]))
        expect((full["length"], account["length"], account["frame"]), (length, length, 24))
        expect(account["manifest"], full["manifest"]["length"])
        covered = set()
        for thing in full["objects"]:
            for part in thing["components"]:
                covered.update(range(part["offset"], part["offset"] + part["length"]))
        expect(account["components"], len(covered), path)
        at = 0
        for span in account["spans"]:
            expect(span["offset"], at, path)
            at += span["length"]
        expect(at, length)
        for kind in ("frame", "components", "gaps", "manifest"):
            expect(account[kind], sum(span["length"] for span in account["spans"] if span["kind"] == kind), path)
        bar, *legend = done("map", path).decode().splitlines()
        expect((len(bar) <= 64, set(bar) <= set("F#.M")), (True, True))
        expect([int(line.split()[-3]) for line in legend], [24, account["components"], account["gaps"], account["manifest"], length])
        expect(len(done("show", path).splitlines()), 4 + len(full["objects"]) + sum(len(thing["components"]) for thing in full["objects"]))


def try_columns():
    digest = "sha256:" + "0f" * 8
    many = [("values", sample.component("f32", 64, 12, digest=digest)), ("indices", sample.component("u64", 64, 24)), ("indptr", sample.component("u64", 64, 24))]
    odd = [("-", sample.component("u8", 64, 0, type="")), ("", sample.component("u8", 64, 0, type="-"))]
    things = [("mix", sample.thing([2, 4], "sparse_csr", many, attributes=sample.Pairs())), ("", sample.thing([], "", odd))]
    put("columns.zt", sample.file(things, bytes(64), attributes=sample.Pairs([("a", 1)])))
    lines = done("show", "columns.zt").decode().splitlines()
    length = len(content("columns.zt"))
    first = f"columns.zt: bytes {length}, objects 2, components 5, manifest {length - 144} bytes, attributes 4 bytes"
    expect(re.sub(r" at \d+", "", lines[0]), first)
    wanted = [
        "object  format      shape  attributes",
        "  component  dtype  type  offset  length  digest",
        "mix     sparse_csr  [2,4]  1 bytes",
        f"  values     f32    -         64      12  {digest}",
        "  indices    u64    -         64      24  -",
        "  indptr     u64    -         64      24  -",
        "\\       \\           []     -",
        "  \\2d        u8     \\         64       0  -",
        "  \\          u8     \\2d       64       0  -",
    ]
    expect([re.sub(r" at \d+", "", line) for line in lines[2:]], wanted)
    full = told("show", "--json", "columns.zt")
    expect([part["type"] for part in full["objects"][1]["components"]], ["", "-"])
    expect((full["objects"][0]["shape"], full["objects"][0]["attributes"]["length"], full["objects"][1]["attributes"]), ([2, 4], 1, None))


def try_get():
    blobs = bytes(range(200)) + bytes(56)
    odd = "a b\\c\n\u202e\0"
    parts = [("data", sample.component("u8", 64, 200)), (odd, sample.component("u8", 128, 72)), ("none", sample.component("u8", 64, 0))]
    put("get.zt", sample.file([("other", sample.thing([], "f", parts[2:])), (odd, sample.thing([], "f", parts)), ("", sample.thing([], "f", parts))], blobs))
    expect(done("get", "get.zt", "", "data"), blobs[:200])
    expect(done("get", "get.zt", "--escaped", shown(odd), shown(odd)), blobs[64:136])
    expect(done("get", "get.zt", "other", "none"), b"")
    expect(done("get", "-", "", "data", input=content("get.zt")), blobs[:200])
    expect(done("get", "get.zt", "-o", "got", "", "data"), b"")
    expect(content("got"), blobs[:200])
    expect(done("get", "-ogot", "get.zt", "other", "none"), b"")
    expect(content("got"), b"")
    troubled(b"data: the file has no such object", "get", "get.zt", "data", "data")
    troubled(b"data: the object has no such component", "get", "get.zt", "other", "data")
    hint = b"; --escaped takes names as listings print them"
    troubled(b"a\\5c20b: the file has no such object" + hint, "get", "get.zt", "a\\20b", "data")
    troubled(b"\\5c20: the object has no such component" + hint, "get", "get.zt", "other", "\\20")
    troubled(b"a\\5c20\\00b: the file has no such object", "get", "get.zt", "--escaped", "a\\5c20\\00b", "data")
    troubled(b"a\\5cz: no name as listings print it: a backslash takes two hex digits", "get", "--escaped", "get.zt", "a\\z", "data")


def try_copies():
    for path in sound_files(16):
        done("copy", path, "-o", "copy.zt")
        expect(done("check", "copy.zt"), b"copy.zt: sound\n", path)
        full, again = told("show", "--json", path), told("show", "--json", "copy.zt")
        old, new = content(path), content("copy.zt")
        for thing, same in zip(full["objects"], again["objects"], strict=True):
            expect([thing[key] for key in ("name", "format", "shape")], [same[key] for key in ("name", "format", "shape")], path)
            for part, same_part in zip(thing["components"], same["components"], strict=True):
                expect([part[key] for key in ("name", "dtype", "type", "digest")], [same_part[key] for key in ("name", "dtype", "type", "digest")], path)
                blobs = [bytes_of[of["offset"] : of["offset"] + of["length"]] for bytes_of, of in ((old, part), (new, same_part))]
                expect(blobs[0], blobs[1], path)
    for path in sound_files(4):
        once = done("copy", "-o", "-", path)
        expect(done("copy", "-", "--output=-", input=once), once, "a copy's copy is the copy")


def try_copy_drops_unknown_fields():
    parts = [("data", sample.component("f32", 64, 12, checked="by nobody"))]
    put("unknown.zt", sample.file([("w", sample.thing([3], "dense", parts, colour="red"))], b"twelve bytes", author="someone"))
    put("known.zt", sample.file([("w", sample.thing([3], "dense", [("data", sample.component("f32", 64, 12))]))], b"twelve bytes"))
    done("copy", "unknown.zt", "-o", "unknown.zt")
    expect(content("unknown.zt"), content("known.zt"))


def try_copy_keeps_mode_and_links():
    put("target.zt", b"old")
    os.chmod(os.path.join(WORK, "target.zt"), 0o640)
    os.symlink("target.zt", os.path.join(WORK, "link.zt"))
    done("copy", "known.zt", "-o", "link.zt")
    expect(os.readlink(os.path.join(WORK, "link.zt")), "target.zt")
    expect(content("target.zt"), content("known.zt"))
    expect(stat.S_IMODE(os.stat(os.path.join(WORK, "target.zt")).st_mode), 0o640)
    done("copy", "known.zt", "-o", "fresh.zt", umask=0o027)
    expect(stat.S_IMODE(os.stat(os.path.join(WORK, "fresh.zt")).st_mode), 0o640)
    for length in (250, 255):
        done("copy", "known.zt", "-o", "n" * length)
    nothing_left(WORK)


# What is said besides of a file that is sound in the other layout.
AS_FIRST = b"; it is sound as layout 1.0, which --layout 1.0 and import read"
AS_CURRENT = b"; it is sound as layout 1.2.0"

# Where the words of zt.h are 1.2.0's.
FIRST_WORDS = {1: "file under 16 bytes", 5: "manifest size 0 or over file length - 16", 22: "needed role absent"}
NOT_CARRIED = b"fields unknown to layout 1.0, generator and attributes of tensors among them, are not carried over"


def try_every_refusal_of_layout_1_0():
    known = {number: (name, FIRST_WORDS.get(number, words)) for number, (name, words) in refusals().items()}
    wanted = []
    for path, (number, owner, part) in first_files:
        name, words = known[number]
        wanted.append(f"{path}: sound" if number == 0 else f"{path}: refused {number} {name}, object {owner}, component {part}: {words}")
    paths = [path for path, _ in first_files]
    status, said, trouble = zt("check", "--layout", "1.0", *paths)
    expect((status, trouble), (1, b""))
    expect(said.decode().splitlines(), wanted)
    expect({numbers[0] for _, numbers in first_files}, set(range(24)) - {3, 18}, "the files have every refusal but FOOTER and TYPE")
    verdicts = json.loads(zt("check", "--json", "--layout=1.0", *paths)[1])
    for verdict, (path, (number, owner, part)) in zip(verdicts, first_files, strict=True):
        refusal = {"number": number, "name": known[number][0], "object": owner, "component": part, "words": known[number][1]}
        expect(verdict, {"file": path, "sound": True} if number == 0 else {"file": path, "sound": False, "refusal": refusal})


def first_sample():
    parts = [("values", sample.first_component(64, 6)), ("indices", sample.first_component(128, 24, digest="crc32c:0x0")), ("indptr", sample.first_component(192, 24))]
    tensors = [
        ("w", "float32", ([2], "dense", [("data", sample.first_component(64, 8))]), {}),
        ("m", "float16", ([2, 9], "sparse_csr", parts), {"attributes": sample.Pairs([("unit", "g")])}),
    ]
    return sample.first_file(tensors, bytes(range(152)), generator="an exporter", attributes=sample.Pairs([("a", 1)]))


def try_reading_in_layout_1_0():
    put("first.zt", first_sample())
    lines = b"objects 2 components 4\nobject w dense\nblob data f32 64 8\nobject m sparse_csr\nblob values f16 64 6\nblob indices u64 128 24\nblob indptr u64 192 24\n"
    expect(done("list", "--layout", "1.0", "first.zt"), lines)
    expect(done("get", "--layout=1.0", "first.zt", "m", "indptr"), bytes(range(128, 152)))
    full, account = told("show", "--json", "--layout", "1.0", "first.zt"), told("map", "--json", "first.zt", "--layout", "1.0")
    length = len(content("first.zt"))
    expect((account["frame"], account["gaps"], account["components"]), (16, 56 + 56 + 40, 8 + 24 + 24), account)
    expect((full["manifest"]["length"], account["manifest"], full["objects"][1]["attributes"]), (length - 16 - 208, length - 16 - 208, None))
    expect(len(done("show", "--layout", "1.0", "first.zt").splitlines()), 4 + 2 + 4)
    for words in (["list"], ["list", "--layout", "1.2.0"]):
        troubled(b"first.zt: refused 3 FOOTER, object 0, component 0: last 8 wrong" + AS_FIRST, *words, "first.zt", status=1)
    expect(zt("check", "first.zt"), (1, b"first.zt: refused 3 FOOTER, object 0, component 0: last 8 wrong" + AS_FIRST + b"\n", b""))
    status, said, _ = zt("check", "--json", "first.zt", "cases/000000.zt")
    expect((status, json.loads(said)[0]["refusal"]["words"]), (1, "last 8 wrong" + AS_FIRST.decode()))
    # It is said of a sound file only.
    put("cut-first.zt", first_sample()[:-1])
    expect(zt("check", "cut-first.zt"), (1, b"cut-first.zt: refused 3 FOOTER, object 0, component 0: last 8 wrong\n", b""))
    for path in sound_files(12, first_files):
        full, account = told("show", "--json", "--layout", "1.0", path), told("map", "--json", "--layout", "1.0", path)
        expect(account["manifest"], full["manifest"]["length"], path)
        expect(sum(account[kind] for kind in ("frame", "components", "gaps", "manifest")), account["length"], path)
        expect(done("list", "--layout", "1.0", path).count(b"\n"), 1 + len(full["objects"]) + sum(len(thing["components"]) for thing in full["objects"]))


def imported(path, new, *words):
    status, said, trouble = zt("import", path, "-o", new, *words)
    expect((status, said, trouble), (0, b"", b"zt: " + path.encode() + b": " + NOT_CARRIED + b"\n"))


def described(path, *words):
    """What a file describes: offsets and places aside."""
    full, whole = told("show", "--json", path, *words), content(path)
    part_of = lambda of: whole[of["offset"] : of["offset"] + of["length"]] if of else None
    parts = lambda thing: [[part[key] for key in ("name", "dtype", "type", "digest")] + [part_of(part)] for part in thing["components"]]
    return part_of(full["attributes"]), [[thing[key] for key in ("name", "format", "shape")] + [part_of(thing["attributes"]), parts(thing)] for thing in full["objects"]]


def try_imports():
    for path in ["first.zt", *sound_files(24, first_files)]:
        imported(path, "imported.zt")
        expect(done("check", "imported.zt"), b"imported.zt: sound\n", path)
        expect(described("imported.zt"), described(path, "--layout", "1.0"), path)
        expect(done("copy", "imported.zt", "-o", "-"), content("imported.zt"), path)
    imported("first.zt", "first.zt")
    expect(done("check", "first.zt"), b"first.zt: sound\n", "a file may take its own place")
    put("first.zt", first_sample())
    status, said, trouble = zt("import", "-", "-o", "-", input=content("first.zt"))
    expect((status, trouble), (0, b"zt: -: " + NOT_CARRIED + b"\n"))
    imported("first.zt", "imported.zt")
    expect(said, content("imported.zt"))


def try_imports_that_are_refused():
    put("kept.zt", b"old")
    line = b"known.zt: refused 4 BIG, object 0, component 0: manifest size over the limit, 16,777,216"
    put("short-first.zt", b"ZTEN1000")
    for words in ("kept.zt", "none.zt"):
        troubled(line + AS_CURRENT, "import", "known.zt", "-o", words, status=1)
        troubled(b"short-first.zt: refused 1 SHORT, object 0, component 0: file under 16 bytes", "import", "short-first.zt", "-o", words, status=1)
        troubled(b"no.zt: No such file or directory", "import", "no.zt", "-o", words)
    expect((content("kept.zt"), os.path.exists(os.path.join(WORK, "none.zt"))), (b"old", False))
    troubled(b"no/where.zt: No such file or directory", "import", "first.zt", "-o", "no/where.zt")
    troubled(b"kept.zt: File too large", "import", "first.zt", "-o", "kept.zt", preexec_fn=small_files)
    expect(content("kept.zt"), b"old", "the old file stays")
    # the greatest manifest of 1.0 has no room for a component's dtype
    parts = [(f"c{i}", sample.first_component(64, 0)) for i in range(16)]
    tensor = lambda name: sample.first_file([(name, "int8", ([], "any", parts), {})])
    longest = 100000 + (1 << 24) + 64 + 8 - len(tensor("n" * 100000))
    put("greatest.zt", tensor("n" * longest))
    expect(done("check", "--layout", "1.0", "greatest.zt"), b"greatest.zt: sound\n")
    troubled(b"greatest.zt" + line[8:], "import", "greatest.zt", "-o", "none.zt", status=1)
    nothing_left(WORK)


def nothing_left(folder):
    expect([name for name in os.listdir(folder) if name.startswith(".zt-")], [], "temporary files")


def small_files():
    resource.setrlimit(resource.RLIMIT_FSIZE, (100, 100))


def parts_of(path, *words):
    """Object, component, offset and length of each component, in the order of rows."""
    full = told("show", "--json", path, *words)
    return [(thing["name"], part["name"], part["offset"], part["length"]) for thing in full["objects"] for part in thing["components"]]


def covered(ranges):
    """How many positions lie in at least one of these ranges."""
    count = reached = 0
    for offset, length in sorted(ranges):
        count += max(0, offset + length - max(offset, reached))
        reached = max(reached, offset + length)
    return count


def blobs_of(lengths):
    """A file with an object for each length, `o0` and so on, each with the bytes of its own."""
    things, blobs = [], b""
    for i, length in enumerate(lengths):
        things.append((f"o{i}", sample.thing([length], "dense", [("data", sample.component("u8", 64 + len(blobs), length))])))
        blobs += bytes((i * 7 + j) % 251 for j in range(length)) + bytes(-length % 64)
    return sample.file(things, blobs)


# Lengths that just fit a page, miss it by a byte, and take several; empty ones before, between and behind.
LENGTHS = [0, 1, 64, 100, 4096, 0, 3968, 129, 4095, 4097, 2100, 4000, 1900, 5000, 8192, 8193, 12000, 63, 0]


def plan_holds(offsets, lengths, page):
    """The rules of every plan, and the pages that it was made for: one that fits in a page crosses no edge, a longer one touches as few as it can."""
    expect(len(offsets), len(lengths))
    expect([offset for offset in offsets if offset % 64 or offset < 64], [])
    full = [(offset, length) for offset, length in zip(offsets, lengths) if length]
    for offset, length in full:
        expect((offset + length - 1) // page - offset // page + 1, 1 if length <= page else -(-length // page), (offset, length, page))
    expect(covered(full), sum(length for _, length in full), "no byte is shared")


def planned(path, page, *words):
    """The offsets of a plan that was proposed, as lines in the file `plan` too."""
    lines = done("plan", path, "--page", str(page), *words)
    offsets = [int(line) for line in lines.splitlines()]
    expect(lines, b"".join(b"%d\n" % offset for offset in offsets))
    put("plan", lines)
    return offsets


def laid_by(path, offsets, *words):
    """That planned.zt is the file, with each component where the plan says, zeros between, and the manifest after the greatest end."""
    expect(done("check", "planned.zt"), b"planned.zt: sound\n", path)
    parts = parts_of("planned.zt")
    expect([offset for *_, offset, _ in parts], offsets, path)
    expect(described("planned.zt"), described(path, *words), path)
    whole, spans = content("planned.zt"), told("map", "--json", "planned.zt")["spans"]
    gaps = [whole[span["offset"] : span["offset"] + span["length"]] for span in spans if span["kind"] == "gaps"]
    expect(b"".join(gaps).strip(b"\0"), b"", "gaps are zeros")
    expect(told("show", "--json", "planned.zt")["manifest"]["offset"], max([offset + length for *_, offset, length in parts], default=8), path)


def try_plans():
    put("lengths.zt", blobs_of(LENGTHS))
    put("none.zt", sample.file([]))
    for path in ["lengths.zt", "none.zt", *sound_files(6)]:
        lengths = [length for *_, length in parts_of(path)]
        for page in (64, 256, 4096, 1 << 20):
            offsets = planned(path, page)
            plan_holds(offsets, lengths, page)
            expect(offsets, sorted(offsets), "in the order of rows")
            done("copy", "--plan", "plan", path, "-o", "planned.zt")
            laid_by(path, offsets)
    # Without a page's edges to keep to, the plan is the writer's own placement.
    planned("lengths.zt", 64)
    expect(done("copy", "--plan", "plan", "lengths.zt", "-o", "-"), done("copy", "lengths.zt", "-o", "-"))


def try_plans_of_layout_1_0():
    for path in ["first.zt", *sound_files(6, first_files)]:
        lengths = [length for *_, length in parts_of(path, "--layout", "1.0")]
        offsets = planned(path, 256, "--layout", "1.0")
        plan_holds(offsets, lengths, 256)
        imported(path, "planned.zt", "--plan", "plan")
        laid_by(path, offsets, "--layout", "1.0")


def try_plans_under_a_ceiling():
    lengths = [2100, 4000, 1900]
    put("gaps.zt", blobs_of(lengths))
    expect(planned("gaps.zt", 4096), [64, 4096, 8192])
    expect(planned("gaps.zt", 4096, "--ceiling", "10092"), [64, 4096, 8192], "a ceiling that is just kept")
    # The same in gaps, longest first.
    for ceiling in (10091, 8108):
        offsets = planned("gaps.zt", 4096, f"--ceiling={ceiling}")
        expect(offsets, [4096, 64, 6208])
        plan_holds(offsets, lengths, 4096)
        done("copy", "--plan", "plan", "--ceiling", str(ceiling), "gaps.zt", "-o", "planned.zt")
        laid_by("gaps.zt", offsets)
    put("kept.plan", b"old")
    for output in ([], ["-o", "kept.plan"], ["-o", "-"]):
        line = b"gaps.zt: no plan was found for the ceiling 8107; there is one for 8108"
        troubled(line, "plan", "gaps.zt", "--page", "4096", "--ceiling", "8107", *output, status=1)
    expect(content("kept.plan"), b"old")
    put("lengths.zt", blobs_of(LENGTHS))
    needed = int(re.search(rb"there is one for (\d+)", zt("plan", "lengths.zt", "--page", "4096", "--ceiling", "0")[2])[1])
    offsets = planned("lengths.zt", 4096, "--ceiling", str(needed))
    plan_holds(offsets, LENGTHS, 4096)
    expect(max(offset + length for offset, length in zip(offsets, LENGTHS)), needed)
    expect(zt("plan", "lengths.zt", "--page", "4096", "--ceiling", str(needed - 1))[0], 1)
    done("copy", "--plan", "plan", "lengths.zt", "-o", "planned.zt")
    laid_by("lengths.zt", offsets)
    expect(done("plan", "--page", "64", "--ceiling", "0", "none.zt"), b"", "no component, no offset")
    # An empty component alone needs its offset only; the ceiling of 2^40 is the highest there is.
    put("empties.zt", blobs_of([0, 0]))
    expect(planned("empties.zt", 4096, "--ceiling", "64"), [64, 64])
    troubled(b"empties.zt: no plan was found for the ceiling 63; there is one for 64", "plan", "empties.zt", "--page", "64", "--ceiling", "63", status=1)
    expect(planned("empties.zt", 1 << 40), [64, 64])


def try_no_plan_below_the_highest_ceiling():
    """Sparse: a gigabyte that 1,025 components share, which no writer could lay apart."""
    length = 1 << 30
    part = sample.component("u8", 64, length)
    things = [(f"o{i}", sample.thing([], "any", [("a", part), ("b", part)])) for i in range(512)] + [("last", sample.thing([], "any", [("a", part)]))]
    with open(os.path.join(WORK, "shared.zt"), "wb") as into:
        into.write(sample.MAGIC)
        into.seek(64 + length)
        into.write(sample.behind(sample.manifest(things)))
    line = b"shared.zt: no plan was found: components would end above 2^40, the highest ceiling there is"
    troubled(line, "plan", "--page", "4096", "shared.zt", status=1)
    put("shared.plan", b"".join(b"%d\n" % (64 + i * length) for i in range(1025)))
    line = b"offset 1098437886016 and length 1073741824 end above the ceiling, 1099511627776"
    troubled(b"shared.plan: refused 27 PLAN, line 1024, object o511, component b: " + line, "copy", "--plan", "shared.plan", "shared.zt", "-o", "x.zt", status=1)
    os.remove(os.path.join(WORK, "shared.zt"))


def try_plans_where_they_go():
    expect(done("plan", "--page", "4096", "lengths.zt", "-o", "written.plan"), b"")
    expect(content("written.plan"), done("plan", "--page=4096", "lengths.zt", "--output=-"))
    expect(done("plan", "-", "--page", "4096", input=content("lengths.zt")), content("written.plan"))
    done("copy", "--plan=-", "lengths.zt", "-o", "planned.zt", input=content("written.plan"))
    by_file = content("planned.zt")
    done("copy", "-", "--plan", "written.plan", "-o", "planned.zt", input=content("lengths.zt"))
    expect(content("planned.zt"), by_file)
    put("no-end.plan", content("written.plan")[:-1])
    expect(done("copy", "lengths.zt", "--plan", "no-end.plan", "-o", "-"), by_file, "the last line's end may be missing")
    troubled(b"-: standard input can be read only once", "copy", "-", "--plan", "-", "-o", "x.zt", input=content("lengths.zt"))
    troubled(b"no.plan: No such file or directory", "copy", "lengths.zt", "--plan", "no.plan", "-o", "x.zt")
    troubled(b"cases: Is a directory", "copy", "lengths.zt", "--plan", "cases", "-o", "x.zt")
    troubled(b"no.zt: No such file or directory", "plan", "--page", "64", "no.zt")
    troubled(b"no/where: No such file or directory", "plan", "--page", "64", "lengths.zt", "-o", "no/where")
    put("kept.plan", b"old")
    troubled(b"kept.plan: File too large", "plan", "--page", "64", "lengths.zt", "-o", "kept.plan", preexec_fn=small_files)
    expect(content("kept.plan"), b"old")
    nothing_left(WORK)


def try_plans_that_are_no_plan():
    digits = b"no decimal number: an offset is digits and nothing else"
    wrong = [(b"64\n%s\n128\n" % line, 2, digits) for line in (b" 128", b"128 ", b"128\r", b"+128", b"-128", b"0x80", b"128.0", b"1e3", b"#", b"12\x008", b"\xd9\xa1")]
    wrong += [(content("lengths.zt"), 1, digits), (b"64,128", 1, digits), (b"x" * 100000, 1, digits)]
    wrong += [(b"64\n\n128\n", 2, b"an empty line, where an offset is due"), (b"\n", 1, b"an empty line, where an offset is due"), (b"64\n128\n\n", 3, b"an empty line, where an offset is due")]
    wrong += [(b"64\n%s" % number, 2, b"too large a number: no offset is above 2^40") for number in (b"18446744073709551616\n", b"9" * 1000)]
    put("kept.zt", b"old")
    for text, line, words in wrong:
        put("wrong.plan", text)
        troubled(b"wrong.plan: line %d: %s" % (line, words), "copy", "--plan", "wrong.plan", "gaps.zt", "-o", "kept.zt")
    expect(content("kept.zt"), b"old")
    nothing_left(WORK)


def try_plans_that_are_refused():
    odd = sample.thing([], "f", [("a b", sample.component("u8", 64, 0)), ("", sample.component("u8", 64, 200))])
    put("rows.zt", sample.file([("w", sample.thing([100], "dense", [("data", sample.component("u8", 64, 100))])), ("\n\\", odd)], bytes(256)))
    second, third = b"line 2, object \\0a\\5c, component a\\20b: ", b"line 3, object \\0a\\5c, component : "
    ways = [
        (b"64\n65\n256\n", second + b"offset 65 is no multiple of 64"),
        (b"64\n256\n65\n", third + b"offset 65 is no multiple of 64"),
        (b"0\n64\n256\n", b"line 1, object w, component data: offset 0 is under 64"),
        (b"64\n1099511627840\n256\n", second + b"offset 1099511627840 and length 0 end above the ceiling, 1099511627776"),
        (b"64\n256\n18446744073709551552\n", third + b"offset 18446744073709551552 and length 200 end above the ceiling, 1099511627776"),
        (b"64\n256\n128\n", third + b"offset 128 and length 200 share a byte with line 1, object w, component data, offset 64 and length 100"),
        (b"256\n256\n64\n", third + b"offset 64 and length 200 share a byte with line 1, object w, component data, offset 256 and length 100"),
        (b"64\n64\n", b"object \\0a\\5c, component : has no offset: the plan's lines are 2"),
        (b"", b"object w, component data: has no offset: the plan's lines are 0"),
        (b"64\n64\n256\n512\n576\n", b"line 4: offsets are left over: the file's components are 3, the plan's lines 5"),
        (b"64\n7\n128\n512\n", second + b"offset 7 is no multiple of 64"),
    ]
    put("kept.zt", b"old")
    for text, words in ways:
        put("refused.plan", text)
        for output in ("kept.zt", "new.zt", "-"):
            troubled(b"refused.plan: refused 27 PLAN, " + words, "copy", "--plan", "refused.plan", "rows.zt", "-o", output, status=1)
    # The empty one may lie anywhere; ends are just at the ceiling, and one past.
    put("good.plan", b"256\n64\n0000000448\n")
    done("copy", "--plan", "good.plan", "--ceiling", "648", "rows.zt", "-o", "planned.zt")
    laid_by("rows.zt", [256, 64, 448])
    line = b"good.plan: refused 27 PLAN, " + third + b"offset 448 and length 200 end above the ceiling, 647"
    troubled(line, "copy", "--plan", "good.plan", "--ceiling", "647", "rows.zt", "-o", "kept.zt", status=1)
    put("short.plan", b"64\n")
    line = b"short.plan: refused 27 PLAN, object m, component values: has no offset: the plan's lines are 1"
    troubled(line, "import", "--plan", "short.plan", "first.zt", "-o", "kept.zt", status=1)
    expect((content("kept.zt"), os.path.exists(os.path.join(WORK, "new.zt"))), (b"old", False))
    nothing_left(WORK)


def finding_of(part, blob):
    """What follows a component's line on the panel."""
    if part["dtype"] != "f32" or part["type"] is not None or len(blob) % 4:
        return ""
    numbers = struct.unpack(f"<{len(blob) // 4}f", blob)
    real = [number for number in numbers if number == number]
    if not numbers:
        return " empty"
    count = len(numbers) - len(real)
    # Of equal numbers, as the two zeros, min and max keep the first.
    return f" min {min(real):.8e} max {max(real):.8e} nan {count}" if real else f" nan {count}"


def panel_of(path, *words):
    full, whole = told("show", "--json", path, *words), content(path)
    things = full["objects"]
    lines = [f"objects {len(things)} components {sum(len(thing['components']) for thing in things)}"]
    for thing in things:
        lines.append(f"object {shown(thing['name'])} {shown(thing['format'])}")
        for part in thing["components"]:
            blob = whole[part["offset"] : part["offset"] + part["length"]]
            lines.append(f"blob {shown(part['name'])} {part['dtype']} {part['offset']} {part['length']}{finding_of(part, blob)}")
    inside = covered([(part["offset"], part["length"]) for thing in things for part in thing["components"]])
    start, manifest = full["manifest"]["offset"], full["manifest"]["length"]
    lines.append(f"bytes frame {len(whole) - start + 8 - manifest} manifest {manifest} inside {inside} between {start - 8 - inside}")
    return "".join(line + "\n" for line in lines).encode()


BITS = (0, 0x80000000, 1, 0x80000001, 0x7F7FFFFF, 0xFF7FFFFF, 0x7F800000, 0xFF800000, 0x7FC00000, 0xFF800001, 0x3F800000, 0xBFA00000, 0x4B7FFFFF, 0x00800000)


def numbers_sample():
    """f32 of every kind, alone and in pairs in both orders, many at random; and components of which no finding is due."""
    chance = random.Random(1)
    lists = [[], *([bits] for bits in BITS), *([a, b] for a in BITS for b in BITS), *([chance.getrandbits(32) for _ in range(count)] for count in (3, 17, 5000))]
    parts, blobs = [], b""
    for bits in lists:
        parts.append(sample.component("f32", 64 + len(blobs), 4 * len(bits)))
        blobs += struct.pack(f"<{len(bits)}I", *bits) + bytes(-4 * len(bits) % 64)
    for length, dtype, more in ((7, "f32", {}), (8, "f32", {"type": "complex64"}), (8, "f32", {"type": ""}), (8, "f64", {}), (8, "u8", {})):
        parts.append(sample.component(dtype, 64, length, **more))
    things = [(f"o {i}", sample.thing([], "any", [(str(j), part) for j, part in enumerate(parts[i : i + 16])])) for i in range(0, len(parts), 16)]
    return sample.file(things, blobs)


def try_panel():
    put("numbers.zt", numbers_sample())
    text = done("panel", "numbers.zt")
    expect(text, panel_of("numbers.zt"))
    for words in (b" empty\n", b" nan 1\n", b" min -inf max inf nan 0\n", b" min -0.00000000e+00 max -0.00000000e+00 nan 0\n", b" max 3.40282347e+38 nan 1\n", b" min 1.40129846e-45 "):
        expect(words in text, True, words)
    for path in ["known.zt", "none.zt", *sound_files(16)]:
        expect(done("panel", path), panel_of(path), path)
    for path in ["first.zt", *sound_files(8, first_files)]:
        expect(done("panel", "--layout", "1.0", path), panel_of(path, "--layout", "1.0"), path)
    expect(done("panel", "-", input=content("numbers.zt")), text)
    # The longest lines, beside the shortest names, on as many rows as there may be.
    parts = [(chr(97 + i), sample.component("f32", 64, 12)) for i in range(16)]
    put("widest.zt", sample.file([(f"{i:x}", sample.thing([], "", parts)) for i in range(1024)], struct.pack("<3I", 0xFF7FFFFF, 0xFF7FFFFE, 0xFFFFFFFF)))
    expect(done("panel", "widest.zt"), panel_of("widest.zt"))


def try_panels_of_several_files():
    put("short.zt", b"ZTEN1000")
    put(" odd\n.zt", content("known.zt"))
    status, said, trouble = zt("panel", "known.zt", "short.zt", "none.zt", " odd\n.zt")
    expect(said, b"known.zt:\n" + panel_of("known.zt") + b"none.zt:\n" + panel_of("none.zt") + b"\\20odd\\0a.zt:\n" + panel_of("known.zt"))
    expect((status, trouble), (1, b"zt: short.zt: refused 1 SHORT, object 0, component 0: file under 24 bytes\n"))
    status, said, trouble = zt("panel", "short.zt", "no.zt", "known.zt")
    expect((status, said), (2, b"known.zt:\n" + panel_of("known.zt")))
    expect(trouble.splitlines()[1:], [b"zt: no.zt: No such file or directory"])


def renamed(names, attributes=None):
    """A file whose objects have these names, each with two components that share bytes."""
    parts = lambda name: [("a", sample.component("u8", 64, len(name))), ("b", sample.component("u8", 64, 0))]
    more = {} if attributes is None else {"attributes": attributes}
    return sample.file([(name, sample.thing([], "any", parts(name))) for name in names], bytes(range(64)), author="unknown", **more)


NOT_COMPARED = b"zt: digests and attributes are not compared\n"


def differences(first, second, first_layout="1.2.0", second_layout="1.2.0"):
    """The lines that a comparison is due, from what both files show."""
    whole = [content(first), content(second)]
    sides = [told("show", "--json", first, "--layout", first_layout)["objects"], told("show", "--json", second, "--layout", second_layout)["objects"]]
    by_name = [{thing["name"]: thing for thing in side} for side in sides]
    lines = []
    for thing in sides[0]:
        other = by_name[1].get(thing["name"])
        lines += object_differences(whole, thing, other) if other else [f"- object {shown(thing['name'])}"]
    return lines + [f"+ object {shown(thing['name'])}" for thing in sides[1] if thing["name"] not in by_name[0]]


def valued(text):
    return "-" if text is None else "\\" if text == "" else "\\2d" if text == "-" else shown(text)


def object_differences(whole, old, new):
    parts = [{part["name"]: part for part in thing["components"]} for thing in (old, new)]
    name, values, lines = shown(old["name"]), [], []
    both = {key: component_differences(whole, part, parts[1][key]) for key, part in parts[0].items() if key in parts[1]}
    for part in parts[0]:
        if part not in parts[1]:
            lines.append(f"- blob {name} {shown(part)}")
        elif both[part]:
            lines.append(f"~ blob {name} {shown(part)}: " + ", ".join(words for _, words in both[part]))
    lines += [f"+ blob {name} {shown(part)}" for part in parts[1] if part not in parts[0]]
    if old["shape"] != new["shape"]:
        values.append("shape {} -> {}".format(*(str(thing["shape"]).replace(" ", "") for thing in (old, new))))
    if old["format"] != new["format"]:
        values.append(f"format {valued(old['format'])} -> {valued(new['format'])}")
    values += ["component names"] * (set(parts[0]) != set(parts[1]))
    kinds = {kind for found in both.values() for kind, _ in found}
    values += [kind + "s" for kind in ("dtype", "type", "byte") if kind in kinds]
    return [f"~ object {name}: " + ", ".join(values), *lines] if values else []


def component_differences(whole, old, new):
    blobs = [bytes_of[part["offset"] : part["offset"] + part["length"]] for bytes_of, part in zip(whole, (old, new))]
    found = [(key, f"{key} {valued(old[key])} -> {valued(new[key])}") for key in ("dtype", "type") if old[key] != new[key]]
    shorter = min(map(len, blobs))
    places = [i for i in range(shorter) if blobs[0][i] != blobs[1][i]] if blobs[0] != blobs[1] else []
    if len(blobs[0]) != len(blobs[1]):
        found.append(("byte", f"length {len(blobs[0])} -> {len(blobs[1])}"))
    count = len(places) + max(map(len, blobs)) - shorter
    return found + [("byte", f"bytes from {min([*places, shorter])} on, {count} differ")] * (count > 0)


def compared(first, second, *words, **more):
    status, said, trouble = zt("diff", first, second, *words)
    wanted = differences(first, second, **more)
    expect((said.decode().splitlines(), status, trouble), (wanted, 1 if wanted else 0, NOT_COMPARED), (first, second))
    return wanted


def changed_samples():
    """A model, and the same with changes of every kind."""
    odd = "a b\\\n\u202e"
    part = sample.component
    old = [
        ("same", sample.thing([3], "dense", [("data", part("f32", 64, 12))])),
        ("gone", sample.thing([], "any", [])),
        (odd, sample.thing([2, 3], "any", [("data", part("f32", 64, 12, type="-")), (odd, part("u8", 64, 4)), ("last", part("u8", 128, 0))])),
        ("", sample.thing([], "", [("", part("u8", 64, 12)), ("t", part("u8", 64, 0))])),
    ]
    new = [
        ("new", sample.thing([9], "any", [])),
        ("", sample.thing([0] * 8, "x y", [("t", part("u8", 64, 0, type="")), ("", part("i8", 64, 8))])),
        (odd, sample.thing([2, 3], "any", [("last", part("u8", 64, 5)), ("more " + odd, part("u8", 64, 4)), ("data", part("f16", 128, 12))])),
        ("same", sample.thing([3], "dense", [("data", part("f32", 64, 12, digest="crc32c:0x0"))], attributes=sample.Pairs([("a", 1)]))),
    ]
    return sample.file(old, b"twelve bytes" + bytes(52)), sample.file(new, b"twelve bytes" + bytes(52) + b"twelve BYTES", attributes=sample.Pairs())


def try_diff():
    old, new = changed_samples()
    put("old.zt", old)
    put("new.zt", new)
    lines = compared("old.zt", "new.zt")
    expect(lines[0], "- object gone")
    expect(lines[1], "~ object a\\20b\\5c\\0a\\e2\\80\\ae: component names, dtypes, types, bytes")
    expect(lines[2], "~ blob a\\20b\\5c\\0a\\e2\\80\\ae data: dtype f32 -> f16, type \\2d -> -, bytes from 7 on, 5 differ")
    expect(lines[-3:], ["~ blob  : dtype u8 -> i8, length 12 -> 8, bytes from 8 on, 4 differ", "~ blob  t: type - -> \\", "+ object new"])
    expect(lines[-4], "~ object : shape [] -> [0,0,0,0,0,0,0,0], format \\ -> x\\20y, dtypes, types, bytes")
    expect(len(compared("new.zt", "old.zt")), len(lines))
    expect(compared("old.zt", "old.zt"), [])
    expect(zt("diff", "-", "new.zt", input=old)[1].decode().splitlines(), lines)
    put("thousand.zt", renamed([f"o {i}" for i in range(1024)]))
    expect(len(compared("thousand.zt", "none.zt")), 1024)
    expect(len(compared("none.zt", "thousand.zt")), 1024)


def try_diff_of_many():
    sound = sound_files(60)
    for first, second in zip(sound, sound[1:]):
        compared(first, second)
    for path in sound[:6]:
        expect(compared(path, path), [])
        done("copy", path, "-o", "copy.zt")
        expect(compared(path, "copy.zt"), [], "places aren't differences")
    for path in ["first.zt", *sound_files(8, first_files)]:
        imported(path, "imported.zt")
        expect(compared(path, "imported.zt", "--first-layout", "1.0", first_layout="1.0"), [], path)
        expect(compared("imported.zt", path, "--second-layout=1.0", second_layout="1.0"), [], path)
        expect(compared(path, path, "--layout", "1.0", first_layout="1.0", second_layout="1.0"), [], path)
        compared(path, "old.zt", "--layout", "1.0", "--second-layout", "1.2.0", first_layout="1.0")


def try_diff_of_refused_files():
    """Status 1 says that files differ, so that a refusal is 2."""
    short = b"short.zt: refused 1 SHORT, object 0, component 0: file under 24 bytes"
    put("short.zt", b"ZTEN1000")
    troubled(short, "diff", "short.zt", "first.zt")
    troubled(short, "diff", "known.zt", "short.zt")
    troubled(b"first.zt: refused 3 FOOTER, object 0, component 0: last 8 wrong" + AS_FIRST, "diff", "known.zt", "first.zt")
    troubled(b"no.zt: No such file or directory", "diff", "known.zt", "no.zt")
    troubled(b"-: standard input can be read only once", "diff", "-", "-", input=content("known.zt"))


WHOSE = {
    (False, False): b"no root attributes; neither file has any",
    (True, False): b"root attributes are the first file's; the second has none",
    (False, True): b"root attributes are the second file's; the first has none",
    (True, True): b"root attributes are the first file's; the second's are not carried over",
}


def merged(first, second, *words, layouts=("1.2.0", "1.2.0")):
    """merged.zt, which must be what both describe, as the writer has it."""
    (one, things), (other, more) = (described(path, "--layout", layout) for path, layout in zip((first, second), layouts))
    trouble = [b"zt: merged.zt: " + WHOSE[one is not None, other is not None]]
    trouble += [b"zt: " + path.encode() + b": " + NOT_CARRIED for path, layout in zip((first, second), layouts) if layout == "1.0"]
    expect(zt("merge", first, second, "-o", "merged.zt", *words), (0, b"", b"\n".join(trouble) + b"\n"), (first, second))
    expect(described("merged.zt"), (other if one is None else one, things + more), (first, second))
    expect(done("copy", "merged.zt", "-o", "-"), content("merged.zt"), (first, second))


def try_merge():
    put("left.zt", renamed(["a", "a b", ""]))
    put("right.zt", renamed(["b", "c\n"]))
    merged("left.zt", "right.zt")
    merged("right.zt", "left.zt")
    merged("none.zt", "left.zt")
    merged("left.zt", "none.zt")
    merged("none.zt", "none.zt")
    expect(content("merged.zt"), content("none.zt")[:8] + content("none.zt")[64:], "48 bytes")
    for first in (None, sample.Pairs(), sample.Pairs([("x", 1)])):
        for second in (None, sample.Pairs([("y", 2)])):
            put("left.zt", renamed(["a"], first))
            put("right.zt", renamed(["b"], second))
            merged("left.zt", "right.zt")
    for path in sound_files(12):
        put("right.zt", renamed(["a name that no other file has"], sample.Pairs()))
        merged(path, "right.zt")
        merged("right.zt", path)
    for path in ["first.zt", *sound_files(6, first_files)]:
        merged(path, "right.zt", "--first-layout", "1.0", layouts=("1.0", "1.2.0"))
        merged("right.zt", path, "--second-layout", "1.0", layouts=("1.2.0", "1.0"))
    merged("none-first.zt" if put("none-first.zt", sample.first_file([])) else None, "first.zt", "--layout", "1.0", layouts=("1.0", "1.0"))
    # Grouping and the output's place.
    for name in "abc":
        put(f"{name}.zt", renamed([name]))
    merged("a.zt", "b.zt")
    expect(zt("merge", "merged.zt", "c.zt", "-o", "merged.zt")[0], 0, "a file may take its own place")
    by_left = content("merged.zt")
    merged("b.zt", "c.zt")
    expect(zt("merge", "a.zt", "merged.zt", "-o", "-")[1], by_left)
    expect(zt("merge", "-", "merged.zt", "-o", "-", input=content("a.zt"))[1], by_left)


def try_merges_that_are_refused():
    put("kept.zt", b"old")
    put("left.zt", renamed(["x", "a b", "c", "d"]))
    put("right.zt", renamed(["y", "d", "a b"]))
    put("other.zt", renamed(["c"]))
    put("short.zt", b"ZTEN1000")
    names = [f"o{i}" for i in range(600)]
    put("many.zt", renamed(names))
    put("more.zt", renamed([name + "'" for name in names]))
    count = refusals()[15][1].encode()
    for output in ("kept.zt", "none-new.zt", "-"):
        to = output.encode()
        troubled(to + b": refused 11 TWICE: both files have an object d, and 1 more that both have", "merge", "left.zt", "right.zt", "-o", output, status=1)
        troubled(to + b": refused 11 TWICE: both files have an object c", "merge", "other.zt", "left.zt", "-o", output, status=1)
        troubled(to + b": refused 15 COUNT, object 0, component 0: " + count, "merge", "many.zt", "more.zt", "-o", output, status=1)
        troubled(b"short.zt: refused 1 SHORT, object 0, component 0: file under 24 bytes", "merge", "short.zt", "no.zt", "-o", output, status=1)
        troubled(b"no.zt: No such file or directory", "merge", "left.zt", "no.zt", "-o", output)
    expect((content("kept.zt"), os.path.exists(os.path.join(WORK, "none-new.zt"))), (b"old", False))
    troubled(b"kept.zt: File too large", "merge", "left.zt", "none.zt", "-o", "kept.zt", preexec_fn=small_files)
    troubled(b"no/where.zt: No such file or directory", "merge", "left.zt", "none.zt", "-o", "no/where.zt")


def bad_objects():
    """Objects, and of each the refusal that it gets, its component, and why, as the sentence has it; none of those that are sound."""
    part = sample.component
    return [
        ("first", sample.thing([3], "dense", [("data", part("f32", 64, 12))]), None),
        ("bad length", sample.thing([3], "dense", [("more", part("u8", 64, 1)), ("data", part("f32", 64, 8))]), (23, 1, "length rule broken")),
        ("kept", sample.thing([], "any", [("a", part("u8", 64, 12))], attributes=sample.Pairs([("k", 1)])), None),
        ("\n\\", sample.thing([3], "dense", [("data", part("f33", 64, 12))]), (16, 0, "not one of the 13 dtypes")),
        ("", sample.thing([], "any", [("a", part("u8", 64, 12)), ("b", part("u8", 65, 0))]), (19, 1, "offset not a multiple of 64")),
        ("no", sample.thing([], "any", [("a", part("u8", 64, 12)), ("a", part("u8", 64, 0))]), (11, 0, "a known field or a name repeated")),
        ("far", sample.thing([], "any", [("a", part("u8", 1 << 20, 12))]), (20, 0, "offset under 64, or offset + length over the manifest start")),
        ("deep", sample.thing([1] * 9, "any", []), (15, 0, "over 1024 objects, 16 components an object or rank 8")),
        ("last", sample.thing([], "any", []), None),
    ]


def rescued(path, *words):
    """Status, and what is said on standard error; rescued.zt has what was kept, as the writer has it."""
    status, said, trouble = zt("rescue", path, "-o", "rescued.zt", *words)
    expect(said, b"")
    if status < 2:
        expect(done("check", "rescued.zt"), b"rescued.zt: sound\n", path)
        expect(done("copy", "rescued.zt", "-o", "-"), content("rescued.zt"), path)
    return status, trouble.decode().splitlines()


def dropped_lines(path, things):
    known = refusals()
    lines = [f"zt: {path}: dropped object {shown(name)}: {why[0]} {known[why[0]][0]}, component {why[1]}: {why[2]}" for name, _, why in things if why]
    return lines + [f"zt: {path}: objects kept {len(things) - len(lines)}, dropped {len(lines)}"]


def try_rescue():
    things = bad_objects()
    put("bad.zt", sample.file([thing[:2] for thing in things], b"twelve bytes", author="unknown", attributes=sample.Pairs([("r", 2)])))
    put("good.zt", sample.file([thing[:2] for thing in things if not thing[2]], b"twelve bytes", attributes=sample.Pairs([("r", 2)])))
    expect(rescued("bad.zt"), (1, dropped_lines("bad.zt", things)))
    expect(described("rescued.zt"), described("good.zt"))
    expect(zt("rescue", "-", "-o", "-", input=content("bad.zt"))[:2], (1, content("rescued.zt")))
    expect(rescued("rescued.zt"), (0, []), "a file may take its own place; nothing is dropped twice")
    # All of them bad: what is left is the file's attributes.
    put("bad.zt", sample.file([thing[:2] for thing in things if thing[2]], b"twelve bytes"))
    expect(rescued("bad.zt"), (1, dropped_lines("bad.zt", [thing for thing in things if thing[2]])))
    expect(told("list", "--json", "rescued.zt")["objects"], [])
    # As many as there may be, in a map without a length, so that names are found by steps.
    entries = [(f"o {i}", sample.thing([], "any", [("c", sample.component("u8", 64 + i % 2, 0))])) for i in range(1024)]
    text = sample.item(sample.Pairs([("version", "1.2.0"), ("objects", sample.Pairs())]))[:-1]
    text += b"\xbf" + b"".join(sample.item(part) for pair in entries for part in pair) + b"\xff"
    put("open.zt", sample.MAGIC + bytes(56) + sample.behind(text))
    why = (19, 0, "offset not a multiple of 64")
    expect(rescued("open.zt"), (1, dropped_lines("open.zt", [(name, thing, why if i % 2 else None) for i, (name, thing) in enumerate(entries)])))


def try_rescue_of_many():
    """Of sound files everything; of others the first that is dropped is the one that the reader refuses, in the words of the sentence, or nothing is written."""
    for about, layout in ((files, "1.2.0"), (first_files, "1.0")):
        left_out = [b"fields unknown"] if layout == "1.0" else []
        for path in sound_files(10, about):
            status, lines = rescued(path, "--layout", layout)
            expect((status, len(lines)), (0, len(left_out)), path)
            expect(described("rescued.zt"), described(path, "--layout", layout), path)
        bad = [(path, numbers) for path, numbers in about if numbers[0] >= 8]
        seen = set()
        for path, (number, owner, part) in bad[:: max(1, len(bad) // 120)]:
            sentence = subprocess.run([SECOND, "explain", "1" if layout == "1.0" else "0", path], cwd=WORK, capture_output=True, check=True).stdout.decode().rstrip("\n")
            status, lines = rescued(path, "--layout", layout)
            named = re.fullmatch(r"refused (\d+ [A-Z]+): (.*?); object ([!-~]*?)(; component .*)?; bytes .*", sentence)
            expect((status, lines[0]), (1, f"zt: {path}: dropped object {named[3]}: {named[1]}, component {part}: {named[2]}") if named else (2, lines[0]), path)
            seen.add((number, status))
        expect(len([number for number, status in seen if status == 1]) > 8, True, seen)


def try_rescues_that_are_refused():
    put("kept.zt", b"old")
    put("short.zt", b"ZTEN1000")
    put("twice.zt", sample.file([("a", sample.thing([], "any", [])), ("a", sample.thing([], "any", []))]))
    for output in ("kept.zt", "none-new.zt", "-"):
        troubled(b"short.zt: refused 1 SHORT, object 0, component 0: file under 24 bytes", "rescue", "short.zt", "-o", output)
        troubled(b"twice.zt: refused 11 TWICE, object 0, component 0: a known field or a name repeated", "rescue", "twice.zt", "-o", output)
        troubled(b"first.zt: refused 3 FOOTER, object 0, component 0: last 8 wrong" + AS_FIRST, "rescue", "first.zt", "-o", output)
        troubled(b"no.zt: No such file or directory", "rescue", "no.zt", "-o", output)
    expect((content("kept.zt"), os.path.exists(os.path.join(WORK, "none-new.zt"))), (b"old", False))
    troubled(b"kept.zt: File too large", "rescue", "good.zt", "-o", "kept.zt", preexec_fn=small_files)
    expect(content("kept.zt"), b"old")
    nothing_left(WORK)


def explained(paths, *words):
    """Status, and of each file its sentence and the lines below it."""
    status, said, trouble = zt("explain", *words, *paths)
    expect(trouble, b"")
    found = []
    lines = iter(said.decode().splitlines())
    for line in lines:
        if line.startswith("  "):
            found[-1][1].append(line[2:])
        else:
            expect(line, f"{paths[len(found)]}:")
            found.append((next(lines), []))
    expect(len(found), len(paths))
    return status, found


def try_sentences_against_the_second_program():
    known = refusals()
    for layout, about in (("1.2.0", files), ("1.0", first_files)):
        paths = [path for path, _ in about]
        theirs = subprocess.run([SECOND, "explain", "1" if layout == "1.0" else "0", *paths], cwd=WORK, capture_output=True, check=True).stdout.decode().splitlines()
        status, found = explained(paths, "--layout", layout)
        expect(status, 1)
        expect([sentence for sentence, _ in found], theirs[1::2])
        for (sentence, below), (path, (number, *_)) in zip(found, about):
            expect(sentence.split(":")[0], f"refused {number} {known[number][0]}" if number else "accepted", path)
            shown_span(path, sentence, below)
            is_broken(number, sentence, below)


def shown_span(path, sentence, below):
    """The first line below has the span's bytes, 32 at most."""
    span = re.search(r"; bytes (\d+) to (\d+)$", sentence)
    if not span:
        expect([line for line in below if line.startswith("bytes")], [], path)
        return
    bytes_of = content(path)[int(span[1]) : int(span[2]) + 1]
    expect(below[0], "bytes " + bytes_of[:32].hex(" ") + (" .." if len(bytes_of) > 32 else ""), path)


# The line of numbers of each refusal that compares some, and whether they break its rule.
COMPARED = {
    1: (r"length (\d+); asked: at least (\d+)", lambda found, least: found < least),
    4: (r"manifest size (\d+); asked: at most (16777216)", lambda found, most: found > most),
    5: (r"manifest size (\d+); asked: at least 1, at most (\d+)", lambda found, most: found == 0 or found > most),
    15: (r"(?:objects|tensors|components|rank) (\d+); asked: at most (1024|16|8)", lambda found, most: found > most),
    19: (r"offset (\d+); asked: a multiple of (64)", lambda found, by: found % by != 0),
    20: (
        r"offset (\d+), length (\d+), end (?:\d+|above 2\^64 - 1); asked: offset at least 64, end at most (\d+), the manifest start",
        lambda offset, length, start: offset < 64 or offset + length > start,
    ),
    21: (r"rank (\d+); asked: (2)", lambda found, asked: found != asked),
}


def is_broken(number, sentence, below):
    if number == 23:
        line = below[1]
        found = re.fullmatch(r"length (\d+); asked: (?:(a multiple of )?(\d+)|a number that 64 bits don't hold)", line)
        expect(found is not None, True, line)
        if found[3]:
            expect(int(found[1]) % int(found[3]) != 0 if found[2] else found[1] != found[3], True, line)
    if number in COMPARED:
        form, breaks = COMPARED[number]
        found = [match for line in below if (match := re.fullmatch(form, line))]
        expect(len(found), 1, (sentence, below))
        expect(breaks(*map(int, found[0].groups())), True, below)


def one_object(shape, form, parts, **more):
    return sample.file([("ear", sample.thing(shape, form, parts))], bytes(256), **more)


EXPLAINED = [
    (lambda: one_object([3], "dense", [("data", sample.component("f32", 64, 8))]), "23 LENGTH", ["length 8; asked: 12"]),
    (lambda: one_object([3], "dense", [("data", sample.component("f32", 64, 8, type="complex64"))]), "23 LENGTH", ["length 8; asked: 24"]),
    (lambda: one_object([3], "dense", [("data", sample.component("f32", 64, 7, type="odd"))]), "23 LENGTH", ["length 7; asked: a multiple of 4"]),
    (lambda: one_object([1 << 32, 1 << 32, 3], "dense", [("data", sample.component("u8", 64, 0))]), "23 LENGTH", ["length 0; asked: a number that 64 bits don't hold"]),
    (lambda: one_object([1 << 63, 0, 1 << 63], "dense", [("data", sample.component("u8", 64, 1))]), "23 LENGTH", ["length 1; asked: 0"]),
    (lambda: sparse(3, 24, 24), "23 LENGTH", ["length 3; asked: a multiple of 2"]),
    (lambda: sparse(6, 16, 24), "23 LENGTH", ["length 16; asked: 24"]),
    (lambda: sparse(6, 24, 32), "23 LENGTH", ["length 32; asked: 24"]),
    (lambda: one_object([2, 9, 4], "sparse_coo", [("coords", sample.component("u64", 64, 64)), ("values", sample.component("f16", 64, 6))]), "23 LENGTH", ["length 64; asked: 72"]),
    (lambda: one_object([2], "any", [("a b", sample.component("u8", 65, 8))]), "19 ALIGN", ["offset 65; asked: a multiple of 64"]),
    (lambda: one_object([2], "any", [("", sample.component("u8", 256, 65))]), "20 BOUNDS", ["offset 256, length 65, end 321; asked: offset at least 64, end at most 320, the manifest start"]),
    (lambda: one_object([2], "any", [("", sample.component("u8", 0, 4))]), "20 BOUNDS", ["offset 0, length 4, end 4; asked: offset at least 64, end at most 320, the manifest start"]),
    (lambda: one_object([2], "any", [("", sample.component("u8", 64, (1 << 64) - 1))]), "20 BOUNDS", ["offset 64, length 18446744073709551615, end above 2^64 - 1; asked: offset at least 64, end at most 320, the manifest start"]),
    (lambda: one_object([2] * 9, "any", []), "15 COUNT", ["rank 9; asked: at most 8"]),
    (lambda: one_object([], "any", [(str(i), sample.component("u8", 64, 0)) for i in range(17)]), "15 COUNT", ["components 17; asked: at most 16"]),
    (lambda: sample.file([(str(i), sample.thing([], "any", [])) for i in range(1025)]), "15 COUNT", ["objects 1025; asked: at most 1024"]),
    (lambda: one_object([2, 2, 2], "sparse_csr", []), "21 RANK", ["rank 3; asked: 2"]),
    (lambda: one_object("2", "any", []), "8 KIND", ["found text"]),
    (lambda: one_object([2], "any", [("a", sample.component(7, 64, 0))]), "8 KIND", ["found an unsigned integer"]),
    (lambda: one_object([2], "any", [("a", sample.component("f33\n", 64, 0))]), "16 DTYPE", ["text f33\\0a"]),
    (lambda: one_object([2], "any", [("a", sample.component("x" * 65, 64, 0))]), "16 DTYPE", ["text " + "x" * 64 + " .."]),
    (lambda: one_object([2], "any", [("a", sample.component("float32", 64, 0))]), "16 DTYPE", ["text float32", "hint: that is a dtype's name in layout 1.0"]),
    (lambda: one_object([2], "any", [("a", sample.component("u8", 64, 0, encoding="zstd"))]), "17 ENCODING", ["text zstd"]),
    (lambda: sample.MAGIC + sample.behind(sample.item(sample.Pairs([("version", "2.0"), ("objects", sample.Pairs())]))), "14 MAJOR", ["text 2.0"]),
    (
        lambda: sample.MAGIC + sample.behind(sample.item(sample.Pairs([("version", "1.0"), ("tensors", sample.Pairs())]))),
        "12 MISSING",
        ["hint: the root has the fields of layout 1.0 in a frame that isn't that layout's"],
    ),
    (lambda: b"GGUF\3\0\0\0" + bytes(100), "2 HEADER", ["hint: it begins as a GGUF file does"]),
    (lambda: struct.pack("<Q", 14) + b'{"w": "x"}    ' + bytes(40), "2 HEADER", ["hint: it begins as a safetensors file does"]),
    (lambda: struct.pack("<Q", 99) + b'{"w": "x"}    ' + bytes(40), "2 HEADER", []),
    (lambda: sample.named("w")[:-20], "3 FOOTER", ["hint: it begins as a .zt file does, and doesn't end as one: perhaps it was cut short"]),
    (lambda: sample.named("w")[:20], "1 SHORT", ["length 20; asked: at least 24", "hint: it begins as a .zt file does, and doesn't end as one: perhaps it was cut short"]),
    (first_sample, "3 FOOTER", ["hint: it is sound as layout 1.0; --layout says which is meant"]),
    (lambda: first_sample().replace(b"float32", b"float33"), "3 FOOTER", ["hint: its frame is that of layout 1.0; --layout says which is meant"]),
]


def sparse(values, indices, indptr):
    return one_object([2, 9], "sparse_csr", [("values", sample.component("f16", 64, values)), ("indices", sample.component("u64", 64, indices)), ("indptr", sample.component("u64", 64, indptr))])


def try_what_stands_below_a_sentence():
    for make, which, wanted in EXPLAINED:
        put("explained.zt", make())
        status, said, trouble = zt("explain", "explained.zt")
        sentence, *below = said.decode().splitlines()
        expect((status, trouble, sentence.split(":")[0]), (1, b"", "refused " + which))
        expect([line[2:] for line in below if not line.startswith("  bytes ")], wanted, sentence)
    put("first-explained.zt", first_sample().replace(b"float16", b"float32"))
    lines = zt("explain", "--layout", "1.0", "first-explained.zt")[1].decode().splitlines()
    expect((lines[0].split(";")[0], lines[2]), ("refused 23 LENGTH: length rule broken", "  length 6; asked: a multiple of 4"))
    put("first-explained.zt", first_sample().replace(b"float16", b"f16-no!"))
    expect(zt("explain", "--layout", "1.0", "first-explained.zt")[1].decode().splitlines()[2:], ["  text f16-no!"])
    expect(zt("explain", "--layout", "1.0", "known.zt")[1].decode().splitlines()[-1], "  hint: it is sound as layout 1.2.0; --layout says which is meant")


def try_explain():
    put("short.zt", b"ZTEN1000")
    put("no-number.zt", one_object([2], "any", [("a b", sample.component("u8", 65, 8))]))
    expect(done("explain", "known.zt"), b"accepted\n")
    expect(done("explain", "-", input=content("known.zt")), b"accepted\n")
    line = b"refused 19 ALIGN: offset not a multiple of 64; object ear; component a\\20b; bytes 401 to 402\n  bytes 18 41\n  offset 65; asked: a multiple of 64\n"
    expect(zt("explain", "no-number.zt"), (1, line, b""))
    status, said, trouble = zt("explain", "known.zt", "no.zt", "no-number.zt", "short.zt")
    expect((status, trouble), (2, b"zt: no.zt: No such file or directory\n"))
    expect(said.startswith(b"known.zt:\naccepted\nno-number.zt:\n" + line + b"short.zt:\nrefused 1 SHORT: "), True)
    # The answer to a table of so many numbers.
    expect(zt("explain", "--room", "27", "known.zt"), (1, b"refused 24 ROOM: lent table too short; 28 numbers needed\n  room 27; asked: at least 28\n", b""))
    expect(done("explain", "--room=28", "known.zt"), b"accepted\n")
    for value in ("", "x", "-1", "18446744073709551616"):
        words = (value or "--room").encode() + b": no room: it is a decimal number of a table's numbers; zt explain --help says how it is called"
        troubled(words, "explain", "known.zt", "--room", value)
    for odd in ODD:
        put("odd.zt", sample.file([(odd, sample.thing([3], "any", [(odd, sample.component("f32", 65, 12))]))], b"twelve bytes"))
        sentence = zt("explain", "odd.zt")[1].decode().splitlines()[0]
        expect(re.sub("; bytes .*", "", sentence), f"refused 19 ALIGN: offset not a multiple of 64; object {shown(odd)}; component {shown(odd)}")


def try_outputs_that_cannot_be():
    os.mkdir(os.path.join(WORK, "folder"))
    troubled(b"folder: Is a directory", "copy", "known.zt", "-o", "folder")
    troubled(b"no/where.zt: No such file or directory", "copy", "known.zt", "-o", "no/where.zt")
    troubled(b"/dev/null: is there already, and no regular file", "copy", "known.zt", "-o", "/dev/null")
    troubled(b"n" * 256 + b": File name too long", "copy", "known.zt", "-o", "n" * 256)
    put("kept.zt", b"old")
    troubled(b"kept.zt: File too large", "copy", "known.zt", "-o", "kept.zt", preexec_fn=small_files)
    expect(content("kept.zt"), b"old", "the old file stays")
    nothing_left(WORK)


def try_full_disk():
    disk = os.path.join(WORK, "disk")
    os.mkdir(disk)
    if subprocess.run(["mount", "-t", "tmpfs", "-o", "size=64k", "tmpfs", disk], capture_output=True).returncode:
        untried.append("a full disk: nothing can be mounted here; a limit on the size of files was met instead")
        return
    try:
        put("disk/kept.zt", b"old")
        parts = [("data", sample.component("u8", 64, 100000))]
        put("large.zt", sample.file([("w", sample.thing([100000], "dense", parts))], bytes(100000)))
        for words in (["copy", "large.zt"], ["get", "large.zt", "w", "data"]):
            troubled(b"disk/kept.zt: No space left on device", *words, "-o", "disk/kept.zt")
            expect((content("disk/kept.zt"), os.listdir(disk)), (b"old", ["kept.zt"]))
        done("copy", "known.zt", "-o", "disk/kept.zt")
        expect(content("disk/kept.zt"), content("known.zt"))
    finally:
        subprocess.run(["umount", disk], check=True)


EVERY = (
    *([command, "known.zt"] for command in ("check", "explain", "list", "show", "map", "panel")),
    ["get", "known.zt", "w", "data"],
    ["copy", "known.zt", "-o", "-"],
    ["plan", "known.zt", "--page", "64"],
    ["plan", "known.zt", "--page", "64", "-o", "-"],
    ["list", "--layout", "1.0", "first.zt"],
    ["--help"],
    ["--version"],
)


def try_full_and_closed_outputs():
    for words in EVERY:
        with open("/dev/full", "wb") as full:
            expect(zt(*words, stdout=full), (2, None, b"zt: standard output: No space left on device\n"), words)
        close = ["sh", "-c", 'exec "$@" >&-', "sh"]
        expect(zt(*words, before=close), (2, b"", b"zt: standard output: Bad file descriptor\n"), words)
        reader, writer = os.pipe()
        os.close(reader)
        expect(zt(*words, stdout=writer), (2, None, b"zt: standard output: Broken pipe\n"), words)
        os.close(writer)
    # With every descriptor closed, the file written is none of them; nothing was to be printed, so nothing is wrong.
    expect(zt("copy", "known.zt", "-o", "quiet.zt", before=["sh", "-c", 'exec "$@" >&- 2>&- <&-', "sh"])[0], 0)
    expect(content("quiet.zt"), content("known.zt"))


def try_what_is_no_file():
    troubled(b"no.zt: No such file or directory", "list", "no.zt")
    troubled(b"folder: Is a directory", "show", "folder")
    troubled(b"known.zt/x: Not a directory", "map", "known.zt/x")
    expect(zt("check", "", "known.zt"), (2, b"known.zt: sound\n", b"zt: : No such file or directory\n"))
    put("empty.zt", b"")
    for empty in ("empty.zt", "/dev/null"):
        expect(zt("check", empty)[:2], (1, os.fsencode(empty) + b": refused 1 SHORT, object 0, component 0: file under 24 bytes\n"))
    expect(zt("check", "/proc/self/status")[1], b"/proc/self/status: refused 2 HEADER, object 0, component 0: first 8 wrong\n")


def try_fifo_and_standard_input():
    put("large-in.zt", sample.file([("w", sample.thing([300000], "dense", [("data", sample.component("u8", 64, 300000))]))], bytes(300000)))
    fifo = os.path.join(WORK, "fifo")
    os.mkfifo(fifo)

    def feed():
        with open(fifo, "wb") as into:
            into.write(content("large-in.zt"))

    writer = threading.Thread(target=feed)
    writer.start()
    expect(done("check", "fifo"), b"fifo: sound\n")
    writer.join()
    expect(done("check", "-", input=content("large-in.zt")), b"-: sound\n")
    expect(done("list", "--", "-", input=content("known.zt")), done("list", "known.zt"))
    with open(os.path.join(WORK, "known.zt"), "rb") as of:
        expect(done("check", "-", stdin=of), b"-: sound\n")
    with open(put_at("prefixed", b"prefix" + content("known.zt")), "rb") as of:
        of.seek(6)
        expect(done("check", "-", stdin=of), b"-: sound\n", "standard input in the middle of a file")
    expect(zt("check", "-", "-", input=content("known.zt")), (2, b"-: sound\n", b"zt: -: standard input can be read only once\n"))
    expect(zt("check", "-", before=["sh", "-c", 'exec "$@" <&-', "sh"]), (2, b"", b"zt: -: Bad file descriptor\n"))


def put_at(name, bytes_of):
    return os.path.join(WORK, put(name, bytes_of))


def try_no_permission():
    put("secret.zt", content("known.zt"))
    os.chmod(os.path.join(WORK, "secret.zt"), 0)
    before = []
    if os.getuid() == 0:
        before = ["setpriv", "--reuid=65534", "--regid=65534", "--clear-groups"]
        if subprocess.run([*before, *ZT, "--version"], cwd=WORK, capture_output=True).returncode:
            untried.append("a file without permission: root may read it, and nobody can't run the command here")
            return
    expect(zt("check", "secret.zt", "known.zt", before=before), (2, b"known.zt: sound\n", b"zt: secret.zt: Permission denied\n"))
    troubled(b"secret.zt: Permission denied", "copy", "--plan", "secret.zt", "known.zt", "-o", "mine.zt", before=before)
    os.chmod(WORK, 0o555)
    troubled(b"mine.zt: Permission denied", "copy", "known.zt", "-o", "mine.zt", before=before)
    troubled(b"mine.plan: Permission denied", "plan", "--page", "64", "known.zt", "-o", "mine.plan", before=before)
    os.chmod(WORK, 0o755)


def try_five_gigabytes():
    """Sparse: two components, the second far behind."""
    five = 5 << 30
    path = os.path.join(WORK, "five.zt")
    near = sample.thing([five - 64], "dense", [("data", sample.component("u8", 64, five - 64))])
    far = sample.thing([2], "dense", [("data", sample.component("f32", five, 8))])
    with open(path, "wb") as into:
        into.write(sample.MAGIC)
        into.seek(five)
        into.write(b"far away" + sample.behind(sample.manifest([("w", near), ("end", far)])))
    expect(done("check", "five.zt"), b"five.zt: sound\n")
    expect(done("list", "five.zt").splitlines()[-1], b"blob data f32 %d 8" % five)
    expect(done("get", "five.zt", "end", "data"), b"far away")
    account = told("map", "--json", "five.zt")
    expect((account["components"], account["gaps"], account["length"]), (five - 56, 56, os.path.getsize(path)))
    expect(done("map", "five.zt").splitlines()[0], b"#" * 64)
    text = b"objects 2 components 2\nobject w dense\nblob data u8 64 %d\nobject end dense\nblob data f32 %d 8%s\nbytes frame 24 manifest %d inside %d between 56\n"
    found = finding_of({"dtype": "f32", "type": None}, b"far away").encode()
    expect(done("panel", "five.zt"), text % (five - 64, five, found, account["manifest"], five - 56))
    expect(done("plan", "five.zt", "--page", "4096"), b"64\n%d\n" % five)
    expect(told("show", "--json", "five.zt")["objects"][1]["components"][0]["offset"], five)
    with open(path, "r+b") as into:
        into.truncate(five)
    expect(zt("check", "five.zt")[0], 1)
    os.remove(path)


def try_largest_table():
    parts = [(f"c{i}", sample.component("bool", 64, 0)) for i in range(16)]
    put("most.zt", sample.file([(f"object number {i}", sample.thing([0] * 8, "any", parts)) for i in range(1024)]))
    expect(done("list", "most.zt").splitlines()[0], b"objects 1024 components 16384")
    expect(len(done("show", "most.zt").splitlines()), 4 + 1024 + 16384)
    expect(len(told("show", "--json", "most.zt")["objects"]), 1024)
    done("copy", "most.zt", "-o", "most-copy.zt")
    expect(done("list", "most-copy.zt").count(b"\n"), 1 + 1024 + 16384)
    put("400.zt", sample.file([(f"o{i}", sample.thing([], "any", parts[:1])) for i in range(400)]))
    expect(done("check", "400.zt"), b"400.zt: sound\n")


ODD = ["new\nline", "\x1b[31mred\x1b[0m", "\u202egnp.exe", "\u05d0\u05d1", "\0", "\x7f\x85", '"quoted\\"', "\U0001f600", "\ufffd\uffff", " "]
ODD += ["x" * 20000, "zt: a.zt: sound\nb"]


def try_odd_names():
    for odd in ODD:
        put("odd.zt", sample.named(odd, odd))
        listed, columns, full = done("list", "odd.zt"), done("show", "odd.zt"), done("show", "--json", "odd.zt")
        expect(re.sub(rb"[ -~\n]", b"", listed + columns + full), b"", odd)
        expect(listed.decode().splitlines()[1], f"object {shown(odd)} any")
        expect(columns.count(b"\n"), 6)
        thing = json.loads(full)["objects"][0]
        expect((thing["name"], thing["components"][0]["name"]), (odd, odd))
        expect(done("get", "odd.zt", "--escaped", shown(odd), shown(odd)), b"twelve bytes")


def try_odd_paths():
    good, bad = content("known.zt"), b"ZTEN1000"
    for odd in (b"new\nline.zt", b"\x1b[31m.zt", "\u202egnp.zt".encode(), b"not utf-8 \xff\xc0\xed\xa0\x80.zt", b"back\\slash.zt", b" ", b"-n", b"--json"):
        put(odd, good)
        line = "".join(chr(b) if 33 <= b <= 126 and b != 92 else f"\\{b:02x}" for b in odd)
        expect(done("check", "--", odd), f"{line}: sound\n".encode())
        path = odd.decode("utf-8", "replace") if odd.decode("utf-8", "ignore").encode() == odd else None
        found = told("check", "--json", "--", odd)[0]["file"]
        expect(found if path else found.replace("\ufffd", ""), path or odd.decode("utf-8", "ignore"))
        done("copy", "known.zt", "-o", b"./" + odd)
        put(odd, bad)
        expect(zt("list", "--", odd)[2].count(b"\n"), 1)
        os.remove(os.path.join(os.fsencode(WORK), odd))
        troubled(line.encode() + b": No such file or directory", "list", "--", odd)
    expect(zt("list", b"./a\nb: sound")[2], b"zt: ./a\\0ab:\\20sound: No such file or directory\n")


def try_thousands_of_files():
    os.mkdir(os.path.join(WORK, "many"))
    names = [f"many/{i}.zt" for i in range(4000)]
    for i, name in enumerate(names):
        if i != 2000:
            put(name, b"no" if i == 1000 else sample.named(str(i)))
    status, said, trouble = zt("check", *names)
    expect((status, trouble), (2, b"zt: many/2000.zt: No such file or directory\n"))
    expect([line for line in said.decode().splitlines() if not line.endswith(": sound")], ["many/1000.zt: refused 1 SHORT, object 0, component 0: file under 24 bytes"])
    expect(said.count(b"\n"), 3999)
    status, said, _ = zt("check", "--json", *names)
    verdicts = json.loads(said)
    expect(verdicts[2000], {"file": "many/2000.zt", "sound": None, "trouble": "No such file or directory"})
    sound = [verdict["sound"] for verdict in verdicts]
    expect((status, sound.index(False), sound.count(True)), (2, 1000, 3998))


def try_a_file_that_changes():
    """The command waits for its output to be read; meanwhile the file is written to."""
    reader, writer = os.pipe()
    started = subprocess.Popen([*ZT, "get", "large-in.zt", "w", "data"], cwd=WORK, stdout=writer, stderr=subprocess.PIPE)
    os.close(writer)
    first = os.read(reader, 1)
    os.utime(os.path.join(WORK, "large-in.zt"))
    while os.read(reader, 1 << 20):
        pass
    os.close(reader)
    expect((first, started.communicate()[1], started.returncode), (b"\0", b"zt: large-in.zt: the file changed while it was read\n", 2))


def try_a_file_that_is_cut():
    """As above, but what isn't yet read is gone."""
    put("cut.zt", content("large-in.zt"))
    reader, writer = os.pipe()
    started = subprocess.Popen([*ZT, "get", "cut.zt", "w", "data"], cwd=WORK, stdout=writer, stderr=subprocess.PIPE)
    os.close(writer)
    os.read(reader, 1)
    os.truncate(os.path.join(WORK, "cut.zt"), 0)
    while os.read(reader, 1 << 20):
        pass
    os.close(reader)
    expect(b"zt: cut.zt: the file changed while it was read\n" in started.communicate()[1], True)
    expect(started.returncode, 2)


def try_signals():
    cut = b"zt: a file was cut while it was read, or its disk has no room\n"
    for number, status, words in ((signal.SIGBUS, 2, cut), (signal.SIGTERM, -signal.SIGTERM, b"")):
        reader, writer = os.pipe()
        started = subprocess.Popen([*ZT, "get", "large-in.zt", "w", "data"], cwd=WORK, stdout=writer, stderr=subprocess.PIPE)
        os.close(writer)
        os.read(reader, 1)
        started.send_signal(number)
        said = started.communicate()[1]
        expect((said, started.returncode), (words, status), number)
        os.close(reader)


def try_an_interrupted_copy():
    """Sparse and large, so that it lasts: the signal comes as soon as the temporary file is seen."""
    length = 400 << 20
    parts = [("data", sample.component("u8", 64, length))]
    with open(os.path.join(WORK, "slow.zt"), "wb") as into:
        into.write(sample.MAGIC)
        into.seek(64 + length)
        into.write(sample.behind(sample.manifest([("w", sample.thing([length], "dense", parts))])))
    os.mkdir(os.path.join(WORK, "slowly"))
    put("slowly/kept.zt", b"old")
    started = subprocess.Popen([*ZT, "copy", "slow.zt", "-o", "slowly/kept.zt"], cwd=WORK)
    while started.poll() is None and len(os.listdir(os.path.join(WORK, "slowly"))) < 2:
        time.sleep(0.001)
    started.terminate()
    expect(started.wait(), -signal.SIGTERM)
    expect((content("slowly/kept.zt"), os.listdir(os.path.join(WORK, "slowly"))), (b"old", ["kept.zt"]))


def try_usage():
    commands = done("--commands").decode().split()
    expect(commands, ["check", "explain", "list", "show", "map", "panel", "get", "copy", "import", "plan", "diff", "merge", "rescue"])
    everything = done("--help").decode()
    for command in commands:
        expect(everything.count(f"zt {command} "), 1)
        expect(done(command, "--help").splitlines()[0].decode() in everything, True)
        troubled(f"--no: no such option; zt {command} --help says how it is called".encode(), command, "--no", "x")
        troubled(f"{command}: an operand is missing; zt {command} --help says how it is called".encode(), command)
    with open(os.path.join(HERE, "include/zt.h")) as header:
        version = re.search(r'ZT_LIBRARY_VERSION "(.*)"', header.read())[1]
    expect(done("--version").decode(), f"zt {version}\n")
    troubled(b"a command is missing; zt --help lists them")
    troubled(b"nothing: no such command; zt --help lists them", "nothing")
    troubled(b"b: one operand too many; zt list --help says how it is called", "list", "a", "b")
    troubled(b"copy: -o NEW is missing; zt copy --help says how it is called", "copy", "known.zt")
    troubled(b"import: -o NEW is missing; zt import --help says how it is called", "import", "first.zt")
    troubled(b"x: no layout: there are 1.0 and 1.2.0; zt diff --help says how it is called", "diff", "known.zt", "known.zt", "--second-layout=x")
    troubled(b"diff: an operand is missing; zt diff --help says how it is called", "diff", "known.zt")
    troubled(b"merge: -o NEW is missing; zt merge --help says how it is called", "merge", "known.zt", "known.zt")
    troubled(b"rescue: -o NEW is missing; zt rescue --help says how it is called", "rescue", "known.zt")
    troubled(b"1.1: no layout: there are 1.0 and 1.2.0; zt list --help says how it is called", "list", "--layout", "1.1", "known.zt")
    troubled(b"--layout: no layout: there are 1.0 and 1.2.0; zt list --help says how it is called", "list", "known.zt", "--layout")
    troubled(b"--layout: no such option; zt copy --help says how it is called", "copy", "known.zt", "--layout", "1.0", "-o", "x")
    expect(done("list", "--layout", "1.2.0", "known.zt"), done("list", "known.zt"))
    troubled(b"copy: -o has no path; zt copy --help says how it is called", "copy", "known.zt", "-o")
    troubled(b"copy: --plan has no path; zt copy --help says how it is called", "copy", "known.zt", "-o", "x", "--plan")
    troubled(b"copy: --ceiling goes with --plan; zt copy --help says how it is called", "copy", "known.zt", "-o", "x", "--ceiling", "64")
    troubled(b"plan: --page N is missing; zt plan --help says how it is called", "plan", "known.zt")
    for option, most in (("--page", b"no page: it is a decimal number of bytes, a multiple of 64"), ("--ceiling", b"no ceiling: it is a decimal number of bytes")):
        for value in ("", "x", "-64", "64k", " 64", "1099511627840", "18446744073709551616") + (("0", "63", "65") if option == "--page" else ()):
            line = (value or option).replace(" ", "\\20").encode() + b": " + most + b", 1099511627776 (2^40) at most; zt plan --help says how it is called"
            troubled(line, "plan", "known.zt", "--page", "64", option, value)
    troubled(b"--json: no such option; zt copy --help says how it is called", "copy", "known.zt", "--json", "-o", "x")
    expect(done("list", "known.zt", "--json"), done("list", "--json", "--", "known.zt"))


def try_completion():
    """In a shell whose zt is the command."""
    os.mkdir(os.path.join(WORK, "bin"))
    put("bin/zt", f'#!/bin/sh\nexec "{ZT[0]}" "{ZT[1]}" "$@"\n'.encode())
    os.chmod(os.path.join(WORK, "bin/zt"), 0o755)
    path = {**os.environ, "PATH": f"{WORK}/bin:{os.environ['PATH']}"}
    for words, wanted in ((["zt", "c"], b"check copy\n"), (["zt", "list", "--j"], b"--json\n"), (["zt", "plan", "--p"], b"--plan --page\n"), (["zt", "explain", "--r"], b"--room\n"), (["zt", "list", "quie"], b"quiet.zt\n")):
        script = '. "$0"; COMP_WORDS=("$@"); COMP_CWORD=$(($# - 1)); _zt; echo "${COMPREPLY[*]}"'
        completion = ["bash", "-c", script, os.path.join(HERE, "command/completion.bash"), *words]
        expect(subprocess.run(completion, cwd=WORK, env=path, stdout=subprocess.PIPE, stderr=subprocess.DEVNULL, check=True).stdout, wanted)


files = [*answers("cases"), *answers("made")]
first_files = [*answers("first")]
tried = failed = 0
for name, function in list(globals().items()):
    if name.startswith("try_"):
        tried += 1
        try:
            function()
        except (AssertionError, OSError, ValueError, KeyError, IndexError, subprocess.SubprocessError) as error:
            failed += 1
            print(f"{name[4:].replace('_', ' ')}: {type(error).__name__}: {str(error)[:2000]}")
for words in untried:
    print(f"not tried: {words}")
print(f"the command: {tried - failed} of {tried} as they should be")
sys.exit(failed > 0)
