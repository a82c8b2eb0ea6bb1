"""`nffs check --json`, `nffs map` and `nffs tree` on volumes made by chance, beside document 01's rules on records, fates, contents and damage, as
amended (T-07, T-08, T-14), read a second time.

    check.py PROGRAM [COUNT]

What is live, deleted or an orphan, where it stands, how much is damaged in which area and where, and which reserved bytes and records in no area are
hinted at; of the map every number and every character, of the tree every byte. Volumes hold several versions, missing and looping parents, equal
records in two areas, damaged bits, areas shorter than scratch, scratch with something in it, damaged headers, and headers and inodes whose reserved
byte is not 0. The map is given the areas in an order by chance. A volume is one check. Ends with the count.
"""

import binascii
import json
import random
import struct
import subprocess
import sys
import tempfile
from pathlib import Path

NONE = 0xFFFFFFFF
INODE, BLOCK = 0x925F8BC0, 0x53BA23B9
MAGICS = [struct.pack("<I", INODE), struct.pack("<I", BLOCK)]
AREA_MAGICS = struct.pack("<IIII", 0xB98A31E2, 0x7FB0428C, 0xACE08253, 0xB185FC8E)
CELLS = 48
DIRECTORIES = list(range(1, 6))
FILES = [0x10000000 + i for i in range(5)]
BLOCKS = [0x80000000 + i for i in range(8)]


def check(data):
    return binascii.crc_hqx(data, 0)


def inode(ident, sequence, parent, name, reserved=0):
    front = struct.pack("<IIIIBB", INODE, ident, sequence, parent, reserved, len(name))
    return front + struct.pack("<H", check(front + name)) + name


def block(ident, sequence, owner, previous, data):
    front = struct.pack("<IIIIIH", BLOCK, ident, sequence, owner, previous, len(data))
    return front + struct.pack("<H", check(front + data)) + data


def header(ident, count, length, reserved):
    return AREA_MAGICS + struct.pack("<I", length) + bytes([0, count, reserved, ident])


def other_than_0(chance, likely):
    """A reserved byte: mostly 0."""
    return chance.choice([1, 0x80, 0xFF, chance.randint(1, 255)]) if chance.random() < likely else 0


def record(chance):
    """A record by chance, with its id and sequence."""
    if chance.random() < 0.65:
        ident, sequence = chance.choice(DIRECTORIES + FILES), chance.randint(0, 3)
        reserved = other_than_0(chance, 0.05)
        if chance.random() < 0.25:
            return (ident, sequence), inode(ident, sequence, NONE, b"", reserved)
        name = chance.choice([b"a", b"a", b"a", b"a", b"b", b"b", b"cc", b"d\n", b"\xff", b"a 0", b" a"])
        return (ident, sequence), inode(ident, sequence, chance.choice([0, 0] + DIRECTORIES), name, reserved)
    ident, sequence = chance.choice(BLOCKS), chance.randint(0, 2)
    previous = chance.choice([NONE, NONE] + [other for other in BLOCKS if other != ident])
    return (ident, sequence), block(ident, sequence, chance.choice(FILES), previous, chance.randbytes(chance.randint(1, 30)))


def volume(chance):
    """The bytes of each area, scratch somewhere among them."""
    count = chance.choice([2, 3, 4, 5, 16])
    length = 512 if count == 16 else chance.choice([1024, 2048, 4096])
    kept = [[] for _ in range(count - 1)]
    chance.choice(kept).append(inode(0, 0, NONE, b"", other_than_0(chance, 0.05)))
    known = set()
    twice = chance.random() < 0.2 and count > 2
    for _ in range(chance.randint(0, 18)):
        name, made = record(chance)
        if name not in known:
            known.add(name)
            for area in chance.sample(kept, 2 if twice and chance.random() < 0.2 else 1):
                area.append(made)
    lengths = [length] * count
    if chance.random() < 0.1:
        lengths[-1] = 512
    scratch = chance.randrange(count - 1)
    areas = []
    for i, length in enumerate(lengths):
        ident = 255 if i == scratch else i
        area = header(ident, chance.choice([0, 0, 0, 1, 2, 200, 255]), length, other_than_0(chance, 0.03))
        for made in [] if i == scratch else kept[i - (i > scratch)]:
            area += made if len(area) + len(made) <= length else b""
        area = bytearray(area.ljust(length, b"\xff"))
        if i != scratch and chance.random() < 0.25:
            area[chance.randrange(24, min(300, length))] ^= 1 << chance.randrange(8)
        if chance.random() < 0.1:
            # far from all others, in scratch too
            area[chance.choice([24, length // 2, length - 1, chance.randrange(24, length)])] ^= 1 << chance.randrange(8)
        if chance.random() < 0.05:
            # no header is seen there any more
            area[chance.choice([*range(16), 20])] ^= 1 << chance.randrange(8)
        areas.append(bytes(area))
    return areas


def is_seen(area):
    return area[:16] == AREA_MAGICS and area[20] == 0


def is_valid(area):
    """T-14: a header whose reserved byte is not 0 is none."""
    return is_seen(area) and area[22] == 0


def is_file_area(area):
    return is_valid(area) and area[23] != 255


def acceptable(data):
    """The record at the front: its size, whether it is an inode, and its fields. T-14: an inode's reserved byte is 0."""
    if len(data) >= 20 and data[:4] == MAGICS[0]:
        _, ident, sequence, parent, reserved, size, right = struct.unpack("<IIIIBBH", data[:20])
        name = data[20:20 + size]
        named = size > 0 and parent <= 0x0FFFFFFF
        rule = parent == NONE and size == 0 if ident == 0 else named or parent == NONE
        good = len(name) == size and ident <= 0x7FFFFFFF and not set(b"/\0") & set(name) and rule and reserved == 0
        return (20 + size, True, ident, sequence, parent, name) if good and check(data[:18] + name) == right else None
    if len(data) >= 24 and data[:4] == MAGICS[1]:
        _, ident, sequence, owner, previous, size, right = struct.unpack("<IIIIIHH", data[:24])
        body = data[24:24 + size]
        linked = previous == NONE or previous >= 0x80000000 and previous != ident
        good = len(body) == size and 1 <= size <= 2048 and 0x80000000 <= ident < NONE and 0x10000000 <= owner <= 0x7FFFFFFF and linked
        return (24 + size, False, ident, sequence, owner, previous) if good and check(data[:22] + body) == right else None
    return None


def read(area):
    """The records of an area, and its stretches: where each begins and ends."""
    records, skipped, at = [], [], 24
    while at < len(area):
        found = acceptable(area[at:]) if area[at:at + 4] in MAGICS else None
        if found:
            records.append(found)
            at += found[0]
        else:
            if not skipped or skipped[-1][1] != at:
                skipped.append([at, at])
            skipped[-1][1] = at = at + 1
    if skipped and skipped[-1][1] == len(area):
        skipped[-1][1] = max(skipped[-1][0], len(area.rstrip(b"\xff")))
    return records, [(start, end) for start, end in skipped if end > start]


def newest(records):
    """Of each id the record that counts."""
    counting = {}
    for one in records:
        if one[2] not in counting or counting[one[2]][3] < one[3]:
            counting[one[2]] = one
    return counting


def fates(records):
    """Of each inode id: live, deleted or orphan."""
    counting = newest([one for one in records if one[1]])
    said = {}
    for ident in counting:
        at, seen = ident, set()
        while at in counting and at not in seen and at != 0 and counting[at][4] != NONE:
            seen.add(at)
            at = counting[at][4]
        said[ident] = "live" if at == 0 and 0 in counting else "deleted" if at in counting and at not in seen else "orphan"
    return said


def refusal(areas):
    """Why a volume that is made here does not mount; no area is found where no header is valid."""
    if not any(map(is_valid, areas)):
        return 1
    if sum(is_valid(area) and area[23] == 255 for area in areas) != 1 or not any(map(is_file_area, areas)):
        return 3
    return 0 if 0 in fates([one for area in areas if is_file_area(area) for one in read(area)[0]]) else 7


def starts(areas):
    """Each area with its place in the image."""
    at = 0
    for area in areas:
        yield at, area
        at += len(area)


def hinted(areas):
    """The headers, and in file areas that are not clean the inodes with a right check, whose reserved byte is not 0."""
    reserved = [(at, area) for at, area in starts(areas) if is_seen(area) and not is_valid(area)]
    headers = [(at, len(area), "scratch" if area[23] == 255 else "file", area[23], area[22]) for at, area in reserved]
    inodes = []
    for at, area in starts(areas):
        if is_file_area(area) and read(area)[1]:
            for k in range(len(area) - 19):
                end = k + 20 + area[k + 17]
                if area[k:k + 4] == MAGICS[0] and area[k + 16] and end <= len(area):
                    right = check(area[k:k + 18] + area[k + 20:end]) == int.from_bytes(area[k + 18:k + 20], "little")
                    inodes += [(at + k, int.from_bytes(area[k + 4:k + 8], "little"), area[k + 20:end].hex(), area[k + 16])] if right else []
    return headers, inodes


def gaps(areas):
    """What is in no area that is found, and no header is seen for: each run of it in which records stand."""
    runs = []
    for at, area in starts(areas):
        if not is_seen(area):
            if runs and runs[-1][0] + len(runs[-1][1]) == at:
                runs[-1][1] += area
            else:
                runs.append([at, area])
    return [(at, run) for at, run in runs if read(run)[0]]


def told_gaps(page):
    return [(gap["offset"], gap["length"], gap["records"]) for gap in page["gaps"]]


def told_hints(page):
    headers = [tuple(h[k] for k in ("offset", "length", "kind", "id", "reserved")) for h in page["reserved_headers"]]
    return headers, sorted(tuple(r[k] for k in ("offset", "id", "name_hex", "reserved")) for r in page["reserved_records"])


def first_damage(placed):
    """The first damage stretch of areas that are listed so: where it begins in the image, and its length."""
    found = [(at + start, end - start) for at, area in placed if is_file_area(area) for start, end in read(area)[1]]
    return found[0] if found else (0, 0)


def damage_of(area):
    """Stretches and bytes of a file area."""
    stretches = read(area)[1]
    return [len(stretches), sum(end - start for start, end in stretches)] if is_file_area(area) else [None, None]


def rows_right(page, areas):
    return [[row["stretches"], row["skipped"]] for row in page["areas"]] == [damage_of(area) for area in areas if is_valid(area)]


def wrong(page, areas):
    """What the page says otherwise than the rules, or nothing."""
    first = first_damage([(at, area) for at, area in starts(areas)])
    areas = [area for area in areas if is_valid(area)]
    readings = [read(area) if is_file_area(area) else ([], None) for area in areas]
    said = fates([one for records, _ in readings for one in records])
    of = {fate: sorted(i for i in said if said[i] == fate) for fate in ("live", "deleted", "orphan")}
    entries = sorted(entry["id"] for entry in page["entries"])
    told = page["orphans"] is not None
    checks = {
        "inodes": page["inodes"] == len(said) and page["live"] == len(of["live"]),
        "deleted": not told or page["deleted"] == len(of["deleted"]),
        "orphans": not told or page["orphans"] == len(of["orphan"]),
        "orphaned": not page["orphaned"] or sorted(one["id"] for one in page["orphaned"]) == of["orphan"],
        "entries": len(set(entries)) == len(entries) and set(entries) <= set(of["live"]),
        "all entries": page["ambiguous"] or entries == of["live"],
        "unreached": page["unreached"] == len(of["live"]) - len(entries),
        "damage": [page["stretches"], page["skipped"]] == [sum(filter(None, numbers)) for numbers in zip(*map(damage_of, areas))],
        "first": (page["first_offset"], page["first_length"]) == first,
    }
    return [name for name, holds in checks.items() if not holds]


def size_of(counting, ident):
    """The bytes of a file: its blocks make one chain, from the one that no other names to the one that names none. Otherwise it is broken."""
    blocks = {one[2]: one for one in counting.values() if not one[1] and one[4] == ident}
    ends = [block for block in blocks if all(one[5] != block for one in blocks.values())]
    at, chain = ends[0] if len(ends) == 1 else NONE, []
    while at in blocks and at not in chain:
        chain.append(at)
        at = blocks[at][5]
    return sum(blocks[block][0] - 24 for block in chain) if at == NONE and len(chain) == len(blocks) else "broken"


def entries_of(records):
    """T-07: of each directory what lies in it and is live, in order of names and ids: name, id, and its words in the tree."""
    counting, said = newest(records), fates(records)
    found = {}
    for ident in said:
        if said[ident] == "live" and ident != 0:
            name = counting[ident][5]
            words = name.replace(b"\n", b"/") + (b"" if ident < 0x10000000 else b" " + str(size_of(counting, ident)).encode())
            found.setdefault(counting[ident][4], []).append((name, ident, words))
    return {directory: sorted(entries) for directory, entries in found.items()}


def tree_of(entries, directory=0, depth=1):
    """The lines below a directory. No volume that is made here is so deep that not all are shown."""
    return b"".join(b" " * depth + words + b"\n" + tree_of(entries, ident, depth + 1) for _, ident, words in entries.get(directory, []))


def live_entries(areas):
    """Those of the volume that areas are."""
    return entries_of([one for area in areas if is_file_area(area) for one in read(area)[0]])


def tree_faults(run, entries):
    """What the tree says otherwise."""
    return [] if run("tree") == b"/\n" + tree_of(entries) else ["tree"]


def kind(area):
    return "none" if not is_valid(area) else "scratch" if area[23] == 255 else "file"


def mapped(at, area):
    """An area as the map's JSON has it."""
    records, stretches = read(area)
    skipped = sum(end - start for start, end in stretches)
    is_file = is_file_area(area)
    return {
        "offset": at,
        "length": len(area),
        "kind": kind(area),
        "id": area[23] if is_valid(area) else None,
        "count": area[21] if is_valid(area) else None,
        "records": len(records),
        "free": len(area) - 24 - sum(record[0] for record in records) - skipped,
        "stretches": len(stretches) if is_file else None,
        "skipped": skipped if is_file else None,
        "other": None if is_file else skipped,
        "damage": [{"offset": at + start, "length": end - start} for start, end in stretches] if is_file else [],
    }


def bar(area):
    """An area drawn byte by byte: of the bytes of a cell the most telling is seen."""
    free = mapped(0, area)["free"]
    drawn = bytearray(b"r" * len(area))
    drawn[len(area) - free:] = b"f" * free
    drawn[:24] = b"h" * 24
    for start, end in read(area)[1]:
        drawn[start:end] = b"d" * (end - start)
    letters = dict(zip("Ddhrf", {"file": "XxH=.", "scratch": "~~H-.", "none": "~~?-."}[kind(area)]))
    cells = [set() for _ in range(CELLS)]
    for k, what in enumerate(drawn):
        cells[CELLS * k // len(area)].add(chr(what))
    return "".join(letters["D"] if cell == {"d"} else next(letters[what] for what in "dhrf" if what in cell) for cell in cells)


def map_line(at, area, name=("passed", "over")):
    """An area as a line of the map, in words; one without a header is called so."""
    row = mapped(at, area)
    name = {"file": ["file"], "scratch": ["scratch"], "none": name}[row["kind"]]
    rest = [str(row["skipped"]), "damaged"] if row["skipped"] else ["clean"] if row["kind"] == "file" else [str(row["other"]), "other"]
    header = [str("-" if row[field] is None else row[field]) for field in ("id", "count")]
    return [f"{at}+{len(area)}", *name, *header, str(row["records"]), str(row["free"]), *rest, bar(area)]


def map_faults(run, placed):
    """What the map says otherwise, of areas that are listed so."""
    listed = ["--areas", ",".join(f"{at}:{len(area)}" for at, area in placed)]
    page, text, stretches = (run("map", *words, *listed) for words in (["--json"], [], ["--stretches"]))
    rows = [mapped(at, area) for at, area in placed]
    places = [(place["offset"], place["length"]) for row in rows for place in row["damage"]]
    report = run("report", *listed).splitlines()
    lines = text.splitlines()
    checks = {
        "map": json.loads(page)["areas"] == rows,
        "lines": [line.split() for line in lines[1:-1]] == [map_line(at, area) for at, area in placed],
        "columns": len({len(line) for line in lines[1:-1]}) == 1,
        "stretches": stretches == "".join(f"{at}+{length}\n" for at, length in places),
        "first": len(report) == 1 or report[1].split()[-1] == "{}+{}".format(*first_damage(placed)),
    }
    return [f"{name} of the map" for name, holds in checks.items() if not holds]


def found_faults(run, areas):
    """What the map says otherwise where the areas are found."""
    found = [(at, area) for at, area in starts(areas) if is_valid(area)]
    if not found:
        return []
    expected = [(at, map_line(at, area)) for at, area in found] + [(at, map_line(at, gap, ("not", "in", "list"))) for at, gap in gaps(areas)]
    lines = run("map").splitlines()[1:-1]
    return [] if [line.split() for line in lines] == [line for _, line in sorted(expected)] else ["the map of what is found"]


def main(program, count):
    chance = random.Random(27)
    passed = failed = told = orphans = ambiguous = unmounted = headers = records = turned = unread = lost = broken = spaced = 0
    with tempfile.TemporaryDirectory() as folder:
        image = Path(folder) / "image"
        for k in range(count):
            areas = volume(chance)
            image.write_bytes(b"".join(areas))

            def run_bytes(command, *words):
                return subprocess.run([program, command, image, *words], capture_output=True, timeout=60).stdout

            def run(command, *words):
                return run_bytes(command, *words).decode()

            printed = run("check", "--json")
            page = json.loads(printed)
            expected = refusal(areas)
            if expected or page["refusal"]:
                # the root's record may be the one that was damaged
                faults = [] if page["refusal"] and page["refusal"]["number"] == expected else ["refusal"]
                unmounted += 1
            else:
                entries = live_entries(areas)
                faults = wrong(page, areas) + tree_faults(run_bytes, entries)
                broken += b" broken\n" in tree_of(entries)
                spaced += any(name.startswith(b" ") for inside in entries.values() for name, _, _ in inside)
                told += page["orphans"] is not None
                orphans += bool(page["orphans"])
                ambiguous += bool(page["ambiguous"])
            faults += [] if told_hints(page) == hinted(areas) else ["hints"]
            faults += [] if told_gaps(page) == [(at, len(gap), len(read(gap)[0])) for at, gap in gaps(areas)] else ["gaps"]
            faults += [] if page["status"] or not page["gaps"] else ["status"]
            faults += [] if rows_right(page, areas) else ["damage by area"]
            placed = list(starts(areas))
            chance.shuffle(placed)
            faults += map_faults(run, placed) + found_faults(run, areas)
            turned += first_damage(placed) != first_damage(list(starts(areas)))
            unread += any(read(area)[1] and not is_file_area(area) for area in areas)
            lost += bool(page["gaps"])
            headers += bool(page["reserved_headers"])
            records += bool(page["reserved_records"])
            if faults:
                print(f"FAILED: volume {k}: {', '.join(faults)}\n{printed}")
            passed, failed = passed + (not faults), failed + bool(faults)
    print(f"of {count} volumes {told} told apart, {orphans} with orphans, {ambiguous} with ambiguous paths, {unmounted} that do not mount,")
    print(f"{headers} with hints at headers, {records} at records, {lost} at records in no area, {turned} whose first damage is not that of the lowest")
    print(f"offset, {unread} with some in an area that is not read, {broken} with broken files, {spaced} with names that begin with a space")
    # none of these would be a check of nothing
    failed += min(told, orphans, ambiguous, unmounted, headers, records, turned, unread, lost, broken, spaced) < count // 20
    print(f"{passed} passed, {failed} failed")
    sys.exit(failed > 0)


if __name__ == "__main__":
    main(sys.argv[1], int(sys.argv[2]) if len(sys.argv) > 2 else 300)
