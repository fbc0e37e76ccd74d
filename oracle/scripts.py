"""Replay scripts (docs/REPLAY.md) to compare two programs with: cases of many kinds, each drawn from a seed.

A case is a list of script lines that sets image, plan and log itself, so that cases can follow each
other in one script. It is made for an edge of document 01: its kind says which. Nothing here knows what
the right answers are.
"""

import hashlib
import zlib

SECTOR = 4096
SLOT = 16
MAX32 = 4294967295
MAX48 = 281474976710655
MAX64 = 18446744073709551615

CREDENTIALS = [0x01, 0x02, 0x03, 0x11, 0x12, 0x21, 0x22]
NOT_CREDENTIALS = [0, 4, 16, 19, 32, 35, 0x52, 255]
VALUES = [1, 2, 3, 4, 5, 6, 7, 8]
NOT_VALUES = [0, 9, 17, 255]
WRONG_SIZES = [0, 1, 16, 4095, 4097, 8191, 12289, 65535, 65537, 69632, 131072, 2**32, 2**32 + 4096, MAX64]
CALLS = [
    "open", "put", "put_value", "put_anchor", "format", "get", "value", "anchor", "lamport",
    "needs_migration", "remaining", "load", "spend", "set", "advance_lamport", "program", "erase", "attempt",
]


class Draw:
    """A stream of choices that is the same everywhere for the same seed (splitmix64)."""

    def __init__(self, seed, kind, number):
        self.number = number
        text = f"{seed} {kind} {number}".encode()
        self.state = int.from_bytes(hashlib.sha256(text).digest()[:8], "little")

    def turn(self, items, every=1):
        """Each item in its turn, case after case, or once in so many cases."""
        return items[self.number // every % len(items)]

    def word(self):
        self.state = (self.state + 0x9E3779B97F4A7C15) & MAX64
        z = self.state
        z = ((z ^ (z >> 30)) * 0xBF58476D1CE4E5B9) & MAX64
        z = ((z ^ (z >> 27)) * 0x94D049BB133111EB) & MAX64
        return z ^ (z >> 31)

    def below(self, n):
        return self.word() % n

    def among(self, low, high):
        return low + self.below(high - low + 1)

    def pick(self, items):
        return items[self.below(len(items))]

    def chance(self, percent):
        return self.below(100) < percent

    def bytes(self, n):
        return bytes(self.below(256) for _ in range(n))

    def shuffled(self, items):
        items = list(items)
        for i in range(len(items) - 1, 0, -1):
            j = self.below(i + 1)
            items[i], items[j] = items[j], items[i]
        return items


# ---- slots


def le(n, width):
    return n.to_bytes(width, "little")


def header(seq, version=2, rest=b"\0\0\0", magic=b"P2RC"):
    body = magic + le(seq, 4) + bytes([version]) + rest
    return body + le(zlib.crc32(body), 4)


def slot(seq, record):
    return record + le(zlib.crc32(le(seq, 4) + record), 4)


def counter(cred, allowance, total, at_reset, odd=0):
    return bytes([0x52, cred, allowance, odd]) + le(total, 4) + le(at_reset, 4)


def value(ident, n, odd=0):
    return bytes([0x4C, ident]) + le(odd, 2) + le(n, 8)


def anchor(gen, seq, place, ident=0):
    return bytes([0x41, ident]) + le(gen, 2) + le(seq, 6) + le(place, 2)


TABLE = []
for n in range(256):
    for _ in range(8):
        n = n >> 1 ^ (0xEDB88320 if n & 1 else 0)
    TABLE.append(n)
BY_TOP = {t >> 24: i for i, t in enumerate(TABLE)}


def crc_back(state, data):
    """The CRC register before these bytes, from the register after them."""
    for b in reversed(data):
        i = BY_TOP[state >> 24]
        state = ((state ^ TABLE[i]) << 8 | i ^ b) & MAX32
    return state


def seq_for_ff(before, after):
    """The seq for which before, seq, after have the CRC FFFFFFFF."""
    start = MAX32 ^ zlib.crc32(before)
    return crc_back(crc_back(0, after), bytes(4)) ^ start


# ---- arguments


def some_cred(d):
    return d.pick(CREDENTIALS) if d.chance(93) else d.pick(NOT_CREDENTIALS)


def some_value_id(d):
    return d.pick(VALUES) if d.chance(93) else d.pick(NOT_VALUES)


def some32(d):
    return d.pick([0, 1, 2, 3, 4, 5, 255, 256, 65536, MAX32 - 1, MAX32, d.below(2**32)])


def some64(d):
    return d.pick([0, 1, 2, 3, 5, 255, 256, 2**32 - 1, 2**32, MAX48, MAX48 + 1, MAX64 - 1, MAX64, d.word()])


def some_byte(d):
    return d.pick([0, 1, 2, 3, 5, 8, 254, 255])


def some_state(d):
    """Allowance, total, at-reset: mostly a counter in use."""
    total = some32(d) if d.chance(40) else d.below(12)
    at_reset = some32(d) if d.chance(30) else max(0, total - d.below(4))
    return some_byte(d), total, at_reset


def some_record(d):
    """Twelve bytes of any kind, the odd ones too."""
    kind = d.below(10)
    odd = 0 if d.chance(80) else d.among(1, 255)
    if kind < 4:
        allowance, total, at_reset = some_state(d)
        return counter(some_cred(d), allowance, total, at_reset, odd)
    if kind < 7:
        return value(some_value_id(d), some64(d), odd * 257)
    if kind < 8:
        gen = d.below(3)
        return anchor(gen, d.pick([0, 1, 5, MAX48 - 1, MAX48]), d.below(4), 0 if d.chance(85) else 1)
    tag = d.pick([0, 1, 0x40, 0x4B, 0x53, 0x7F, 0xFE, d.below(255)])
    return bytes([tag, d.below(4)]) + (bytes(10) if d.chance(20) else d.bytes(10))


def some_table(d, count, known=6):
    """Records of different keys; from the one after `known` on, all of kinds that nobody knows."""
    records, keys = [], set()
    while len(records) < count:
        r = some_record(d)
        if len(records) >= known:
            r = bytes([d.among(0x60, 0x7F), d.below(256)]) + r[2:]
        if r[:2] not in keys:
            keys.add(r[:2])
            records.append(r)
    return records


def some_format(d):
    written = d.pick([0, 1, 2, 3, 7, 8])
    places = []
    for i in range(written):
        cred = CREDENTIALS[i % 7] if d.chance(50) else some_cred(d)
        places.append((cred, *some_state(d)))
    if places and d.chance(30):
        places[-1] = (places[0][0], *places[-1][1:])
    count = written if d.chance(70) else d.pick([0, 1, 2, 8, 9, 2**32, 2**32 + 1, MAX64])
    return "format " + " ".join(str(n) for n in [count, *(n for p in places for n in p)])


def some_anchor(d):
    if d.chance(25):
        return f"put_anchor {d.below(3)} 0 0"
    seq = d.pick([0, 1, 2, 5, 6, MAX48 - 1, MAX48, MAX48 + 1, MAX64, d.below(9)])
    return f"put_anchor {d.pick([0, 1, 2, 65535])} {seq} {d.pick([0, 1, 2, 65535])}"


def some_place(d):
    """A sector and a slot: mostly of an image's first sectors, else at an edge or past it."""
    sector = d.below(3) if d.chance(80) else d.pick([15, 16, 2**32, MAX64])
    return sector, d.pick([0, 1, 2, 254, 255]) if d.chance(90) else d.pick([256, 2**32, MAX64])


def some_program(d):
    sector, place = some_place(d)
    data = d.pick([header(d.among(1, 9)), slot(d.among(1, 9), some_record(d)), d.bytes(16), bytes(16), b"\xff" * 16])
    return f"program {sector} {place} {data.hex()}"


def some_call(d, name=None):
    """One call, by name or any, its arguments mostly good."""
    name = name or d.pick(CALLS[1:])
    numbers = {
        "put": lambda: [some_cred(d), *some_state(d)],
        "put_value": lambda: [some_value_id(d), some64(d)],
        "get": lambda: [some_cred(d)],
        "value": lambda: [some_value_id(d)],
        "remaining": lambda: [some_cred(d)],
        "load": lambda: [some_cred(d), d.below(2), some_byte(d)],
        "spend": lambda: [some_cred(d), some_byte(d)],
        "set": lambda: [some_cred(d), some_byte(d)],
        "advance_lamport": lambda: [some64(d)],
        "erase": lambda: [some_place(d)[0]],
        "attempt": lambda: [some_cred(d), some_byte(d), some64(d)],
    }
    if name == "format":
        return some_format(d)
    if name == "put_anchor":
        return some_anchor(d)
    if name == "program":
        return some_program(d)
    words = numbers[name]() if name in numbers else []
    return " ".join([name, *map(str, words)])


WRITES = ["put", "put_value", "put_value", "put_anchor", "spend", "spend", "set", "set", "advance_lamport", "attempt"]


def some_write(d):
    return some_call(d, d.pick(WRITES))


def sure_write(d):
    """A call that writes a record on most logs."""
    cred = d.pick(CREDENTIALS)
    return d.pick([
        f"set {cred} {d.among(9, 90)}",
        f"put {cred} {d.among(1, 9)} {MAX32} {d.below(5)}",
        f"put_value {d.pick([3, 5, 8])} {d.word()}",
        f"put_anchor {d.among(3, 60000)} {d.below(2**48)} {d.below(65536)}",
        f"put_value 2 {MAX64}",
    ])


def every_call(d):
    """Each call once, in any order."""
    return [some_call(d, name) for name in d.shuffled(CALLS)]


# ---- images, plans, logs


class Image:
    def __init__(self, sectors):
        self.sectors = sectors
        self.data = bytearray(b"\xff" * (sectors * SECTOR))

    def put(self, sector, place, data):
        at = sector * SECTOR + place * SLOT
        self.data[at : at + len(data)] = data

    def lines(self):
        """The script lines that make it: runs of bytes other than FF, a slot or so at a time."""
        out = [f"image {len(self.data)}"]
        at, end = 0, len(self.data)
        while at < end:
            if self.data[at] == 0xFF:
                at += 1
                continue
            stop = at
            while stop < end and stop - at < 8000 and self.data[stop : stop + 8] != b"\xff" * len(self.data[stop : stop + 8]):
                stop += 1
            out.append(f"at {at} {self.data[at:stop].hex()}")
            at = stop
        return out


def damage(d, image, sector, place):
    """Bytes that make a slot neither erased nor, but for a chance, valid."""
    n = d.pick([1, 2, 8, 15, 16])
    image.put(sector, place, bytes([d.below(255)]) + d.bytes(n - 1))


def leftovers(d, image, sector, below):
    """What an old sector may hold: nothing, an older log, a cut commit, damage, version 1."""
    kind = d.below(6)
    if kind == 0 or below == 0:
        return
    seq = d.below(below)
    records = some_table(d, d.below(4))
    for i, r in enumerate(records):
        image.put(sector, 1 + i, slot(seq, r))
    if kind == 1:
        image.put(sector, 0, header(seq))
    elif kind == 2:
        image.put(sector, 0, header(seq)[: d.among(1, 15)])
    elif kind == 3:
        image.put(sector, 0, header(MAX32, version=1))
    elif kind == 4:
        damage(d, image, sector, 0)
        image.put(sector, 200, d.bytes(64))


def log_line(state, next_seq, records, count=None):
    count = len(records) if count is None else count
    return " ".join(["log", state, "next", str(next_seq), "count", str(count), *(r.hex() for r in records)])


def active_image(d, sectors, head=None, count=None, seq=None, others=True):
    """An image with a current sector whose head is given; its sector, seq and records too."""
    image = Image(sectors)
    sector = d.below(sectors)
    seq = d.among(1, 9) if seq is None else seq
    records = some_table(d, d.pick([0, 1, 2, 3, 5]) if count is None else count)
    if head is not None:
        records = records[: max(0, head - 1)]
    image.put(sector, 0, header(seq))
    for i, r in enumerate(records):
        image.put(sector, 1 + i, slot(seq, r))
    if head is not None and head - 1 > len(records):
        damage(d, image, sector, head - 1)
    if others:
        for k in range(sectors):
            if k != sector:
                leftovers(d, image, k, seq)
    return image, sector, seq, records


def some_sectors(d):
    return d.pick([1, 2, 2, 2, 3, 3, 4, 5, 8, 15, 16])


def some_plan(d):
    """A plan with faults: refused programs or erases, little power."""
    kind = d.below(8)
    if kind < 3:
        return f"plan inf 0 {d.among(1, 4)}"
    if kind == 3:
        return f"plan inf 1 {d.below(3)}"
    if kind == 4:
        return f"plan inf 0 {d.pick([5, 8, 20, 40, 100, MAX32])}"
    if kind == 5:
        return f"plan {d.pick([0, 1, 12, 15, 16, 17, 31, 33, 47, 48, 49])} {d.below(2)} {d.below(3)}"
    if kind == 6:
        return f"plan {d.among(4090, 4400)} 0 {d.below(3)}"
    return f"plan {d.pick([d.below(9000), 70000, MAX64])} {d.below(2)} {d.below(5)}"


HEALTHY = "plan inf 0 0"


def sweep(cuts, call, after=()):
    """The call with the power cut after each of these numbers of bytes, and an opening."""
    lines = ["save"]
    for k in cuts:
        lines += [f"plan {k} 0 0", call, "open", *after, "restore"]
    return lines


def commit_cuts(count, whole):
    """Every byte of a commit of so many records, or its programs with a choice of the erase's bytes."""
    last = SECTOR + SLOT * (count + 1) + 1
    if whole:
        return list(range(last + 1))
    return [0, 1, 3, 15, 16, 17, 2048, 4095, *range(SECTOR, last + 1)]


# ---- the kinds of cases; `whole` asks for every byte where a shorter choice exists


def session(d, whole):
    """Calls in a row on a fresh or used image, with faults, cuts and reopenings."""
    sectors = some_sectors(d)
    if d.chance(50):
        lines = [f"image {sectors * SECTOR}", HEALTHY, "open"]
        lines += [some_call(d, d.pick(["format", "put_anchor"])) for _ in range(2)] + ["format 2 1 3 0 0 2 5 1 0"]
    else:
        lines = [*active_image(d, sectors, d.pick([None, 250, 254, 255, 256]))[0].lines(), HEALTHY, "open"]
    for _ in range(d.among(8, 30)):
        kind = d.below(100)
        if kind < 20:
            lines += [some_plan(d), some_write(d), *(["open"] if d.chance(70) else []), HEALTHY]
        elif kind < 26:
            lines.append("open")
        elif kind < 29:
            lines.append("list")
        elif kind < 32:
            lines += ["save", some_write(d), "restore"]
        elif kind < 75:
            lines.append(some_write(d))
        else:
            lines.append(some_call(d))
    if sectors == 1 and d.chance(10):
        lines.append("dump")
    return [*lines, "open"]


def heads(d, whole):
    """Writes at head 1, near 255 and at 256, with 0 to 4 refused programs or refused erases."""
    sectors = some_sectors(d)
    head = d.turn([1, 255, 256, 254, 253, 2, 252])
    image = active_image(d, sectors, head)[0]
    lines = [*image.lines(), HEALTHY, "open", "save"]
    for _ in range(6):
        lines += [f"plan {d.pick(['inf', 'inf', 'inf', 70000])} {d.pick([0, 0, 0, 1])} {d.below(5)}"]
        lines += [sure_write(d), some_write(d), sure_write(d), "open", "restore"]
    return lines


def some_heading(d, seq):
    """A sector's first slot: good, cut, damaged, or of another version or magic."""
    good = header(seq)
    return d.pick([
        b"",
        header(seq, version=1),
        header(seq, version=d.pick([0, 3, 255])),
        header(seq, rest=d.bytes(3)),
        header(seq, magic=d.pick([b"P2RD", b"p2RC", b"\0\0\0\0"])),
        good[: d.among(1, 15)],
        bytes(b ^ (1 << d.below(8)) if d.chance(10) else b for b in good),
        good, good, good, good, good,
    ])


def some_slots(d, seq):
    """A slot, or a row of them: good, damaged, bound to another seq, with tag FF, cut, or a value that falls."""
    good = slot(seq, some_record(d))
    kind = d.below(12)
    if kind == 0:
        return [d.bytes(16)]
    if kind == 1:
        return [slot(d.pick([0, seq ^ 1]), good[:12])]
    if kind == 2:
        return [slot(seq, b"\xff" + good[1:12])]
    if kind == 3:
        return [good[: d.among(1, 15)]]
    if kind == 4:
        return [bytes(b ^ 1 if d.chance(8) else b for b in good)]
    if kind == 5:
        ident, top = d.among(0, 9), some64(d)
        falling = [top, max(0, top - d.below(2)), d.below(4)]
        return [slot(seq, value(ident, n, d.pick([0, 0, 1]))) for n in falling]
    return [good]


def opening(d, whole):
    """Images of every sort: equal seqs, damaged slots and headers, holes, version 1, unknown records."""
    sectors = d.pick([1, 2, 3, 4, 8, 16])
    image = Image(sectors)
    seqs = d.pick([[1, 2, 3], [7], [0, 1], [MAX32 - 1, MAX32], [MAX32], [0], [d.below(2**32), 5]])
    for k in range(sectors):
        seq = d.pick(seqs)
        image.put(k, 0, some_heading(d, seq))
        place = 1
        for _ in range(d.pick([0, 2, 6, 12])):
            place += d.pick([0, 0, 0, 0, 1, 2, 30])
            for one in some_slots(d, seq):
                if place < 256:
                    image.put(k, place, one)
                place += 1
        if d.chance(15):
            damage(d, image, k, 255)
        if d.chance(3):
            image.put(k, 1, d.bytes(255 * SLOT))
    lines = [*image.lines(), HEALTHY, "open", "list"]
    lines += [some_call(d) for _ in range(d.among(2, 8))]
    return [*lines, "open"]


def tables(d, whole):
    """Tables of 30 to 33 keys: a known key is written, a new one gets 8, a 33rd makes the log Failed."""
    count = d.turn([30, 31, 32, 33, 32, 31, 32, 33])
    sectors = d.pick([1, 2, 3])
    head = d.pick([None, None, 254, 255, 256])
    records = d.shuffled(some_table(d, count, known=d.below(9)))
    seq = d.among(1, 9)
    sector = d.below(sectors)
    image = Image(sectors)
    image.put(sector, 0, header(seq))
    for i, r in enumerate(records):
        image.put(sector, 1 + i, slot(seq, r))
    if d.chance(30):
        image.put(sector, d.among(40, 60), slot(seq, d.pick(records)[:2] + d.bytes(10)))
    if head:
        damage(d, image, sector, head - 1)
    lines = [*image.lines(), HEALTHY, "open", "list", "save"]
    held = [r for r in records if r[0] in (0x52, 0x4C)]
    for r in [d.pick(held), d.pick(held)] if held else []:
        lines.append(f"set {r[1]} {some_byte(d)}" if r[0] == 0x52 else f"put_value {r[1]} {some64(d)}")
    lines += [some_write(d) for _ in range(5)] + [sure_write(d), "open", "restore"]
    if count < 33 and d.chance(60):
        lines += [log_line(f"active {sector} {seq} {d.pick([40, 255, 256])}", seq + 1, records)]
        lines += [d.pick([HEALTHY, some_plan(d)]), some_write(d), some_write(d), f"put_anchor 1 {d.pick([5, MAX48 + 1])} 2"]
    return [*lines, "open"]


def held_values(d, whole):
    """Records held at their limits, and calls just below, at and above: totals, values, anchors, odd records."""
    lines = [f"image {SECTOR * d.pick([1, 2, 3])}", HEALTHY]
    kind = d.turn(range(3))
    odd = d.pick([0, 0, 1, 255])
    state = f"active 0 {d.pick([1, 5])} {d.among(1, 250)}"
    if kind == 0:
        cred, (allowance, total, at_reset) = d.pick(CREDENTIALS), some_state(d)
        held = counter(cred, allowance, total, at_reset, odd)
        up, down = min(total + 1, MAX32), max(total - 1, 0)
        calls = [f"put {cred} {a} {t} {r}" for a in (allowance, allowance ^ 1) for t in (down, total, up) for r in (at_reset, at_reset ^ 1)]
        left = max(0, allowance - (total - at_reset)) if total >= at_reset else 0
        calls += [f"spend {cred} 7", f"set {cred} {allowance}", f"set {cred} 0", f"set {cred} {left}"]
        calls += [f"get {cred}", f"remaining {cred}", f"load {cred} 0 9", f"load {cred} 1 9"]
    elif kind == 1:
        ident, n = d.pick(VALUES), some64(d)
        held = value(ident, n, odd)
        calls = [f"put_value {ident} {x}" for x in (max(n - 1, 0), n, min(n + 1, MAX64), 0, MAX64)]
        calls += [f"advance_lamport {x}" for x in (0, max(n - 1, 0), n, min(n + 1, MAX64), MAX64 - 1)] + [f"value {ident}", "lamport"]
    else:
        gen, seq, place = d.below(65536), d.pick([0, 1, 5, MAX48 - 1, MAX48]), d.below(65536)
        held = anchor(gen, seq, place)
        calls = [f"put_anchor {g} {s} {p}" for g in (gen, gen ^ 1) for s in (max(seq - 1, 0), seq, seq + 1, MAX48 + 1, MAX64, 0) for p in (place, 0)]
        calls += ["anchor"]
    other = some_table(d, d.below(3))
    records = [held] + [r for r in other if r[:2] != held[:2]]
    setting = log_line(state, 9, d.shuffled(records))
    for call in d.shuffled(calls):
        lines += [setting, call] if d.chance(80) else [call]
    return lines


def own_logs(d, whole):
    """Good log values that fit nothing in the image: slots in use at the head, other sectors' seqs."""
    sectors = some_sectors(d)
    image = active_image(d, sectors, d.pick([None, 20, 256]))[0]
    for _ in range(d.below(3)):
        image.put(d.below(sectors), d.among(1, 250), d.bytes(48))
    lines = [*image.lines(), HEALTHY]
    for _ in range(5):
        records = some_table(d, d.pick([0, 1, 2, 4]))
        seq = d.pick([0, 1, 5, MAX32 - 2, MAX32 - 1, MAX32])
        later = min(MAX32, seq + d.pick([1, 1, 2, 1000]))
        state = d.pick([f"active {d.below(sectors)} {seq} {d.pick([1, 2, 19, 100, 255, 256])}"] * 4 + ["unformatted", "failed"])
        records = records if state.startswith("active") else []
        lines += [d.pick([HEALTHY, HEALTHY, some_plan(d)]), log_line(state, d.pick([later, MAX32]), records)]
        lines += [some_write(d), some_call(d), sure_write(d), "open"]
    return lines


def sequence_ends(d, whole):
    """Sequence numbers at 4294967294 and 4294967295: the last commit, and those that are refused."""
    sectors = d.pick([1, 2, 3, 4])
    seq = d.turn([MAX32 - 1, MAX32, MAX32 - 2, MAX32 - 3])
    image = active_image(d, sectors, d.pick([2, 254, 255, 256, 256]), seq=seq)[0]
    lines = [*image.lines(), HEALTHY, "open", "save"]
    for plan in [HEALTHY, "plan inf 1 0", f"plan inf 0 {d.among(1, 6)}", some_plan(d)]:
        lines += [plan, sure_write(d), sure_write(d), HEALTHY, sure_write(d), "open", "restore"]
    lines += [f"image {sectors * SECTOR}"]
    for plan in [HEALTHY, "plan inf 1 0", "plan inf 0 1"]:
        call = d.pick([some_format(d), "format 1 1 3 0 0", "put_anchor 7 0 0"])
        lines += [plan, f"log unformatted next {d.pick([MAX32 - 1, MAX32 - 2, MAX32])} count 0", call, "open"]
    return lines


def bad_logs(d, whole):
    """Each clause of BadLog in turn, alone and at its very edge, and every call upon it."""
    sectors = d.pick([1, 2, 3, 16])
    records = some_table(d, d.pick([1, 2, 3, 31]))
    sector, seq, head = d.below(sectors), d.pick([1, 7, MAX32]), d.pick([1, 40, 255, 256])
    next_seq = min(seq + 1, MAX32)
    idle, count = None, None
    clauses = [
        "none", "sector", "head", "over 32", "past the count", "fewer counted", "key twice", "tag FF", "next_seq 0",
        "next_seq low", "next_seq at the maximum", "records while idle", "places while idle", "idle", "more counted",
    ]
    clause = d.turn(clauses)
    edge = lambda values: d.turn(values, len(clauses))
    if clause == "sector":
        sector = edge([sectors, 16, 15, 17, MAX32, 255])
    elif clause == "head":
        head = edge([257, 0, 65537, MAX32, 258, 65535, 65536])
    elif clause == "over 32":
        records = some_table(d, 32) if d.chance(80) else records
        count = edge([33, 2**32 + 1, MAX64, 34, 2**32, 256])
    elif clause == "past the count":
        count = len(records)
        gap = [bytes(12)] * d.below(32 - count)
        records += [*gap, d.pick([b"\1" + bytes(11), b"\0\1" + bytes(10), bytes(11) + b"\1", some_record(d)])]
    elif clause == "fewer counted":
        count = d.below(len(records))
    elif clause == "key twice":
        records.insert(d.below(len(records)), d.pick(records)[:2] + d.bytes(10))
    elif clause == "tag FF":
        records[d.below(len(records))] = b"\xff" + d.bytes(11)
    elif clause == "next_seq 0":
        seq, next_seq = d.pick([0, seq]), 0
    elif clause == "next_seq low":
        seq = d.pick([1, 7, MAX32 - 1])
        next_seq = edge([seq, max(1, seq - 1), 1])
    elif clause == "next_seq at the maximum":
        seq, next_seq = edge([(MAX32, MAX32), (MAX32, MAX32 - 1), (MAX32 - 1, MAX32), (MAX32 - 1, MAX32 - 1)])
    elif clause == "records while idle":
        idle = d.pick(["unformatted", "failed"])
    elif clause == "places while idle":
        idle, count = d.pick(["unformatted", "failed"]), 0
    elif clause == "idle":
        idle, records = d.pick(["unformatted", "failed"]), []
        count, next_seq = d.pick([0, 1, 32, 33]), d.pick([0, 1, MAX32])
    elif clause == "more counted":
        records, count = [], d.pick([0, 1, 2])
    lines = [f"image {sectors * SECTOR}", d.pick([HEALTHY, some_plan(d)])]
    lines += [log_line(idle or f"active {sector} {seq} {head}", next_seq, records[:32], count)]
    for call in every_call(d):
        if call != "open":
            lines += ["save", call, "restore"]
    return lines


def bad_images(d, whole):
    """Images of a wrong size, with good and bad logs and ids: the order of the refusals."""
    size = d.turn(WRONG_SIZES)
    lines = [f"image {size}", d.pick([HEALTHY, some_plan(d)])]
    records = some_table(d, 2)
    lines += [d.pick([
        log_line("active 0 1 3", 2, records),
        log_line("active 0 1 0", 2, records),
        log_line("active 16 1 3", 2, records),
        "log unformatted next 1 count 0",
        "log failed next 1 count 0",
    ])]
    lines += [some_call(d, name) for name in d.shuffled(CALLS[1:])] + ["list", "open", some_call(d)]
    return lines


def bad_ids(d, whole):
    """Unknown credentials and value ids in every call, on logs of every state."""
    records = some_table(d, d.below(3))
    state = d.turn([
        log_line("active 0 1 9", 2, records),
        log_line("active 0 1 257", 2, records),
        "log unformatted next 1 count 0",
        "log failed next 1 count 0",
    ])
    lines = [f"image {SECTOR * 2}", d.pick([HEALTHY, some_plan(d)]), state]
    cred, ident = d.pick([*NOT_CREDENTIALS, d.below(256)]), d.pick([*NOT_VALUES, d.below(256)])
    calls = [f"put {cred} 3 1 0", f"get {cred}", f"remaining {cred}", f"load {cred} {d.below(2)} 4", f"spend {cred} 3", f"set {cred} 3"]
    calls += [f"put_value {ident} 4", f"value {ident}", f"format 1 {cred} 3 0 0", f"format 2 1 3 0 0 {cred} 3 0 0", f"format 1 1 3 0 0 {cred} 3 0 0"]
    calls += ["format 1", "format 9 1 3 0 0", f"format {MAX64}", f"format {2**32 + 1} 1 3 0 0"]
    for call in d.shuffled(calls):
        lines += ["save", call, "restore"]
    return lines


def formats(d, whole):
    """Formats: repeated credentials, counts that differ from the places, faults, logs of every state."""
    sectors = some_sectors(d)
    image = active_image(d, sectors)[0] if d.chance(30) else Image(sectors)
    lines = [*image.lines()]
    for _ in range(5):
        state = d.pick(["unformatted"] * 6 + ["failed", f"active {d.below(sectors)} 3 4"])
        lines += [d.pick([HEALTHY, HEALTHY, some_plan(d)]), log_line(state, d.pick([1, 2, 4, 1000, MAX32 - 1, MAX32]), [])]
        full = "format 7 " + " ".join(f"{c} 3 0 0" for c in CREDENTIALS)
        lines += ["save", some_format(d), "open", "restore", d.pick([some_format(d), some_anchor(d), full])]
        lines += [some_write(d), some_call(d)]
    return [*lines, "open"]


def faults(d, whole):
    """Commits over several sectors under plans that refuse or cut parts of them."""
    sectors = d.pick([2, 3, 4, 5, 16])
    count = d.pick([0, 1, 2, 3, 5, 12])
    image = active_image(d, sectors, 256, count)[0]
    lines = [*image.lines(), HEALTHY, "open", "save"]
    for _ in range(6):
        refuse = d.pick([0, 1, 2, 3, count, count + 1, count + 2, 2 * count + 3, 40])
        units = d.pick(["inf", "inf", d.below(9000), 4096 + d.below(600), 8192 + d.below(600), 70000])
        lines += [f"plan {units} {d.pick([0, 0, 0, 0, 1])} {refuse}", sure_write(d), some_write(d), "open", HEALTHY, sure_write(d), "open", "restore"]
    return lines


def steps(d, whole):
    """Programs and erases alone, on images of right and wrong sizes, under plans that refuse and cut them; the log is not looked at."""
    sectors = d.pick([1, 2, 3, 16])
    image = active_image(d, sectors, d.pick([2, 9, 255, 256]))[0]
    lines = [*image.lines(), d.pick([HEALTHY, "plan 70000 0 0"]), "open"]
    for _ in range(6):
        sector, place = d.below(sectors), d.pick([0, 1, 254, 255])
        data = d.pick([slot(d.among(1, 9), some_record(d)), bytes(16), b"\xff" * 16, d.bytes(16)]).hex()
        lines += [d.pick([HEALTHY, "plan inf 0 1", "plan inf 1 2", f"plan {d.below(40)} 0 0", f"plan {4080 + d.below(40)} 0 0"])]
        lines += [f"program {sector} {place} {data}", d.pick([f"erase {sector}", some_call(d, "erase")]), some_program(d), f"program {sector} {place} {data}"]
        lines += d.pick([[], ["open"], [log_line("active 0 1 0", 2, []), "erase 0", "program 0 1 " + data, "open"]])
    if d.chance(30):
        lines += [f"image {d.pick(WRONG_SIZES)}", "erase 0", "program 0 0 " + "00" * 16]
    return lines


def attempts(d, whole):
    """PIN attempts: the number and the try on one plan, near the end of a sector, under plans that refuse or cut either."""
    image = active_image(d, d.pick([1, 2, 3]), d.turn([9, 253, 254, 255, 256]), d.pick([0, 1, 2]))[0]
    cred = d.pick(CREDENTIALS)
    lines = [*image.lines(), HEALTHY, "open", f"set {cred} {d.pick([1, 2, 9])}", "save"]
    plans = [HEALTHY, "plan inf 1 0", *(f"plan inf 0 {n}" for n in range(1, 8)), *(f"plan {n} 0 0" for n in (0, 5, 15, 16, 17, 31, 32, 33, 4140))]
    for plan in d.shuffled(plans)[:8]:
        lines += [plan, f"attempt {cred} {some_byte(d)} {d.pick([0, 1, 7, MAX64])}", some_call(d, "attempt"), "open", "restore"]
    return lines


def cut_appends(d, whole):
    """The power cut at every byte of an append, at every sort of head, and the reopening."""
    sectors = d.pick([1, 2, 3])
    head = d.turn([1, 2, 9, 100, 253, 254, 255])
    image = active_image(d, sectors, head)[0]
    if d.chance(15) and head < 255:
        image.put(d.below(sectors), head, d.bytes(16))
    after = [HEALTHY, some_write(d), "open"] if d.chance(30) else []
    lines = [*image.lines(), HEALTHY, "open"]
    return lines + sweep(range(18 if d.chance(80) else 50), d.pick([sure_write(d), some_write(d)]), after)


def cut_commits(d, whole):
    """The power cut at every byte of a commit, and the reopening."""
    sectors = d.pick([2, 2, 3])
    count = d.pick([0, 1, 2, 3])
    image = active_image(d, sectors, 256, count)[0]
    lines = [*image.lines(), HEALTHY, "open"]
    return lines + sweep(commit_cuts(count + 1, whole), sure_write(d))


def cut_formats(d, whole):
    """The power cut at every byte of a format, and the reopening."""
    sectors = d.pick([1, 2])
    image = Image(sectors)
    if d.chance(50):
        image.put(0, d.below(9), d.bytes(40))
    count = d.pick([0, 1, 2, 7])
    places = " ".join(f"{c} {d.among(1, 9)} {d.below(3)} 0" for c in CREDENTIALS[:count])
    lines = [*image.lines(), HEALTHY, "open"]
    return lines + sweep(commit_cuts(count, whole), f"format {count} {places}".rstrip())


def cut_anchors(d, whole):
    """The power cut at every byte of the first anchor, its own format included, and the reopening."""
    sectors = d.pick([1, 2])
    image = Image(sectors)
    if d.chance(50):
        image.put(0, d.below(9), d.bytes(40))
    lines = [*image.lines(), HEALTHY, "open"]
    return lines + sweep(commit_cuts(1, whole) + list(range(SECTOR + 34, SECTOR + 50)), f"put_anchor {d.pick([0, 7, 65535])} 0 0")


def chance_matches(d, whole):
    """Seqs under which a slot cut after k bytes reads as a record, or a cut header as a header."""
    k = d.turn(range(1, 13))
    if d.chance(70):
        cred, ident = d.pick(CREDENTIALS), d.pick(VALUES)
        allowance, total, at_reset = some_state(d)
        number, gen, head_seq, place = some64(d), d.below(65536), d.below(2**48), d.below(65536)
        record, call = d.pick([
            (counter(cred, allowance, total, at_reset), f"put {cred} {allowance} {total} {at_reset}"),
            (value(ident, number), f"put_value {ident} {number}"),
            (anchor(gen, head_seq, place), f"put_anchor {gen} {head_seq} {place}"),
        ])
        seq = seq_for_ff(b"", record[:k] + b"\xff" * (12 - k))
        image, sector, _, _ = active_image(d, d.pick([1, 2]), d.pick([1, 2, 255]), count=d.pick([0, 1]), seq=seq, others=False)
        return [*image.lines(), HEALTHY, "open", *sweep(range(18), call)]
    known = d.among(1, 4)
    next_seq = seq_for_ff(b"P2RC", b"\x02" + bytes(known - 1) + b"\xff" * (4 - known))
    count = d.below(3)
    image, sector, seq, records = active_image(d, 2, 256, count, seq=next_seq - 1, others=False)
    lines = [*image.lines(), HEALTHY, "open"]
    return lines + sweep(range(SECTOR + SLOT * count, SECTOR + SLOT * (count + 2) + 1), sure_write(d))


ODD_LINES = [
    "", " ", "#", "# a comment", "#open", "open ", "image 008192", "plan inf 0 00000000000000000000000000000000001",
    "#" + "x" * 16383, "get 01 ", "log failed next 1 count 0 ", "at 00 00 ", "put_value 003 0018446744073709551615",
    "log active 4294967295 4294967295 4294967295 next 4294967295 count 18446744073709551615",
    "at 1 " + "5a" * 4095, "put_value 3 18446744073709551615", "put_anchor 65535 18446744073709551615 65535",
    "put 255 255 4294967295 4294967295", "load 255 1 255", "plan 18446744073709551615 1 4294967295",
    "image 18446744073709551615", "format 18446744073709551615", "program 000 0001 " + "0a" * 16 + " ",
    f"program {MAX64} {MAX64} " + "00" * 16, f"erase {MAX64}", f"attempt 255 255 {MAX64}", "erase 00 ",
]
# Lines that cannot be read, by the words of docs/REPLAY.md.
BAD_LINES = [
    "x", "Open", "opens", "open 1", "open now", "get", "get 256", "get -1", "get +1", "get 1 2", "get a", "get 1a", "get  1",
    " open", "\topen", "open\t", "open\r", "put 1 3 0", "put 1 3 0 0 0", "put 256 3 0 0", "put 1 256 0 0", "put 1 3 4294967296 0",
    "put 1 3 0 4294967296", "put_value 1", "put_value 256 1", "put_value 1 18446744073709551616", "put_value 1 99999999999999999999",
    "put_value 1 100000000000000000000", "put_anchor 65536 0 0", "put_anchor 0 18446744073709551616 0", "put_anchor 0 0 65536",
    "put_anchor 0 0", "format", "format 1 1 3 0", "format 1 1 3 0 0 2", "format 1 256 3 0 0", "format 1 1 256 0 0",
    "format 1 1 3 4294967296 0", "format 1 1 3 0 4294967296", "format 18446744073709551616", "format 9" + " 1 3 0 0" * 9,
    "value 256", "value", "anchor 0", "lamport 1", "needs_migration 1", "remaining 256", "load 1 2 3", "load 1 1 256", "load 1 1",
    "spend 1 256", "spend 1", "set 1 256", "set 256 1", "advance_lamport", "advance_lamport 18446744073709551616",
    "image", "image x", "image -1", "image 18446744073709551616", "at", "at x 00", "at 0 0", "at 0 000", "at 0 0G", "at 0 FF", "at 0 0x",
    "plan", "plan inf", "plan inf 0", "plan inf 2 0", "plan x 0 0", "plan Inf 0 0", "plan -1 0 0", "plan 18446744073709551616 0 0",
    "log", "log active", "log active 0 1 2", "log open next 1 count 0", "log unformatted", "log unformatted next", "log unformatted next 1",
    "log unformatted next 1 count", "log unformatted count 0 next 1", "log active 0 1 next 2 count 0", "log unformatted next 4294967296 count 0",
    "log active 0 4294967296 1 next 2 count 0", "log unformatted next 1 count 18446744073709551616", "log active 0 1 2 next 2 count 1 52",
    "log active 0 1 2 next 2 count 1 " + "00" * 11, "log active 0 1 2 next 2 count 1 " + "00" * 13, "log active 0 1 2 next 2 count 1 " + "0G" * 12,
    "log active 0 1 2 next 2 count 32 " + " ".join(["00" * 12] * 33), "#" + "x" * 16384, "get 1" + " " * 16380,
    "saved", "restored", "dumps", "lists", "é", "open é", "bad line 1",
    "program", "program 0", "program 0 0", "program 0 0 " + "00" * 15, "program 0 0 " + "00" * 17, "program 0 0 " + "00" * 16 + " 1",
    "program 0 0 " + "0" * 31, "program 0 0 " + "0" * 33, "program 0 0 " + "00" * 15 + "0G", "program 0 0 " + "FF" * 16, "program 0 0x" + "00" * 16,
    "program 0 0  " + "00" * 16, f"program {MAX64 + 1} 0 " + "00" * 16, f"program 0 {MAX64 + 1} " + "00" * 16, "program -1 0 " + "00" * 16,
    "erase", "erase 0 0", f"erase {MAX64 + 1}", "erase -1", "attempt", "attempt 1 3", "attempt 256 3 0", "attempt 1 256 0",
    f"attempt 1 3 {MAX64 + 1}", "attempt 1 3 0 0", "erases 0", "programs 0 0 " + "00" * 16, "attempts 1 3 0",
]
# Scripts with a corner of the format, as docs/REPLAY.md decides it.
READY = ["image 4096", HEALTHY, "open"]
CORNERS = [
    ["open"], ["restore", "open", "list", "dump"], ["put 1 3 0 0", "get 1", "needs_migration"], ["dump"],
    [*READY, "save 1"], [*READY, "restore 1"], [*READY, "dump 1"], [*READY, "list 1"], [*READY, "image 4096 1"],
    [*READY, "plan inf 0 0 0"], [*READY, "at 0 00 00"], [*READY, "at 0"], [*READY, "at 4096 00"], [*READY, "at 4095 0000"],
    [*READY, f"at {MAX64} 00"], [*READY, "open  "], [*READY, "get 1  "],
    [*READY, "log active 0 1 2 next 2 count 2 " + "52" * 12 + "x" + "53" * 12], [*READY, f"plan inf 0 {2**32}"],
    [*READY, f"log active {2**32} 1 2 next 2 count 0"], [*READY, f"log active 0 1 {2**32} next 2 count 0"],
    ["image 70000", "dump", "at 0 00", "dump", "list", "open"], ["image 70000", "at 1 00"], ["image 0", "dump", "list"],
]


def texts(d, whole):
    """Lines that are read in spite of their looks, and one that cannot be: the end of its script."""
    lines = []
    for _ in range(d.among(1, 4)):
        lines += [f"image {SECTOR * 2}", HEALTHY, "open", d.pick(ODD_LINES), d.pick(["open", some_call(d)])]
    return [*lines, f"image {SECTOR * 2}", d.turn(BAD_LINES), "open"]


def corners(d, whole):
    """Corners of the script format that are decided in docs/REPLAY.md: the end of their script."""
    return [*d.turn(CORNERS), "open", "x"]


# Each kind, its share of the calls, and whether it must be a script of its own.
KINDS = {
    "session": (session, 12, False),
    "heads": (heads, 10, False),
    "opening": (opening, 10, False),
    "tables": (tables, 6, False),
    "held-values": (held_values, 8, False),
    "own-logs": (own_logs, 8, False),
    "sequence-ends": (sequence_ends, 5, False),
    "bad-logs": (bad_logs, 8, False),
    "bad-images": (bad_images, 4, False),
    "bad-ids": (bad_ids, 4, False),
    "formats": (formats, 6, False),
    "faults": (faults, 8, False),
    "steps": (steps, 6, False),
    "attempts": (attempts, 6, False),
    "cut-appends": (cut_appends, 8, False),
    "cut-commits": (cut_commits, 8, False),
    "cut-formats": (cut_formats, 6, False),
    "cut-anchors": (cut_anchors, 6, False),
    "chance-matches": (chance_matches, 6, False),
    "texts": (texts, 3, True),
    "corners": (corners, 1, True),
}


def is_call(line):
    return line.split(" ", 1)[0] in CALLS


def case(seed, kind, number, whole=True):
    """The lines of a case."""
    return KINDS[kind][0](Draw(seed, kind, number), whole)


def cases(seed, kinds, count):
    """Cases of these kinds, each with its share of about `count` calls: (kind, number, lines)."""
    spent = {k: 0 for k in kinds}
    numbers = {k: 0 for k in kinds}
    made = 0
    while made < count:
        kind = min(kinds, key=lambda k: (spent[k] / KINDS[k][1], kinds.index(k)))
        lines = case(seed, kind, numbers[kind])
        calls = sum(map(is_call, lines))
        yield kind, numbers[kind], lines
        numbers[kind] += 1
        spent[kind] += calls
        made += calls
