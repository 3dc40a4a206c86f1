"""A reader of wires, written from the tables of docs/formats.md, "Wires", and from nothing else: what tools/mutate and
tools/replicate share. So the engine's reader can be compared with one that knows none of its code.
"""
import io
import struct

HEAD, HEAD_SIZE, TAG = b"TERRAPW1", 10, 0x50
BAD_HEAD, BAD_TAG, BAD_BASE, BAD_COUNT, BAD_EVENT, BAD_NODE, BAD_VERTEX, BAD_TRIANGLE = range(2, 10)
MOST_EVENTS, MOST_REACH, VIEWS, CELLS, UNITS = 65535, 8, 8, 16, 256
CUBOID, BALL, GROUND, SMOOTH, CAMERA, AWAY, UNDO = range(7)
# How many bytes the fields of an event have behind its tag.
FIELDS = [13, 9, 3, 12, 7, 1, 0]
VERTEX, TRIANGLE = struct.Struct("<BB3H3I"), struct.Struct("<3I")
# So many vertices or triangles are asked for at once: a count is not believed, and memory follows the bytes that came.
PIECE = 4096
FRACTIONS = [f"{part * 390625:08d}" for part in range(UNITS)]


class Cut(Exception):
    """The bytes end within the head or within a patch."""


class Refused(Exception):
    """A field is refused: how many bytes there are up to and with it, and its fault."""


class Gap(Exception):
    """A record isn't the next one, and none that came before."""


class Sieve:
    """Lets the records of a wire through once each and in their order, by the number of events before each."""

    def __init__(self):
        self.events = None

    def takes(self, record):
        """Whether a record is the next one; it isn't where it came before. Raises `Gap` where it is neither."""
        if record.startswith(HEAD):
            is_next = self.events is None
            self.events = self.events or 0
            return is_next
        base, count = struct.unpack_from("<2I", record, 1)
        if self.events is None or base > self.events or base < self.events < base + count:
            raise Gap(f"a patch from event {base} on, for a replica that has {self.events} events")
        is_next = base == self.events
        self.events = max(self.events, base + count)
        return is_next


def nodes_of(depth):
    """How many nodes a world has."""
    return sum(8 ** level for level in range(depth + 1))


def is_inside(point, side):
    return max(point) <= side


def is_event(event, side, in_force):
    """Whether a world of the side takes an event, behind so many edits that are in force."""
    tag, fields = event[0], event[1:]
    if tag in (CUBOID, BALL, GROUND) and fields[0] > 1:
        return False
    if tag in (CUBOID, SMOOTH):
        corners = struct.unpack("<6H", fields[-12:])
        return all(low <= high <= side for low, high in zip(corners, corners[3:]))
    if tag == BALL:
        *at, radius = struct.unpack("<4H", fields[1:])
        return is_inside(at, side) and 1 <= radius <= side
    if tag == GROUND:
        return struct.unpack("<H", fields[1:])[0] <= side
    if tag == CAMERA:
        return fields[0] < VIEWS and is_inside(struct.unpack("<3H", fields[1:]), side)
    return fields[0] < VIEWS if tag == AWAY else in_force > 0


def is_vertex(fields, depth):
    """Whether a world has the key, and its position."""
    level, axis, *rest = fields
    at, position, side = rest[:3], rest[3:], CELLS << depth
    return (axis <= 2 and level <= depth and not (at[0] | at[1] | at[2]) & ((1 << level) - 1) and is_inside(at, side)
            and at[axis] + (1 << level) <= side and is_inside(position, UNITS * side))


class Replica:
    """What is shown by the bytes of a file, whose read has to wait for as many bytes as it is asked for.

    `depth` is the greatest one that a world may have. One that isn't strict takes keys and triangles as they come:
    it is quick, and for wires that an engine wrote.
    """

    def __init__(self, file, depth, strict=True):
        self.file, self.most_depth, self.strict = file, depth, strict
        self.taken, self.record = 0, bytearray()
        self.depth, self.events, self.in_force, self.blocks = None, [], 0, {}
        # Where each field begins that is neither a vertex nor a triangle; and of each list of these where it begins,
        # how many there are, their form, and how many keys their block has.
        self.places, self.lists = [], []

    def read(self, size):
        """Returns the bytes of a field."""
        self.places.append(self.taken)
        found = self.file.read(size)
        self.taken += len(found)
        self.record += found
        if len(found) < size:
            raise Cut
        return found

    def judge(self, is_taken, fault):
        if not is_taken:
            raise Refused(self.taken, fault)

    def number(self):
        return struct.unpack("<I", self.read(4))[0]

    def records(self):
        """Yields the bytes of the head and then of each patch, as soon as it has taken effect.

        Raises `Cut` or `Refused`, and then what took effect before stays.
        """
        self.read_head()
        while True:
            yield bytes(self.record)
            self.record.clear()
            tag = self.file.read(1)
            if not tag:
                return
            self.places.append(self.taken)
            self.taken += 1
            self.record += tag
            self.judge(tag[0] == TAG, BAD_TAG)
            self.read_patch()

    def read_head(self):
        head = self.read(HEAD_SIZE)
        self.judge(head[:8] == HEAD and head[8] <= self.most_depth and head[9] <= MOST_REACH, BAD_HEAD)
        self.depth = head[8]
        self.head = head
        self.blocks[self.depth, 0, 0, 0] = bytes([self.depth]) + bytes(14)

    def read_patch(self):
        """Reads what is behind a patch's tag, and then has it take effect."""
        self.judge(self.number() == len(self.events), BAD_BASE)
        count = self.number()
        self.judge(len(self.events) + count <= MOST_EVENTS, BAD_COUNT)
        counts = []
        for _ in range(2):
            counts.append(self.number())
            self.judge(counts[-1] <= nodes_of(self.depth), BAD_COUNT)
        events, in_force = [], self.in_force
        for _ in range(count):
            events.append(self.read_event(in_force))
            in_force += {CAMERA: 0, AWAY: 0, UNDO: -1}.get(events[-1][0], 1)
        gone, put, last = [], {}, None
        for _ in range(counts[0]):
            gone.append(self.read_node(gone[-1] if gone else None))
            self.judge(gone[-1] in self.blocks, BAD_NODE)
        for _ in range(counts[1]):
            last = self.read_node(last)
            put[last] = self.read_block()
        for node in gone:
            del self.blocks[node]
        self.blocks |= put
        self.events += events
        self.in_force = in_force

    def read_event(self, in_force):
        tag = self.read(1)
        self.judge(tag[0] < len(FIELDS), BAD_TAG)
        event = tag + (self.read(FIELDS[tag[0]]) if FIELDS[tag[0]] else b"")
        self.judge(is_event(event, CELLS << self.depth, in_force), BAD_EVENT)
        return event

    def read_node(self, last):
        """Returns a node as its level, k, j and i, which is the order of nodes."""
        level, i, j, k = struct.unpack("<B3H", self.read(7))
        is_node = level <= self.depth and is_inside((i, j, k), (1 << self.depth - level) - 1)
        self.judge(is_node and (last is None or last < (level, k, j, i)), BAD_NODE)
        return level, k, j, i

    def read_block(self):
        """Returns the bytes of a block whose node was read last."""
        begin = len(self.record) - 7
        keys, triangles = self.number(), self.number()
        for count, form, is_taken, fault in ((keys, VERTEX, lambda fields: is_vertex(fields, self.depth), BAD_VERTEX),
                                             (triangles, TRIANGLE, lambda fields: max(fields) < keys, BAD_TRIANGLE)):
            self.lists.append((self.taken, count, form, keys))
            self.read_list(count, form, is_taken, fault)
        return bytes(self.record[begin:])

    def read_list(self, count, form, is_taken, fault):
        while count:
            size = form.size * min(count, PIECE)
            piece = self.file.read(size)
            self.record += piece
            if self.strict:
                for fields in form.iter_unpack(piece[:len(piece) - len(piece) % form.size]):
                    self.taken += form.size
                    self.judge(is_taken(fields), fault)
            if len(piece) < size:
                raise Cut
            self.taken += 0 if self.strict else size
            count -= size // form.size

    def text(self):
        """Returns the shot of what is shown, as bytes."""
        lines, first = ["o shot_1\n# events %d\n" % len(self.events)], 1
        for (level, k, j, i), block in sorted(self.blocks.items()):
            keys, triangles = struct.unpack_from("<2I", block, 7)
            if triangles:
                behind = 15 + keys * VERTEX.size
                lines.append(f"g b{level}_{i}_{j}_{k}\n")
                for fields in VERTEX.iter_unpack(block[15:behind]):
                    lines.append("v " + " ".join(f"{at // UNITS}.{FRACTIONS[at % UNITS]}" for at in fields[5:]) + "\n")
                lines += ["f %d %d %d\n" % tuple(place + first for place in fields)
                          for fields in TRIANGLE.iter_unpack(block[behind:])]
                first += keys
        return "".join(lines).encode()

    def snapshot(self):
        """Returns a wire with a single patch, which shows what is shown now."""
        root = (self.depth, 0, 0, 0)
        gone = b"" if root in self.blocks else bytes([self.depth]) + bytes(6)
        counts = struct.pack("<4I", 0, len(self.events), 1 if gone else 0, len(self.blocks))
        blocks = (block for _, block in sorted(self.blocks.items()))
        return b"".join([self.head, bytes([TAG]), counts, *self.events, gone, *blocks])


def mirrored(bytes_, depth):
    """Returns the status, the output and the notes of a mirror that reads the bytes."""
    replica = Replica(io.BytesIO(bytes_), depth)
    try:
        for _ in replica.records():
            pass
    except Cut:
        return 11, b"", b"terra: wire cut\n"
    except Refused as refused:
        return 10, b"", b"terra: byte %d: wire fault %d\n" % refused.args
    return 0, replica.text(), b""
