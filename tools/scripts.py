"""Random scripts, and those of drills: what tools that run the program share. `rng` is a `random.Random`."""

REFUSED = [b'{"do":"shot"', b"[1]", b'{"do":"fly"}', b"{}", b'{"do":"shot","x":1}', b'{"do":"camera","at":[0,0]}',
           b'{"do":"ball","mode":"fill","at":[8,8,8],"r":0}', b"x" * 4097, b"\xff", b'{"do":"stats"}{"do":"stats"}']
UNDO = b'{"do":"undo"}'
BLANKS = [b"", b" ", b"\t \r", b"  \r"]


def point(rng, side):
    return "[" + ",".join(str(rng.randint(0, side)) for _ in range(3)) + "]"


def box(rng, side):
    """The two corners of a box, which is small mostly."""
    most = side if rng.random() < 0.1 else max(1, side // 4)
    low = [rng.randint(0, side) for _ in range(3)]
    high = [min(side, at + rng.randint(0, most)) for at in low]
    return '"lo":{},"hi":{}'.format(*("[" + ",".join(map(str, corner)) + "]" for corner in (low, high)))


def event(rng, side, edits):
    """A line with an event, behind so many edits that are in force."""
    if edits and rng.random() < 0.15:
        return UNDO
    mode = rng.choice(["fill", "carve"])
    kind = rng.choices(["box", "ball", "ground", "smooth", "camera"], [4, 4, 1, 2, 4])[0]
    members = {
        "box": f'"mode":"{mode}",{box(rng, side)}',
        "ball": f'"mode":"{mode}","at":{point(rng, side)},"r":{rng.randint(1, max(1, side // 3))}',
        "ground": f'"mode":"{mode}","h":{rng.randint(0, side)}',
        "smooth": box(rng, side),
        "camera": f'"at":{point(rng, side)}',
    }[kind]
    return f'{{"do":"{kind}",{members}}}'.encode()


def drill(seed, edits, depth):
    """The lines of the script that a drill carries out. docs/formats.md has the rule."""
    state, side = seed, 16 << depth

    def pick(most):
        nonlocal state
        state = (state * 1664525 + 1013904223) % (1 << 32)
        return state * most >> 32

    lines = ['{"terra":1,"depth":%d,"reach":2}' % depth, '{"do":"ground","mode":"fill","h":%d}' % (side // 2)]
    for number in range(1, edits + 1):
        kind, mode = pick(4), ("fill", "carve")[pick(2)]
        at = [pick(side + 1) for _ in range(3)]
        size = pick(8) + 1
        pick(1)
        reach = [min(side, place + size) for place in at]
        lines.append([
            '{"do":"box","mode":"%s","lo":%s,"hi":%s}' % (mode, at, reach),
            '{"do":"ball","mode":"%s","at":%s,"r":%d}' % (mode, at, size),
            '{"do":"smooth","lo":%s,"hi":%s}' % (at, reach),
            '{"do":"camera","at":%s}' % at,
        ][kind])
        if number % 8 == 0:
            lines.append('{"do":"stats"}')
    return [*lines, '{"do":"stats"}']


def random_drill(rng):
    """The bytes of the script of a random drill."""
    depth, seed = rng.choice([0, 1, 1, 2, 2, 3]), rng.randrange(1 << 32)
    return "\n".join(drill(seed, rng.randint(1, 60), depth)).encode()


def session(rng, count):
    """The lines of a world's opening, which has two events, and of so many steps, which have one each: balls at the
    ground mostly, and a camera that walks. Each ends with an output command."""
    far, walk, stats = 8, 128, '{"do":"stats"}'
    lines = [['{"terra":1,"depth":4,"reach":2}', '{"do":"camera","at":[128,128,128]}',
              '{"do":"ground","mode":"fill","h":128}', stats]]
    for _ in range(count):
        at, mode = [rng.randint(far, 256 - far), rng.randint(far, 256 - far), 128], rng.choice(["fill", "carve"])
        walk = (walk + rng.randint(0, 4)) % 256
        events = ['{"do":"ball","mode":"%s","at":%s,"r":%d}' % (mode, at, rng.randint(2, 6)),
                  '{"do":"smooth","lo":%s,"hi":%s}' % ([c - far for c in at], at),
                  '{"do":"camera","at":[%d,128,128]}' % walk, UNDO.decode()]
        lines.append([rng.choices(events, [14, 2, 3, 1])[0], stats])
    return lines


def deep(rng):
    """The bytes of a script in a world of side 512 or 1,024: a few edits about one place, and short texts."""
    depth, reach = rng.choice([5, 6]), rng.choice([0, 1])
    side = 16 << depth
    place = [rng.choice([0, side // 2, side, rng.randint(0, side)]) for _ in range(3)]

    def near(most):
        return [min(side, max(0, at + rng.randint(-most, most))) for at in place]

    lines = ['{"terra":1,"depth":%d,"reach":%d}' % (depth, reach)]
    if rng.random() < 0.5:
        lines.append('{"do":"ground","mode":"fill","h":%d}' % place[2])
    for _ in range(rng.randint(1, 8)):
        mode, corners = rng.choice(["fill", "carve"]), zip(near(40), near(40))
        low, high = map(list, zip(*map(sorted, corners)))
        lines.append(rng.choice([
            '{"do":"box","mode":"%s","lo":%s,"hi":%s}' % (mode, low, high),
            '{"do":"ball","mode":"%s","at":%s,"r":%d}' % (mode, near(40), rng.randint(1, 20)),
            '{"do":"smooth","lo":%s,"hi":%s}' % (low, high),
            '{"do":"camera","at":%s}' % near(40),
        ]))
        if rng.random() < 0.3:
            lines.append('{"do":"stats"}')
    return "\n".join([*lines, rng.choice(['{"do":"stats"}', '{"do":"shot"}'])]).encode()


def script(rng):
    """The bytes of a script."""
    if rng.random() < 0.02:
        return deep(rng)
    if rng.random() < 0.25:
        return random_drill(rng)
    depth, reach = rng.choice([0, 1, 1, 2, 2, 3]), rng.choice([0, 1, 1, 2, 4, 8])
    side = 16 << depth
    lines = [b'{"terra":1,"depth":%d,"reach":%d}' % (depth, reach)]
    if rng.random() < 0.8:
        lines.append(b'{"do":"ground","mode":"fill","h":%d}' % rng.randint(1, side - 1))
    edits = len(lines) - 1
    for _ in range(rng.randint(0, 24)):
        lines.append(event(rng, side, edits))
        edits += -1 if lines[-1] == UNDO else b"camera" not in lines[-1]
        if rng.random() < 0.25:
            lines.append(b'{"do":"stats"}' if rng.random() < 0.6 else b'{"do":"shot"}')
        if rng.random() < 0.05:
            lines.append(rng.choice(BLANKS))
    if rng.random() < 0.7:
        lines.append(b'{"do":"shot"}')
    if rng.random() < 0.125:
        lines.insert(rng.randint(0, len(lines)), rng.choice([*REFUSED, UNDO]))
    return b"\n".join(lines) + (b"\n" if rng.random() < 0.8 else b"")
