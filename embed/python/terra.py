"""The terra engine by its C library, with numpy arrays.

    import terra
    world = terra.World(depth=3, reach=1)
    world.edit(terra.ground(40))
    world.settle()
    world.update()
    for node in world.leaves():
        vertices, triangles = world.block(node)   # float32 (n, 3), uint32 (m, 3)

The environment's TERRA_SO names the shared library; without it, it's ../build/libterra.so beside this file.
"""

import ctypes
import os

import numpy as np

_PLACE = os.path.join(os.path.dirname(os.path.abspath(__file__)), "..", "build", "libterra.so")
_lib = ctypes.CDLL(os.environ.get("TERRA_SO", _PLACE))

STATUSES = ("done", "no memory", "bad settings", "not lawful", "full", "not held", "not ready", "not a leaf",
            "no room", "nothing", "stale", "too large", "nothing to undo", "no surface")
FILL, CARVE = 0, 1
NODE = np.dtype([("i", "<u4"), ("j", "<u4"), ("k", "<u4"), ("level", "u1")], align=True)
HIT = np.dtype([("node", NODE), ("triangle", "<u4"), ("num", "<u8"), ("den", "<u8")], align=True)


class Error(Exception):
    """An answer other than done."""

    def __init__(self, status):
        super().__init__("terra: " + STATUSES[status])
        self.status = STATUSES[status]


class Point(ctypes.Structure):
    _fields_ = [("x", ctypes.c_uint32), ("y", ctypes.c_uint32), ("z", ctypes.c_uint32)]


class Brush(ctypes.Structure):
    _fields_ = [("kind", ctypes.c_uint32), ("mode", ctypes.c_uint32), ("lo", Point), ("hi", Point),
                ("size", ctypes.c_uint32)]


class _Handle(ctypes.Structure):
    _fields_ = [("at", ctypes.c_void_p), ("is_open", ctypes.c_bool)]


class _Size(ctypes.Structure):
    _fields_ = [("vertices", ctypes.c_size_t), ("triangles", ctypes.c_size_t), ("origin", Point)]


class Counts(ctypes.Structure):
    _fields_ = [(name, ctypes.c_uint64) for name in ("events", "leaves", "triangles", "keys")]


class Audit(ctypes.Structure):
    _fields_ = [(name, ctypes.c_uint64) for name in ("edges", "cracks", "border")]


def box(lo, hi, mode=FILL):
    return Brush(0, mode, Point(*lo), Point(*hi), 0)


def ball(at, radius, mode=FILL):
    return Brush(1, mode, Point(*at), Point(), radius)


def ground(height, mode=FILL):
    return Brush(2, mode, Point(), Point(), height)


def smooth(lo, hi):
    return Brush(3, FILL, Point(*lo), Point(*hi), 0)


_SIZE = ctypes.c_size_t
_POINTER = ctypes.c_void_p
for _name, _arguments in {
    "open": [_POINTER, ctypes.c_uint8, ctypes.c_uint8], "edit": [_POINTER, _POINTER], "look_from": [_POINTER, _POINTER],
    "view_from": [_POINTER, ctypes.c_uint8, _POINTER], "view_away": [_POINTER, ctypes.c_uint8],
    "undo": [_POINTER], "settle": [_POINTER], "update": [_POINTER], "put": [_POINTER, _POINTER, _SIZE, _POINTER],
    "gone": [_POINTER, _POINTER, _SIZE, _POINTER], "leaves": [_POINTER, _POINTER, _SIZE, _POINTER],
    "block": [_POINTER, _POINTER, _POINTER], "floats": [_POINTER, _POINTER, _POINTER, _SIZE],
    "vertices": [_POINTER, _POINTER, _POINTER, _SIZE], "triangles": [_POINTER, _POINTER, _POINTER, _SIZE],
    "normals": [_POINTER, _POINTER, _POINTER, _SIZE], "pick": [_POINTER, ctypes.c_uint32, ctypes.c_uint32, _POINTER],
    "stats": [_POINTER, _POINTER], "audit": [_POINTER, _POINTER], "snapshot": [_POINTER, _POINTER],
    "take": [_POINTER, _POINTER], "make": [_POINTER], "deliver": [_POINTER, _POINTER], "recall": [_POINTER],
}.items():
    _call = getattr(_lib, "terra_" + _name)
    _call.argtypes, _call.restype = _arguments, ctypes.c_uint8
_lib.terra_close.argtypes, _lib.terra_close.restype = [_POINTER], None


def _check(status, *others):
    if status != 0 and STATUSES[status] not in others:
        raise Error(status)
    return STATUSES[status]


class _Held:
    def __init__(self):
        self._handle = _Handle()

    @property
    def _at(self):
        return ctypes.byref(self._handle)

    def close(self):
        _lib.terra_close(self._at)

    def __del__(self):
        self.close()

    def __enter__(self):
        return self

    def __exit__(self, *_):
        self.close()


class Frame(_Held):
    """What has a frame to read: a world, or a snapshot of one."""

    def _nodes(self, call):
        count = ctypes.c_size_t()
        nodes = np.zeros(1, NODE)
        _check(call(self._at, nodes.ctypes.data, 0, ctypes.byref(count)), "no room")
        nodes = np.zeros(count.value + 1, NODE)
        _check(call(self._at, nodes.ctypes.data, count.value, ctypes.byref(count)))
        return nodes[:count.value]

    def leaves(self):
        """The leaves, as an array of NODE."""
        return self._nodes(_lib.terra_leaves)

    def _size(self, node):
        node, size = np.array(node, NODE), _Size()
        _check(_lib.terra_block(self._at, node.ctypes.data, ctypes.byref(size)))
        return node, size

    def block(self, node):
        """The vertices (float32, in fine cells) and triangles of a leaf."""
        node, size = self._size(node)
        vertices = np.empty((size.vertices, 3), np.float32)
        triangles = np.empty((size.triangles, 3), np.uint32)
        _check(_lib.terra_floats(self._at, node.ctypes.data, vertices.ctypes.data, size.vertices))
        _check(_lib.terra_triangles(self._at, node.ctypes.data, triangles.ctypes.data, size.triangles))
        return vertices, triangles

    def units(self, node):
        """The vertices of a leaf as whole 1/256 cells."""
        node, size = self._size(node)
        vertices = np.empty((size.vertices, 3), np.uint32)
        _check(_lib.terra_vertices(self._at, node.ctypes.data, vertices.ctypes.data, size.vertices))
        return vertices

    def normals(self, node):
        """The normals of a leaf's vertices (int32), in their order; they have any length."""
        node, size = self._size(node)
        normals = np.empty((size.vertices, 3), np.int32)
        _check(_lib.terra_normals(self._at, node.ctypes.data, normals.ctypes.data, size.vertices))
        return normals

    def pick(self, x, y):
        """The highest point over a place in 1/256 cells, as a HIT, whose height is num / den; None where there is none."""
        hit = np.zeros((), HIT)
        status = _check(_lib.terra_pick(self._at, x, y, hit.ctypes.data), "no surface")
        return hit[()] if status == "done" else None

    def stats(self):
        counts = Counts()
        _check(_lib.terra_stats(self._at, ctypes.byref(counts)))
        return counts

    def audit(self):
        counts = Audit()
        _check(_lib.terra_audit(self._at, ctypes.byref(counts)))
        return counts

    def snapshot(self):
        """Another holder of the frame, which stays as it is."""
        frame = Frame()
        _check(_lib.terra_snapshot(self._at, frame._at))
        return frame


class Job(_Held):
    """A brick to mesh, in whatever thread."""

    def make(self):
        _check(_lib.terra_make(self._at))


class World(Frame):
    def __init__(self, depth, reach):
        super().__init__()
        _check(_lib.terra_open(self._at, depth, reach))

    def edit(self, brush):
        _check(_lib.terra_edit(self._at, ctypes.byref(brush)))

    def look_from(self, at):
        _check(_lib.terra_look_from(self._at, ctypes.byref(Point(*at))))

    def view_from(self, view, at):
        _check(_lib.terra_view_from(self._at, view, ctypes.byref(Point(*at))))

    def view_away(self, view):
        _check(_lib.terra_view_away(self._at, view))

    def undo(self):
        """Undoes the last edit that is in force, and returns whether there was one."""
        return _check(_lib.terra_undo(self._at), "nothing to undo") == "done"

    def settle(self):
        """Meshes what isn't meshed yet on this thread."""
        _check(_lib.terra_settle(self._at))

    def update(self):
        """Brings the frame up to date, and returns whether each leaf was meshed."""
        return _check(_lib.terra_update(self._at), "not ready") == "done"

    def put(self):
        return self._nodes(_lib.terra_put)

    def gone(self):
        return self._nodes(_lib.terra_gone)

    def take(self):
        """The next job, or None."""
        job = Job()
        return job if _check(_lib.terra_take(self._at, job._at), "nothing") == "done" else None

    def deliver(self, job):
        """Hands a made job in, and returns whether it came in time."""
        return _check(_lib.terra_deliver(self._at, job._at), "stale") == "done"

    def recall(self):
        _check(_lib.terra_recall(self._at))
