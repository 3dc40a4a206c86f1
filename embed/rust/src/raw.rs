//! `terra.h` in Rust.
use std::ffi::c_void;

#[repr(C)]
pub struct Handle {
    at: *mut c_void,
    is_open: bool,
}

impl Default for Handle {
    fn default() -> Handle {
        Handle { at: std::ptr::null_mut(), is_open: false }
    }
}

/// A point, in fine cells.
#[repr(C)]
#[derive(Clone, Copy, Debug, Default, PartialEq, Eq)]
pub struct Point {
    pub x: u32,
    pub y: u32,
    pub z: u32,
}

impl Point {
    pub const fn new(x: u32, y: u32, z: u32) -> Point {
        Point { x, y, z }
    }
}

/// A brush.
#[repr(C)]
#[derive(Clone, Copy, Debug, Default, PartialEq, Eq)]
pub struct Brush {
    kind: u32,
    mode: u32,
    lo: Point,
    hi: Point,
    size: u32,
}

impl Brush {
    const fn of(kind: u32, carve: bool, lo: Point, hi: Point, size: u32) -> Brush {
        Brush { kind, mode: carve as u32, lo, hi, size }
    }

    pub const fn fill_box(lo: Point, hi: Point) -> Brush {
        Brush::of(0, false, lo, hi, 0)
    }

    pub const fn carve_box(lo: Point, hi: Point) -> Brush {
        Brush::of(0, true, lo, hi, 0)
    }

    pub const fn fill_ball(at: Point, radius: u32) -> Brush {
        Brush::of(1, false, at, Point::new(0, 0, 0), radius)
    }

    pub const fn carve_ball(at: Point, radius: u32) -> Brush {
        Brush::of(1, true, at, Point::new(0, 0, 0), radius)
    }

    pub const fn ground(height: u32) -> Brush {
        Brush::of(2, false, Point::new(0, 0, 0), Point::new(0, 0, 0), height)
    }

    pub const fn smooth(lo: Point, hi: Point) -> Brush {
        Brush::of(3, false, lo, hi, 0)
    }
}

/// A node: a cube of side `16 * 2^level`, whose low corner is (i, j, k) times that side.
#[repr(C)]
#[derive(Clone, Copy, Debug, Default, PartialEq, Eq)]
pub struct Node {
    pub i: u32,
    pub j: u32,
    pub k: u32,
    pub level: u8,
}

/// How large a block is, and its low corner.
#[repr(C)]
#[derive(Clone, Copy, Debug, Default)]
pub struct BlockSize {
    pub vertices: usize,
    pub triangles: usize,
    pub origin: Point,
}

/// A vertex, in 1/256 fine cells.
#[repr(C)]
#[derive(Clone, Copy, Debug, Default, PartialEq, Eq)]
pub struct Vertex {
    pub x: u32,
    pub y: u32,
    pub z: u32,
}

/// The normal of a vertex: it is meant to lead to the empty side, has any length, and may be 0.
#[repr(C)]
#[derive(Clone, Copy, Debug, Default, PartialEq, Eq)]
pub struct Normal {
    pub x: i32,
    pub y: i32,
    pub z: i32,
}

/// What a pick finds: the highest point, whose height is `num / den` in 1/256 fine cells, and the first triangle that
/// has it, by its leaf and its number in the leaf's block.
#[repr(C)]
#[derive(Clone, Copy, Debug, Default, PartialEq, Eq)]
pub struct Hit {
    pub node: Node,
    pub triangle: u32,
    pub num: u64,
    pub den: u64,
}

/// The indices of a triangle's vertices.
#[repr(C)]
#[derive(Clone, Copy, Debug, Default, PartialEq, Eq)]
pub struct Triangle {
    pub a: u32,
    pub b: u32,
    pub c: u32,
}

#[repr(C)]
#[derive(Clone, Copy, Debug, Default, PartialEq, Eq)]
pub struct Counts {
    pub events: u64,
    pub leaves: u64,
    pub triangles: u64,
    pub keys: u64,
}

#[repr(C)]
#[derive(Clone, Copy, Debug, Default, PartialEq, Eq)]
pub struct AuditCounts {
    pub edges: u64,
    pub cracks: u64,
    pub border: u64,
}

extern "C" {
    pub fn terra_open(world: *mut Handle, depth: u8, reach: u8) -> u8;
    pub fn terra_close(handle: *mut Handle);
    pub fn terra_edit(world: *mut Handle, brush: *const Brush) -> u8;
    pub fn terra_look_from(world: *mut Handle, at: *const Point) -> u8;
    pub fn terra_view_from(world: *mut Handle, view: u8, at: *const Point) -> u8;
    pub fn terra_view_away(world: *mut Handle, view: u8) -> u8;
    pub fn terra_undo(world: *mut Handle) -> u8;
    pub fn terra_settle(world: *mut Handle) -> u8;
    pub fn terra_update(world: *mut Handle) -> u8;
    pub fn terra_put(world: *mut Handle, nodes: *mut Node, room: usize, count: *mut usize) -> u8;
    pub fn terra_gone(world: *mut Handle, nodes: *mut Node, room: usize, count: *mut usize) -> u8;
    pub fn terra_leaves(of: *mut Handle, nodes: *mut Node, room: usize, count: *mut usize) -> u8;
    pub fn terra_block(of: *mut Handle, node: *const Node, size: *mut BlockSize) -> u8;
    pub fn terra_vertices(of: *mut Handle, node: *const Node, vertices: *mut Vertex, room: usize) -> u8;
    pub fn terra_normals(of: *mut Handle, node: *const Node, normals: *mut Normal, room: usize) -> u8;
    pub fn terra_triangles(of: *mut Handle, node: *const Node, triangles: *mut Triangle, room: usize) -> u8;
    pub fn terra_pick(of: *mut Handle, x: u32, y: u32, hit: *mut Hit) -> u8;
    pub fn terra_stats(of: *mut Handle, counts: *mut Counts) -> u8;
    pub fn terra_audit(of: *mut Handle, counts: *mut AuditCounts) -> u8;
    pub fn terra_snapshot(of: *mut Handle, frame: *mut Handle) -> u8;
    pub fn terra_take(world: *mut Handle, job: *mut Handle) -> u8;
    pub fn terra_make(job: *mut Handle) -> u8;
    pub fn terra_deliver(world: *mut Handle, job: *mut Handle) -> u8;
    pub fn terra_recall(world: *mut Handle) -> u8;
}
