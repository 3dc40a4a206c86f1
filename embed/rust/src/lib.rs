//! The terra engine by its C library: what `terra.h` asks of its callers is kept by these types.

mod raw;

pub use raw::{AuditCounts, BlockSize, Brush, Counts, Hit, Node, Normal, Point, Triangle, Vertex};

use raw::Handle;
use std::fmt;

/// Why a call didn't do what it was asked for.
#[derive(Clone, Copy, Debug, PartialEq, Eq)]
pub enum Error {
    NoMemory,
    BadSettings,
    NotLawful,
    Full,
    NotHeld,
    NotReady,
    NotALeaf,
    NoRoom,
    Nothing,
    Stale,
    TooLarge,
    NothingToUndo,
    NoSurface,
}

impl fmt::Display for Error {
    fn fmt(&self, f: &mut fmt::Formatter<'_>) -> fmt::Result {
        write!(f, "terra: {self:?}")
    }
}

impl std::error::Error for Error {}

fn check(status: u8) -> Result<(), Error> {
    Err(match status {
        0 => return Ok(()),
        1 => Error::NoMemory,
        2 => Error::BadSettings,
        3 => Error::NotLawful,
        4 => Error::Full,
        6 => Error::NotReady,
        7 => Error::NotALeaf,
        8 => Error::NoRoom,
        9 => Error::Nothing,
        10 => Error::Stale,
        11 => Error::TooLarge,
        12 => Error::NothingToUndo,
        13 => Error::NoSurface,
        _ => Error::NotHeld,
    })
}

/// The mesh of a leaf.
#[derive(Clone, Debug, Default)]
pub struct Block {
    pub size: BlockSize,
    pub vertices: Vec<Vertex>,
    pub triangles: Vec<Triangle>,
}

/// What has a frame to read: a world, or a snapshot of one.
pub trait Frame {
    #[doc(hidden)]
    fn handle(&mut self) -> &mut Handle;

    /// The block of a leaf, if the node is one.
    fn block(&mut self, node: Node) -> Result<Option<Block>, Error> {
        let handle = self.handle();
        let mut size = BlockSize::default();
        match check(unsafe { raw::terra_block(handle, &node, &mut size) }) {
            Err(Error::NotALeaf) => return Ok(None),
            told => told?,
        }
        let mut vertices = vec![Vertex::default(); size.vertices];
        let mut triangles = vec![Triangle::default(); size.triangles];
        check(unsafe { raw::terra_vertices(handle, &node, vertices.as_mut_ptr(), vertices.len()) })?;
        check(unsafe { raw::terra_triangles(handle, &node, triangles.as_mut_ptr(), triangles.len()) })?;
        Ok(Some(Block { size, vertices, triangles }))
    }

    /// The normals of a leaf's vertices, in their order, if the node is one.
    fn normals(&mut self, node: Node) -> Result<Option<Vec<Normal>>, Error> {
        let handle = self.handle();
        let mut size = BlockSize::default();
        match check(unsafe { raw::terra_block(handle, &node, &mut size) }) {
            Err(Error::NotALeaf) => return Ok(None),
            told => told?,
        }
        let mut normals = vec![Normal::default(); size.vertices];
        check(unsafe { raw::terra_normals(handle, &node, normals.as_mut_ptr(), normals.len()) })?;
        Ok(Some(normals))
    }

    /// The highest point over the place (x, y), in 1/256 fine cells, if there is one.
    fn pick(&mut self, x: u32, y: u32) -> Result<Option<Hit>, Error> {
        let mut hit = Hit::default();
        match check(unsafe { raw::terra_pick(self.handle(), x, y, &mut hit) }) {
            Err(Error::NoSurface) => Ok(None),
            told => told.map(|()| Some(hit)),
        }
    }

    /// The leaves, in the order of nodes.
    fn leaves(&mut self) -> Result<Vec<Node>, Error> {
        nodes(self.handle(), raw::terra_leaves)
    }

    fn stats(&mut self) -> Result<Counts, Error> {
        let mut counts = Counts::default();
        check(unsafe { raw::terra_stats(self.handle(), &mut counts) })?;
        Ok(counts)
    }

    fn audit(&mut self) -> Result<AuditCounts, Error> {
        let mut counts = AuditCounts::default();
        check(unsafe { raw::terra_audit(self.handle(), &mut counts) })?;
        Ok(counts)
    }

    /// Another holder of the frame, which stays as it is.
    fn snapshot(&mut self) -> Result<Snapshot, Error> {
        let mut snapshot = Snapshot(Handle::default());
        check(unsafe { raw::terra_snapshot(self.handle(), &mut snapshot.0) })?;
        Ok(snapshot)
    }
}

type List = unsafe extern "C" fn(*mut Handle, *mut Node, usize, *mut usize) -> u8;

fn nodes(handle: &mut Handle, list: List) -> Result<Vec<Node>, Error> {
    let mut nodes = Vec::new();
    loop {
        let mut count = 0;
        match check(unsafe { list(handle, nodes.as_mut_ptr(), nodes.len(), &mut count) }) {
            Err(Error::NoRoom) => nodes.resize(count, Node::default()),
            told => {
                told?;
                nodes.truncate(count);
                return Ok(nodes);
            }
        }
    }
}

/// A world, which one thread at a time has.
pub struct World(Handle);

impl World {
    pub fn open(depth: u8, reach: u8) -> Result<World, Error> {
        let mut world = World(Handle::default());
        check(unsafe { raw::terra_open(&mut world.0, depth, reach) })?;
        Ok(world)
    }

    pub fn edit(&mut self, brush: &Brush) -> Result<(), Error> {
        check(unsafe { raw::terra_edit(&mut self.0, brush) })
    }

    pub fn look_from(&mut self, at: Point) -> Result<(), Error> {
        check(unsafe { raw::terra_look_from(&mut self.0, &at) })
    }

    /// Puts one of up to eight viewpoints, 0 to 7, at a point.
    pub fn view_from(&mut self, view: u8, at: Point) -> Result<(), Error> {
        check(unsafe { raw::terra_view_from(&mut self.0, view, &at) })
    }

    /// Takes a viewpoint away.
    pub fn view_away(&mut self, view: u8) -> Result<(), Error> {
        check(unsafe { raw::terra_view_away(&mut self.0, view) })
    }

    /// Undoes the last edit that is in force; false where there is none.
    pub fn undo(&mut self) -> Result<bool, Error> {
        match check(unsafe { raw::terra_undo(&mut self.0) }) {
            Err(Error::NothingToUndo) => Ok(false),
            told => told.map(|()| true),
        }
    }

    /// Meshes what isn't meshed yet on this thread.
    pub fn settle(&mut self) -> Result<(), Error> {
        check(unsafe { raw::terra_settle(&mut self.0) })
    }

    /// Brings the frame up to date; the error is `NotReady` where a leaf isn't meshed yet.
    pub fn update(&mut self) -> Result<(), Error> {
        check(unsafe { raw::terra_update(&mut self.0) })
    }

    /// The leaves whose blocks the last update put.
    pub fn put(&mut self) -> Result<Vec<Node>, Error> {
        nodes(&mut self.0, raw::terra_put)
    }

    /// The leaves that went by it.
    pub fn gone(&mut self) -> Result<Vec<Node>, Error> {
        nodes(&mut self.0, raw::terra_gone)
    }

    /// The next brick to mesh, if one is wanted.
    pub fn take(&mut self) -> Result<Option<Job>, Error> {
        let mut job = Job(Handle::default());
        match check(unsafe { raw::terra_take(&mut self.0, &mut job.0) }) {
            Err(Error::Nothing) => Ok(None),
            told => told.map(|()| Some(job)),
        }
    }

    /// Hands a made job in; false where it came too late.
    pub fn deliver(&mut self, mut job: Job) -> Result<bool, Error> {
        match check(unsafe { raw::terra_deliver(&mut self.0, &mut job.0) }) {
            Err(Error::Stale) => Ok(false),
            told => told.map(|()| true),
        }
    }

    /// Asks anew for every brick that didn't come back.
    pub fn recall(&mut self) -> Result<(), Error> {
        check(unsafe { raw::terra_recall(&mut self.0) })
    }
}

impl Frame for World {
    fn handle(&mut self) -> &mut Handle {
        &mut self.0
    }
}

impl Drop for World {
    fn drop(&mut self) {
        unsafe { raw::terra_close(&mut self.0) }
    }
}

/// A frame that stays as it is while its world goes on.
pub struct Snapshot(Handle);

impl Frame for Snapshot {
    fn handle(&mut self) -> &mut Handle {
        &mut self.0
    }
}

impl Drop for Snapshot {
    fn drop(&mut self) {
        unsafe { raw::terra_close(&mut self.0) }
    }
}

/// A brick to mesh, in whatever thread.
pub struct Job(Handle);

impl Job {
    pub fn make(&mut self) -> Result<(), Error> {
        check(unsafe { raw::terra_make(&mut self.0) })
    }
}

impl Drop for Job {
    fn drop(&mut self) {
        unsafe { raw::terra_close(&mut self.0) }
    }
}

// `Send` of the handle is proved in the library.
unsafe impl Send for World {}
unsafe impl Send for Snapshot {}
unsafe impl Send for Job {}
