//! The events of examples/valley.jsonl from Rust, and the mesh as the program writes it.
use std::io::{self, BufWriter, Write};
use terra::{Brush, Error, Frame, Point, World};

fn coordinate(units: u32) -> String {
    format!("{}.{:08}", units / 256, units % 256 * 390_625)
}

fn main() -> Result<(), Box<dyn std::error::Error>> {
    assert_eq!(World::open(7, 0).err(), Some(Error::BadSettings));
    let mut world = World::open(3, 1)?;
    let brushes = [
        Brush::ground(40),
        Brush::carve_ball(Point::new(0, 64, 52), 30),
        Brush::carve_ball(Point::new(36, 58, 50), 26),
        Brush::carve_ball(Point::new(70, 64, 48), 24),
        Brush::carve_ball(Point::new(100, 76, 46), 22),
        Brush::carve_ball(Point::new(128, 84, 46), 22),
        Brush::fill_ball(Point::new(64, 110, 36), 22),
    ];
    for brush in &brushes {
        world.edit(brush)?;
    }
    world.look_from(Point::new(8, 60, 40))?;
    // Any thread may make a job.
    while let Some(mut job) = world.take()? {
        let job = std::thread::spawn(move || job.make().map(|()| job)).join().unwrap()?;
        assert!(world.deliver(job)?);
    }
    world.update()?;

    let mut out = BufWriter::new(io::stdout().lock());
    let counts = world.stats()?;
    writeln!(out, "# stats leaves {} triangles {} keys {}", counts.leaves, counts.triangles, counts.keys)?;
    writeln!(out, "o shot_1\n# events {}", counts.events)?;
    let mut frame = world.snapshot()?;
    let mut base = 1;
    for node in frame.leaves()? {
        let block = frame.block(node)?.ok_or("a leaf without a block")?;
        if block.triangles.is_empty() {
            continue;
        }
        writeln!(out, "g b{}_{}_{}_{}", node.level, node.i, node.j, node.k)?;
        for v in &block.vertices {
            writeln!(out, "v {} {} {}", coordinate(v.x), coordinate(v.y), coordinate(v.z))?;
        }
        for t in &block.triangles {
            writeln!(out, "f {} {} {}", base + t.a, base + t.b, base + t.c)?;
        }
        base += block.vertices.len() as u32;
    }
    Ok(())
}
