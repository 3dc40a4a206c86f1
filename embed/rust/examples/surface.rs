//! The surface of one solid point from Rust: the normals of its vertices, and picks from it.
use terra::{Brush, Error, Frame, Hit, Node, Point, World};

fn main() -> Result<(), Box<dyn std::error::Error>> {
    let at = Point::new(8, 8, 8);
    let mut world = World::open(0, 0)?;
    world.edit(&Brush::fill_box(at, at))?;
    world.settle()?;
    world.update()?;
    let root = Node::default();
    assert_eq!(world.normals(Node { i: 1, ..root })?, None);
    assert_eq!(world.pick(4097, 0), Err(Error::NotLawful));
    for normal in world.normals(root)?.ok_or("the root is a leaf")? {
        println!("vn {} {} {}", normal.x, normal.y, normal.z);
    }
    for (x, y) in [(2048, 2048), (2112, 2048), (0, 0)] {
        match world.pick(x, y)? {
            Some(Hit { node: Node { i, j, k, level }, triangle, num, den }) => {
                let (whole, part) = (num / den / 256, num / den % 256 * 390_625);
                println!("# pick {x} {y} {whole}.{part:08} in triangle {triangle} of b{level}_{i}_{j}_{k}");
            }
            None => println!("# pick {x} {y} none"),
        }
    }
    Ok(())
}
