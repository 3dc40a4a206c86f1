"""The events of examples/valley.jsonl from Python, and the mesh as the program writes it."""

import sys

import numpy as np

import terra


def coordinate(units):
    return "%d.%08d" % (units // 256, units % 256 * 390625)


def main(out):
    world = terra.World(depth=3, reach=1)
    world.edit(terra.ground(40))
    for at, radius in [((0, 64, 52), 30), ((36, 58, 50), 26), ((70, 64, 48), 24), ((100, 76, 46), 22),
                       ((128, 84, 46), 22)]:
        world.edit(terra.ball(at, radius, terra.CARVE))
    world.edit(terra.ball((64, 110, 36), 22))
    world.look_from((8, 60, 40))
    world.settle()
    assert world.update()
    counts = world.stats()
    out.write("# stats leaves %d triangles %d keys %d\n" % (counts.leaves, counts.triangles, counts.keys))
    out.write("o shot_1\n# events %d\n" % counts.events)
    base = 1
    for node in world.leaves():
        vertices, triangles = world.block(node)
        if len(triangles) == 0:
            continue
        units = world.units(node)
        assert (vertices * 256 == units).all()
        out.write("g b%d_%d_%d_%d\n" % (node["level"], node["i"], node["j"], node["k"]))
        for vertex in units.tolist():
            out.write("v %s %s %s\n" % tuple(map(coordinate, vertex)))
        for triangle in (triangles.astype(np.int64) + base).tolist():
            out.write("f %d %d %d\n" % tuple(triangle))
        base += len(units)


main(sys.stdout)
