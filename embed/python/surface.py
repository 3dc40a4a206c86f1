"""The surface of one solid point from Python: the normals of its vertices, and picks from it."""

import terra

world = terra.World(depth=0, reach=0)
world.edit(terra.box((8, 8, 8), (8, 8, 8)))
world.settle()
world.update()
for normal in world.normals((0, 0, 0, 0)):
    print("vn %d %d %d" % tuple(normal))
for x, y in [(2048, 2048), (2112, 2048), (0, 0)]:
    hit = world.pick(x, y)
    if hit is None:
        print("# pick %d %d none" % (x, y))
        continue
    units, leaf = int(hit["num"]) // int(hit["den"]), hit["node"]
    print("# pick %d %d %d.%08d in triangle %d of b%d_%d_%d_%d" % (
        x, y, units // 256, units % 256 * 390625, hit["triangle"], leaf["level"], leaf["i"], leaf["j"], leaf["k"]))
