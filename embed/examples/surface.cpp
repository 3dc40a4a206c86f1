// The surface of one solid point from C++: the normals of its vertices, and picks from it.
#include "terra.hpp"

#include <cstdio>

int main()
{
    terra::World world(0, 0);
    world.edit({TERRA_BOX, TERRA_FILL, {8, 8, 8}, {8, 8, 8}, 0});
    world.settle();
    world.update();
    std::vector<terra_normal> normals;
    if (!world.read_normals({0, 0, 0, 0}, normals) || world.read_normals({1, 0, 0, 0}, normals))
        return 1;
    for (const auto &[x, y, z] : normals)
        std::printf("vn %d %d %d\n", x, y, z);
    for (const auto &[x, y] : {std::pair{2048u, 2048u}, {2112u, 2048u}, {0u, 0u}}) {
        const auto hit = world.pick(x, y);
        if (!hit) {
            std::printf("# pick %u %u none\n", x, y);
            continue;
        }
        const auto units = static_cast<unsigned>(hit->num / hit->den);
        std::printf("# pick %u %u %u.%08u in triangle %u of b%u_%u_%u_%u\n", x, y, units / 256, units % 256 * 390625,
                    hit->triangle, hit->node.level, hit->node.i, hit->node.j, hit->node.k);
    }
    return 0;
}
