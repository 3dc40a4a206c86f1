// The events of examples/valley.jsonl from C++, and the mesh as the program writes it.
#include "terra.hpp"
#include "terra_obj.h"

int main()
{
    terra::World world(3, 1);
    world.edit(terra::ground(40));
    world.edit(terra::ball(TERRA_CARVE, {0, 64, 52}, 30));
    world.edit(terra::ball(TERRA_CARVE, {36, 58, 50}, 26));
    world.edit(terra::ball(TERRA_CARVE, {70, 64, 48}, 24));
    world.edit(terra::ball(TERRA_CARVE, {100, 76, 46}, 22));
    world.edit(terra::ball(TERRA_CARVE, {128, 84, 46}, 22));
    world.edit(terra::ball(TERRA_FILL, {64, 110, 36}, 22));
    world.look_from({8, 60, 40});
    world.settle();
    if (!world.update())
        return 1;
    terra::check(terra_obj_stats(stdout, world.get()));
    terra::check(terra_obj_shot(stdout, world.get(), 1, false));
    return 0;
}
