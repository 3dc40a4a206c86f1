// Has the engine's module carry out scripts in Node, and compares each block with what the program writes.
//   node examples.mjs FOLDER PROGRAM SCRIPT..      FOLDER is what build.sh made

import assert from 'node:assert/strict';
import { spawnSync } from 'node:child_process';
import { readFileSync } from 'node:fs';
import { basename, join, resolve } from 'node:path';
import { Engine, World, nameOf } from '../page/engine.js';
import { hills } from '../page/ground.js';
import { readScript, writeScript } from '../page/script.js';
import { difference, linesOf, ofShot } from './blocks.mjs';

const MEGABYTE = 2 ** 20;
const [folder, program, ...scripts] = process.argv.slice(2).map((it) => resolve(it));
const module = readFileSync(join(folder, 'terra.wasm'));

function made(engine, { settings, events }) {
    const world = new World(engine, settings.depth, settings.reach);
    try {
        events.forEach((event) => world.apply(event));
        world.settle();
        return { world, blocks: world.leaves().map((node) => ({ name: nameOf(node), ...world.block(node) })) };
    } catch (error) {
        world.close();
        throw error;
    }
}

/** The same bytes for the same leaves. */
function isSame(found, wanted) {
    const bytes = ({ positions, indices }) => [positions, indices].map((it) => Buffer.from(it.buffer));
    return found.length === wanted.length && found.every((block, n) =>
        block.name === wanted[n].name && bytes(block).every((it, part) => it.equals(bytes(wanted[n])[part])));
}

function compare(name, script, engine) {
    const { world, blocks } = made(engine, script);
    world.close();
    const input = writeScript(script.settings, script.events);
    const ran = spawnSync(program, ['run'], { input, maxBuffer: 2 ** 30, encoding: 'utf8' });
    assert.equal(ran.status, 0, ran.stderr);
    const shown = blocks.filter(({ indices }) => indices.length > 0);
    assert.equal(difference(new Map(shown.map(linesOf)), ofShot(ran.stdout)), null, name);
    console.log(`   ${name}: ${shown.length} blocks are those of the program`);
}

const engine = await Engine.load(module, 512 * MEGABYTE);
for (const script of scripts) {
    compare(basename(script), readScript(readFileSync(script, 'utf8')), engine);
}
compare('hills of side 128', hills(3), engine);
compare('hills of side 256', hills(4), engine);

const wanted = [1, 2, 3, 4].map((depth) => made(engine, hills(depth)).blocks);

// With too little memory a world is refused, and no more than that: nothing is left behind, and one that fits is made.
for (let pages = 128; pages <= 496; pages += 16) {
    const small = await Engine.load(module, pages * 65536);
    for (const depth of [4, 3, 2, 1, 4, 3, 2, 1]) {
        try {
            const { world, blocks } = made(small, hills(depth));
            world.close();
            assert.ok(isSame(blocks, wanted[depth - 1]), `${pages} pages, depth ${depth}`);
        } catch (error) {
            assert.match(error.message, /memory has run out/);
            assert.ok(depth > 1, `${pages} pages are too few for depth 1`);
        }
    }
    assert.ok(small.memoryBytes <= pages * 65536);
}
console.log('   with memory of 8 to 31 MB: what does not fit is refused, and what fits is right after it');
