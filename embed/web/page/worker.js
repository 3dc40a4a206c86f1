// The worker: the engine, its world, and the events that made it. Blocks go to the page as buffers that change hands.

import { Engine, NO_MEMORY, Refused, World, nameOf } from './engine.js';
import { Fault, MAX_BYTES, readScript, writeScript } from './script.js';
import { hills } from './ground.js';

const MEGABYTE = 2 ** 20;
const SLICE = 200; // milliseconds of a long script between two looks for messages

/** The making of a world that the visitor ended. */
class Stopped extends Error {}

let engine = null;
let maxBytes = 0;
let current = null; // { world, settings, events }
let opening = 0; // a number for each world that is begun
let isSmooth = false; // blocks go with their normals

/** Copies the blocks of these leaves, with their normals where the page asked for these. */
function blocksOf(world, leaves) {
    return leaves.map((node) => {
        const normals = isSmooth ? world.normals(node) : null;
        return { name: nameOf(node), node, ...world.block(node), normals };
    });
}

/** Posts these blocks, and hands over their buffers. */
function post(message, gone, put) {
    const took = performance.now() - message.began;
    const lists = put.flatMap(({ positions, indices, normals }) => [positions, indices, ...(normals ? [normals] : [])]);
    const buffers = lists.map((list) => list.buffer);
    const counts = { ...current.world.stats(), memory: engine.memoryBytes };
    postMessage({ ...message, gone: gone.map(nameOf), put, counts, took }, buffers);
}

/** Applies events, tells how far it is, and ends where it is stopped. */
async function applyAll(world, events) {
    const mine = ++opening;
    let since = performance.now();
    for (const [done, event] of events.entries()) {
        world.apply(event);
        if (performance.now() - since > SLICE) {
            postMessage({ told: 'progress', done: done + 1, of: events.length });
            await new Promise((resolve) => setTimeout(resolve));
            if (mine !== opening) {
                throw new Stopped();
            }
            since = performance.now();
        }
    }
}

/** Makes a world of these events and shows it. Where that fails the world that was there stays. */
async function open({ settings, events }) {
    const began = performance.now();
    const world = new World(engine, settings.depth, settings.reach);
    let blocks;
    try {
        await applyAll(world, events);
        world.settle();
        blocks = blocksOf(world, world.leaves());
    } catch (error) {
        world.close();
        throw error;
    }
    current?.world.close();
    current = { world, settings, events, isBehind: false };
    const eye = events.findLast((event) => event.do === 'camera' && (event.view ?? 0) === 0)?.at ?? null;
    post({ told: 'world', began, settings, eye }, [], blocks);
}

/** Applies an event, and shows what it changed, or all where the page doesn't have all changes before it. */
function apply({ event, sent }) {
    const began = performance.now();
    const { world, events, isBehind } = current;
    world.apply(event);
    events.push(event);
    current.isBehind = true;
    world.settle();
    const gone = isBehind ? [] : world.gone();
    const blocks = blocksOf(world, isBehind ? world.leaves() : world.put());
    current.isBehind = false;
    post({ told: 'changed', began, event, sent, isWhole: isBehind }, gone, blocks);
}

const tasks = {
    async start({ module, memory, depth }) {
        const answer = await fetch(module);
        if (!answer.ok) {
            throw new Error(`the engine can’t be fetched (${answer.status})`);
        }
        maxBytes = memory;
        engine = await Engine.load(await answer.arrayBuffer(), memory);
        await open(hills(depth));
    },
    ground: ({ depth }) => open(hills(depth)),
    stop() {
        opening += 1;
    },
    async load({ text, name }) {
        if (text.length > MAX_BYTES) {
            throw new Error(`the script ${name} is longer than ${MAX_BYTES / MEGABYTE} MB`);
        }
        try {
            await open(readScript(text));
        } catch (error) {
            throw error instanceof Fault ? new Error(`the script ${name} can’t be loaded: ${error.message}`) : error;
        }
    },
    event: apply,
    smooth({ isOn }) {
        const began = performance.now();
        isSmooth = isOn;
        if (isOn && current) {
            post({ told: 'normals', began }, [], blocksOf(current.world, current.world.leaves()));
        }
    },
    save() {
        const { settings, events } = current;
        postMessage({ told: 'script', text: writeScript(settings, events), count: events.length });
    },
};

function words(error) {
    if (error instanceof Refused && error.status === NO_MEMORY) {
        return (
            `The memory of this page has run out: it has ${maxBytes / MEGABYTE} MB. ` +
            'Save the script and go on with `terra run`, or make a smaller world.'
        );
    }
    return `${error.message.charAt(0).toUpperCase()}${error.message.slice(1)}.`;
}

onmessage = async ({ data }) => {
    try {
        await tasks[data.task](data);
    } catch (error) {
        if (error instanceof Stopped) {
            postMessage({ told: 'stopped' });
            return;
        }
        const isExpected = error instanceof Refused || error instanceof Fault || error.constructor === Error;
        postMessage({ told: 'trouble', words: words(error), isExpected, hasWorld: current !== null });
    }
};
