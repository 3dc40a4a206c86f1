// The engine: the calls of terra.h, over its WebAssembly module. Events are as the commands of a script have them.

const PAGE = 65536;
const FIRST_PAGES = 32;
const HANDLE = 16, POINT = 12, BRUSH = 36, NODE = 16, SIZE = 32, COUNTS = 32, VERTEX = 12, NORMAL = 12, TRIANGLE = 12;
const KINDS = { box: 0, ball: 1, ground: 2, smooth: 3 };
const MODES = { fill: 0, carve: 1 };
export const DONE = 0, NO_MEMORY = 1, NOT_LAWFUL = 3, FULL = 4, NO_ROOM = 8;
const WORDS = {
    1: 'the memory has run out',
    2: 'a world of this size or reach can’t be made',
    3: 'that lies beyond the world',
    4: 'the world has taken 65,535 events, and takes no more',
    12: 'there is no edit to undo',
};

/** A call that was refused, with the status of terra.h. */
export class Refused extends Error {
    constructor(status) {
        super(WORDS[status] ?? `the engine answered ${status}`);
        this.status = status;
    }
}

/** The module, its memory, and room in it for what goes in and out. */
export class Engine {
    #memory;
    #rooms = new Map();

    /** Takes the module's bytes, and how far its memory may grow. */
    static async load(bytes, maxBytes) {
        const maximum = Math.max(FIRST_PAGES, Math.floor(maxBytes / PAGE));
        const memory = new WebAssembly.Memory({ initial: FIRST_PAGES, maximum });
        const { instance } = await WebAssembly.instantiate(bytes, { env: { memory } });
        return new Engine(memory, instance.exports);
    }

    constructor(memory, calls) {
        this.#memory = memory;
        this.calls = calls;
    }

    get memoryBytes() {
        return this.#memory.buffer.byteLength;
    }

    /** Views of the memory, which last until the next call. */
    get bytes() {
        return new Uint8Array(this.#memory.buffer);
    }

    get view() {
        return new DataView(this.#memory.buffer);
    }

    /** Copies out numbers of this kind of array. */
    copy(Numbers, at, count) {
        return new Numbers(this.#memory.buffer, at, count).slice();
    }

    /** Returns room of at least so many bytes, the same for the same name unless it has to grow. */
    room(name, size) {
        const had = this.#rooms.get(name);
        if (had && had.size >= size) {
            return had.at;
        }
        const wanted = had ? Math.max(size, 2 * had.size) : size;
        const at = this.allocate(wanted);
        if (had) {
            this.free(had.at);
        }
        this.#rooms.set(name, { at, size: wanted });
        return at;
    }

    allocate(size) {
        const at = Number(this.calls.terra_web_alloc(BigInt(size)));
        if (at === 0) {
            throw new Refused(NO_MEMORY);
        }
        return at;
    }

    free(at) {
        this.calls.terra_web_free(BigInt(at));
    }

    /** Makes a call with numbers for places and sizes, and returns its status if it is one of these. */
    call(name, places, expected = [DONE]) {
        const status = this.calls[name](...places);
        if (!expected.includes(status)) {
            throw new Refused(status);
        }
        return status;
    }

    point([x, y, z]) {
        const at = this.room('point', POINT);
        const view = this.view;
        [x, y, z].forEach((value, n) => view.setUint32(at + 4 * n, value, true));
        return BigInt(at);
    }

    brush({ do: kind, mode = 'fill', at, lo = at ?? [0, 0, 0], hi = [0, 0, 0], r, h }) {
        const place = this.room('brush', BRUSH);
        const view = this.view;
        const fields = [KINDS[kind], MODES[mode], ...lo, ...hi, r ?? h ?? 0];
        fields.forEach((value, n) => view.setUint32(place + 4 * n, value, true));
        return BigInt(place);
    }
}

/** A leaf's name, which is that of its group in the program's output. */
export const nameOf = ({ level, i, j, k }) => `b${level}_${i}_${j}_${k}`;

/** A world of an engine. What throws leaves it as it was, but that `settle` may have meshed some of its leaves. */
export class World {
    #engine;
    #handle;
    #at;

    constructor(engine, depth, reach) {
        this.#engine = engine;
        this.#at = engine.allocate(HANDLE);
        this.#handle = BigInt(this.#at);
        engine.bytes.fill(0, this.#at, this.#at + HANDLE);
        try {
            engine.call('terra_open', [this.#handle, depth, reach]);
        } catch (error) {
            engine.free(this.#at);
            throw error;
        }
    }

    close() {
        this.#engine.calls.terra_close(this.#handle);
        this.#engine.free(this.#at);
    }

    /** Applies an event: a brush, a viewpoint's new place, that a viewpoint goes away, or an undo. */
    apply(event) {
        const { view = 0 } = event;
        if (event.do === 'camera') {
            this.#engine.call('terra_view_from', [this.#handle, view, this.#engine.point(event.at)]);
        } else if (event.do === 'away') {
            this.#engine.call('terra_view_away', [this.#handle, view]);
        } else if (event.do === 'undo') {
            this.#engine.call('terra_undo', [this.#handle]);
        } else {
            this.#engine.call('terra_edit', [this.#handle, this.#engine.brush(event)]);
        }
    }

    /** Meshes what is wanted, and brings the frame up to date. */
    settle() {
        this.#engine.call('terra_settle', [this.#handle]);
        this.#engine.call('terra_update', [this.#handle]);
    }

    /** The leaves whose blocks the last update put, those that went by it, and all of them. */
    put() {
        return this.#nodes('terra_put');
    }

    gone() {
        return this.#nodes('terra_gone');
    }

    leaves() {
        return this.#nodes('terra_leaves');
    }

    #nodes(name) {
        const engine = this.#engine;
        const count = engine.room('count', 8);
        let room = 64;
        for (;;) {
            const at = engine.room('nodes', room * NODE);
            const status = engine.call(name, [this.#handle, BigInt(at), BigInt(room), BigInt(count)], [DONE, NO_ROOM]);
            const found = Number(engine.view.getBigUint64(count, true));
            if (status === DONE) {
                return this.#read(at, found);
            }
            room = found;
        }
    }

    #read(at, count) {
        const view = this.#engine.view;
        return Array.from({ length: count }, (_, n) => {
            const from = at + n * NODE;
            const [i, j, k] = [0, 4, 8].map((offset) => view.getUint32(from + offset, true));
            return { i, j, k, level: view.getUint8(from + 12) };
        });
    }

    /** Copies a leaf's block: vertices in fine cells, and triangles. */
    block(node) {
        const engine = this.#engine;
        const place = this.#place(node);
        const { vertices, triangles } = this.#size(place);
        const floats = engine.room('vertices', Math.max(1, vertices) * VERTEX);
        const indices = engine.room('triangles', Math.max(1, triangles) * TRIANGLE);
        engine.call('terra_floats', [this.#handle, BigInt(place), BigInt(floats), BigInt(vertices)]);
        engine.call('terra_triangles', [this.#handle, BigInt(place), BigInt(indices), BigInt(triangles)]);
        return {
            positions: engine.copy(Float32Array, floats, 3 * vertices),
            indices: engine.copy(Uint32Array, indices, 3 * triangles),
        };
    }

    /** Copies the normals of a leaf's vertices, in their order. They have any length, and may be 0. */
    normals(node) {
        const engine = this.#engine;
        const place = this.#place(node);
        const { vertices } = this.#size(place);
        const at = engine.room('normals', Math.max(1, vertices) * NORMAL);
        engine.call('terra_normals', [this.#handle, BigInt(place), BigInt(at), BigInt(vertices)]);
        return Float32Array.from(engine.copy(Int32Array, at, 3 * vertices));
    }

    /** Writes a node, and returns where. */
    #place(node) {
        const place = this.#engine.room('node', NODE);
        const view = this.#engine.view;
        [node.i, node.j, node.k].forEach((value, n) => view.setUint32(place + 4 * n, value, true));
        view.setUint32(place + 12, node.level, true);
        return place;
    }

    /** How many vertices and triangles the block of a leaf has that was written. */
    #size(place) {
        const size = this.#engine.room('size', SIZE);
        this.#engine.call('terra_block', [this.#handle, BigInt(place), BigInt(size)]);
        const [vertices, triangles] = [0, 8].map((offset) => Number(this.#engine.view.getBigUint64(size + offset, true)));
        return { vertices, triangles };
    }

    stats() {
        const at = this.#engine.room('counts', COUNTS);
        this.#engine.call('terra_stats', [this.#handle, BigInt(at)]);
        const view = this.#engine.view;
        const [events, leaves, triangles] = [0, 8, 16].map((offset) => Number(view.getBigUint64(at + offset, true)));
        return { events, leaves, triangles };
    }
}
