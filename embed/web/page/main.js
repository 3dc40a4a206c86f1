// The page: what its parts tell one another. The engine is in the worker, the picture in the viewer.

import { Camera } from './camera.js';
import { watchKeys, watchPointers } from './input.js';
import { MAX_BYTES, sideOf } from './script.js';
import { Viewer } from './viewer.js';

const VIEW_STEP = 8; // cells that the camera moves before the engine hears of it
const MOST_WAITING = 2; // edits of a stroke that may be under way
const STROKE_STEP = 4; // pixels that the pointer moves between two of them
const MEGABYTE = 2 ** 20;
const MOST_TIMES = 500;
const element = (id) => document.getElementById(id);
const number = (value) => value.toLocaleString('en');
const clamp = (value, least, most) => Math.min(Math.max(value, least), most);
const median = (values) => [...values].sort((a, b) => a - b)[Math.floor(values.length / 2)];

/** A whole number of the page's address, as in `?memory=64`, or what is usual. */
function asked(name, usual, least, most) {
    const given = Number(new URLSearchParams(location.search).get(name) ?? usual);
    return Number.isInteger(given) ? clamp(given, least, most) : usual;
}

class Page {
    viewer = new Viewer(element('picture'));
    camera = new Camera();
    worker = new Worker('worker.js', { type: 'module' });
    side = 0;
    tool = 'dig';
    shape = 'ball';
    size = 7;
    aim = null; // where the pointer is, in pixels; null for the middle
    brush = null;
    isStroking = false;
    strokeAt = null; // where the stroke's last edit was: the brush's place, and the pointer's
    isOpening = true; // another world is being made
    seenFrom = null; // the viewpoint that the engine has
    waiting = 0;
    edits = []; // { blocks, engine, page } of the last edits, in milliseconds
    editCount = 0;
    blockCount = 0;
    isAwake = false;
    frameAt = 0;

    constructor() {
        this.worker.onmessage = ({ data }) => this.told[data.told](data);
        this.worker.onerror = ({ message }) =>
            this.trouble(`The engine can’t run here: ${message ?? 'its worker didn’t start'}.`);
        this.memory = asked('memory', 512, 4, 2048);
        const module = new URL('terra.wasm', location.href).href;
        const depth = asked('depth', 4, 1, 4);
        this.say('Making the ground …');
        this.worker.postMessage({ task: 'start', module, memory: this.memory * MEGABYTE, depth });
        watchPointers(this.viewer.canvas, this.asks);
        this.moveByKeys = watchKeys(this.asks, this.presses());
        this.watchPanel();
        this.watchFiles();
        new ResizeObserver(() => {
            this.viewer.fit();
            this.wake();
        }).observe(this.viewer.canvas);
    }

    // ---- what the worker tells

    told = {
        world: (news) => {
            this.say('');
            this.isOpening = false;
            this.side = sideOf(news.settings.depth);
            this.waiting = 0;
            this.edits = [];
            this.editCount = this.blockCount = 0;
            this.viewer.clear(this.side);
            this.placeCamera(news.eye);
            this.show(news);
            element('edit-told').textContent = 'No edit yet.';
        },
        changed: (news) => {
            this.waiting = Math.max(0, this.waiting - 1);
            this.show(news);
            if (news.event.do !== 'camera') {
                this.countEdit(news);
            }
        },
        normals: (news) => this.show(news),
        progress: ({ done, of }) => this.say(`${number(done)} of ${number(of)} events …`),
        stopped: () => {
            this.isOpening = false;
            this.say('');
        },
        script: ({ text, count }) => this.saveFile(text, count),
        trouble: ({ words, isExpected, hasWorld }) => {
            this.waiting = Math.max(0, this.waiting - 1);
            this.isOpening = false;
            this.say('');
            this.trouble(words);
            if (!hasWorld) {
                element('world-told').textContent = 'There is no world.';
            }
            if (!isExpected) {
                console.error(words);
            }
        },
    };

    show({ gone, put, counts, isWhole }) {
        if (isWhole) {
            this.viewer.clear(this.side);
        }
        gone.forEach((name) => this.viewer.remove(name));
        put.forEach((block) => this.viewer.put(block));
        element('world-told').textContent =
            `Side ${this.side}: ${number(counts.leaves)} blocks, ${number(counts.triangles)} triangles, ` +
            `${number(counts.events)} events, ${Math.ceil(counts.memory / MEGABYTE)} of ${this.memory} MB.`;
        this.wake();
    }

    countEdit({ put, took, sent }) {
        this.edits.push({ blocks: put.length, engine: took, page: performance.now() - sent });
        if (this.edits.length > MOST_TIMES) {
            this.edits.shift();
        }
        this.editCount += 1;
        this.blockCount += put.length;
        const usual = median(this.edits.map(({ engine }) => engine));
        const blocks = `${number(put.length)} ${put.length === 1 ? 'block' : 'blocks'}`;
        element('edit-told').textContent =
            `Edit ${number(this.editCount)}: ${blocks} meshed in ${took.toFixed(1)} ms ` +
            `(median ${usual.toFixed(1)} ms); ${number(this.blockCount)} blocks in all.`;
    }

    placeCamera(eye) {
        const middle = this.side / 2;
        const from = eye ?? [middle, -this.side / 4, this.side];
        const target = [middle, middle, 0.4 * this.side];
        const isThere = from.every((value, axis) => value === target[axis]);
        this.camera.place([...from], isThere ? [middle, this.side, 0] : target);
        this.seenFrom = this.cellOf(from);
    }

    cellOf(point) {
        return point.map((value) => clamp(Math.round(value), 0, this.side));
    }

    // ---- what the visitor asks for

    asks = {
        isLooking: () => this.tool === 'look',
        aim: (x, y) => {
            this.aim = [x, y];
            element('cross').hidden = true;
            this.wake();
        },
        aimAway: () => {
            this.aim = null;
            this.wake();
        },
        stroke: (isOn) => {
            this.isStroking = isOn;
            if (isOn) {
                this.aimBrush();
                this.useTool();
            }
        },
        turn: (yaw, pitch) => this.moved(() => this.camera.turn(yaw, pitch)),
        move: (ahead, right, up) => this.moved(() => this.camera.move(ahead, right, up)),
        slide: (right, up) => {
            const scale = Math.max(0.05, this.camera.distance / 600);
            this.moved(() => this.camera.move(0, right * scale, up * scale));
        },
        zoom: (factor) => this.moved(() => this.camera.zoom(factor)),
        resize: (by) => this.resize(this.size + by),
        wake: () => {
            element('cross').hidden = this.aim !== null;
            this.wake();
        },
    };

    moved(how) {
        how();
        // The eye stays near the world.
        this.camera.eye = this.camera.eye.map((value) => clamp(value, -2 * this.side, 3 * this.side));
        this.wake();
    }

    presses() {
        const choose = (name, value) => () => element('panel').querySelector(`[name=${name}][value=${value}]`).click();
        const other = (name) => () => element('panel').querySelector(`[name=${name}]:not(:checked)`).click();
        const useHere = () => {
            this.asks.wake();
            this.asks.stroke(true);
            this.asks.stroke(false);
        };
        return {
            1: choose('tool', 'dig'),
            2: choose('tool', 'fill'),
            3: choose('tool', 'smooth'),
            4: choose('tool', 'look'),
            b: other('shape'),
            f: other('camera'),
            l: () => element('levels').click(),
            k: () => element('borders').click(),
            n: () => element('smoothly').click(),
            u: () => this.undo(),
            '[': () => this.resize(this.size - 1),
            ']': () => this.resize(this.size + 1),
            '+': () => this.asks.zoom(0.85),
            '=': () => this.asks.zoom(0.85),
            '-': () => this.asks.zoom(1 / 0.85),
            Enter: useHere,
            ' ': useHere,
            Escape: () => (this.isOpening ? this.stop() : this.closeTrouble()),
        };
    }

    resize(size) {
        this.size = clamp(size, 1, Number(element('size').max));
        element('size').value = this.size;
        element('size-told').value = this.size;
        this.wake();
    }

    watchPanel() {
        element('panel').addEventListener('change', ({ target }) => {
            if (target.name === 'tool' || target.name === 'shape') {
                this[target.name] = target.value;
            } else if (target.name === 'camera') {
                this.camera.isFlying = target.value === 'fly';
            } else if (target.id === 'levels') {
                this.viewer.showLevels(target.checked);
            } else if (target.id === 'borders') {
                this.viewer.showBorders(target.checked);
            } else if (target.id === 'smoothly') {
                this.viewer.showSmooth(target.checked);
                this.worker.postMessage({ task: 'smooth', isOn: target.checked });
            }
            this.wake();
        });
        element('size').addEventListener('input', ({ target }) => this.resize(Number(target.value)));
        for (const depth of [3, 4]) {
            const make = () => this.ask({ task: 'ground', depth }, 'Making the ground …');
            element(`ground-${sideOf(depth)}`).addEventListener('click', make);
        }
        element('save').addEventListener('click', () => this.worker.postMessage({ task: 'save' }));
        element('trouble-seen').addEventListener('click', () => this.closeTrouble());
        element('stop').addEventListener('click', () => this.stop());
    }

    stop() {
        this.worker.postMessage({ task: 'stop' });
    }

    ask(task, words) {
        this.isOpening = true;
        this.say(words);
        this.worker.postMessage(task);
    }

    // ---- edits

    /** Has the brush where a click would take it. */
    aimBrush() {
        const { left, top, width, height } = this.viewer.canvas.getBoundingClientRect();
        const [x, y] = this.aim ?? [left + width / 2, top + height / 2];
        const at = { x: (2 * (x - left)) / width - 1, y: 1 - (2 * (y - top)) / height };
        const point = this.tool === 'look' || this.side === 0 ? null : this.viewer.pick(at);
        this.brush = point && this.brushAt(this.cellOf(point));
        this.viewer.showBrush(this.brush);
    }

    brushAt(at) {
        const mode = this.tool === 'dig' ? 'carve' : 'fill';
        if (this.tool !== 'smooth' && this.shape === 'ball') {
            const half = [this.size, this.size, this.size];
            const event = { do: 'ball', mode, at, r: this.size };
            return { tool: this.tool, shape: 'ball', at, middle: at, half, event };
        }
        const lo = at.map((value) => Math.max(0, value - this.size));
        const hi = at.map((value) => Math.min(this.side, value + this.size));
        const event = this.tool === 'smooth' ? { do: 'smooth', lo, hi } : { do: 'box', mode, lo, hi };
        const middle = lo.map((value, axis) => (value + hi[axis]) / 2);
        const half = lo.map((value, axis) => Math.max(0.5, (hi[axis] - value) / 2));
        return { tool: this.tool, shape: 'box', at, middle, half, event };
    }

    useTool() {
        if (this.brush && !this.isOpening) {
            this.strokeAt = { cell: this.brush.at, aim: this.aim };
            this.send(this.brush.event);
        }
    }

    /** Goes on with a stroke where the pointer has moved, and the brush with it by half its size. */
    goOn() {
        if (!this.isStroking || !this.brush || !this.strokeAt || this.waiting >= MOST_WAITING) {
            return;
        }
        const { cell, aim } = this.strokeAt;
        const far = Math.max(...this.brush.at.map((value, axis) => Math.abs(value - cell[axis])));
        const hasMoved = aim && this.aim && Math.hypot(this.aim[0] - aim[0], this.aim[1] - aim[1]) >= STROKE_STEP;
        if (hasMoved && far >= this.size / 2) {
            this.useTool();
        }
    }

    undo() {
        if (!this.isOpening) {
            this.send({ do: 'undo' });
        }
    }

    send(event) {
        this.waiting += 1;
        this.worker.postMessage({ task: 'event', event, sent: performance.now() });
    }

    /** Tells the engine where the picture is seen from, if that is another place. */
    follow() {
        const cell = this.cellOf(this.camera.eye);
        const far = Math.max(...cell.map((value, axis) => Math.abs(value - this.seenFrom[axis])));
        if (far >= VIEW_STEP && this.waiting === 0 && !this.isOpening) {
            this.seenFrom = cell;
            this.send({ do: 'camera', at: cell });
        }
    }

    // ---- the picture

    wake() {
        if (!this.isAwake) {
            this.isAwake = true;
            this.frameAt = performance.now();
            requestAnimationFrame((now) => this.frame(now));
        }
    }

    frame(now) {
        this.isAwake = false;
        const isMoving = this.moveByKeys(clamp((now - this.frameAt) / 1000, 0, 0.1));
        this.frameAt = now;
        this.viewer.look(this.camera.eye, this.camera.target);
        this.aimBrush();
        if (this.side > 0) {
            this.goOn();
            this.follow();
        }
        this.viewer.draw();
        if (isMoving && !this.isAwake) {
            this.wake();
        }
    }

    // ---- scripts, and words

    watchFiles() {
        element('load').addEventListener('click', () => element('file').click());
        element('file').addEventListener('change', ({ target }) => {
            this.loadFile(target.files[0]);
            target.value = '';
        });
        const dropping = (isOver) => document.body.classList.toggle('is-dropping', isOver);
        addEventListener('dragover', (event) => {
            event.preventDefault();
            dropping(true);
        });
        addEventListener('dragleave', (event) => event.relatedTarget === null && dropping(false));
        addEventListener('drop', (event) => {
            event.preventDefault();
            dropping(false);
            this.loadFile(event.dataTransfer.files[0]);
        });
    }

    async loadFile(file) {
        if (!file) {
            return;
        }
        if (file.size > MAX_BYTES) {
            const most = number(MAX_BYTES);
            this.trouble(`The script ${file.name} has ${number(file.size)} bytes, and ${most} are the most here.`);
            return;
        }
        this.ask({ task: 'load', text: await file.text(), name: file.name }, 'Loading the script …');
    }

    saveFile(text, count) {
        const link = document.createElement('a');
        link.href = URL.createObjectURL(new Blob([text], { type: 'application/jsonl' }));
        link.download = `terra-${count}.jsonl`;
        link.click();
        setTimeout(() => URL.revokeObjectURL(link.href), 10000);
    }

    say(words) {
        element('said').textContent = words;
        element('busy').hidden = words === '';
    }

    trouble(words) {
        element('trouble-told').textContent = words;
        element('trouble').hidden = false;
    }

    closeTrouble() {
        element('trouble').hidden = true;
    }
}

try {
    // The page by this name is for the browser's console, and for check.sh.
    globalThis.terraPage = new Page();
} catch (error) {
    const words = `This page can’t draw here: ${error.message} It needs WebGL and WebAssembly.`;
    element('trouble-told').textContent = words;
    element('trouble').hidden = false;
}
