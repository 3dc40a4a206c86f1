// Scripts for `terra run`: one line for the head, one for each command. docs/formats.md has all of the rules.

export const MAX_DEPTH = 6, MAX_REACH = 8, MAX_EVENTS = 65535, MAX_LINE = 4096, MAX_BYTES = 2 ** 23;
const MAX_VIEW = 7, UNITS = 256;

/** A line that isn't understood. */
export class Fault extends Error {
    constructor(line, words) {
        super(`line ${line}: ${words}`);
    }
}

export const sideOf = (depth) => 16 << depth;

const isWhole = (value, least, most) =>
    Number.isInteger(value) && !Object.is(value, -0) && value >= least && value <= most;
const areWhole = (value, count, most) =>
    Array.isArray(value) && value.length === count && value.every((it) => isWhole(it, 0, most));

/** What each member of such a command has to be, in words and as a test. */
function members(form, side) {
    const point = [`a point: three whole numbers from 0 to ${side}`, (value) => areWhole(value, 3, side)];
    const most = UNITS * side;
    const place = [`a place: two whole numbers from 0 to ${most}`, (value) => areWhole(value, 2, most)];
    return {
        mode: ['“fill” or “carve”', (value) => value === 'fill' || value === 'carve'],
        lo: point,
        hi: point,
        at: form === 'pick' ? place : point,
        r: [`a whole number from 1 to ${side}`, (value) => isWhole(value, 1, side)],
        h: [`a whole number from 0 to ${side}`, (value) => isWhole(value, 0, side)],
        view: [`a whole number from 0 to ${MAX_VIEW}`, (value) => isWhole(value, 0, MAX_VIEW)],
        normals: ['true or false', (value) => typeof value === 'boolean'],
    };
}

const FORMS = {
    box: ['mode', 'lo', 'hi'],
    ball: ['mode', 'at', 'r'],
    ground: ['mode', 'h'],
    smooth: ['lo', 'hi'],
    camera: ['at'],
    away: ['view'],
    undo: [],
    shot: [],
    stats: [],
    pick: ['at'],
};
const OPTIONAL = { camera: ['view'], shot: ['normals'] };
const OUTPUTS = ['shot', 'stats', 'pick'];

function parsed(line, number) {
    if (new TextEncoder().encode(line).length > MAX_LINE) {
        throw new Fault(number, `it is longer than ${MAX_LINE} bytes`);
    }
    let value;
    try {
        value = JSON.parse(line);
    } catch {
        throw new Fault(number, 'it isn’t JSON');
    }
    if (value === null || typeof value !== 'object' || Array.isArray(value)) {
        throw new Fault(number, 'it isn’t a JSON object');
    }
    // 1.0 and 1e2 are whole numbers to JavaScript, and none to the program.
    if (/[0-9][.eE]/.test(line.replace(/"(\\.|[^"\\])*"/g, ''))) {
        throw new Fault(number, 'a number has a fraction or an exponent');
    }
    return value;
}

function expectMembers(value, wanted, number, optional = []) {
    for (const name of wanted) {
        if (!Object.hasOwn(value, name)) {
            throw new Fault(number, `“${name}” is missing`);
        }
    }
    for (const name of Object.keys(value)) {
        if (!wanted.includes(name) && !optional.includes(name)) {
            throw new Fault(number, `“${name}” doesn’t belong here`);
        }
    }
}

function readHead(value, number) {
    expectMembers(value, ['terra', 'depth', 'reach'], number);
    if (value.terra !== 1) {
        throw new Fault(number, '“terra” has to be 1');
    }
    if (isWhole(value.depth, MAX_DEPTH + 1, 60)) {
        const side = (16n << BigInt(value.depth)).toLocaleString('en');
        const largest = `the largest has ${sideOf(MAX_DEPTH)} (depth ${MAX_DEPTH})`;
        throw new Fault(number, `a world of depth ${value.depth} has a side of ${side}; ${largest}`);
    }
    if (!isWhole(value.depth, 0, MAX_DEPTH)) {
        throw new Fault(number, `“depth” has to be a whole number from 0 to ${MAX_DEPTH}`);
    }
    if (!isWhole(value.reach, 0, MAX_REACH)) {
        throw new Fault(number, `“reach” has to be a whole number from 0 to ${MAX_REACH}`);
    }
    return { depth: value.depth, reach: value.reach };
}

function readCommand(value, side, number) {
    if (Object.hasOwn(value, 'do') && !Object.hasOwn(FORMS, String(value.do))) {
        throw new Fault(number, `“${value.do}” isn’t a command`);
    }
    expectMembers(value, ['do', ...(FORMS[value.do] ?? [])], number, OPTIONAL[value.do]);
    const rules = members(value.do, side);
    for (const [name, given] of Object.entries(value)) {
        if (name !== 'do' && !rules[name][1](given)) {
            throw new Fault(number, `“${name}” has to be ${rules[name][0]}`);
        }
    }
    if (value.lo && value.lo.some((least, axis) => least > value.hi[axis])) {
        throw new Fault(number, '“lo” is above “hi”');
    }
    return value;
}

/** Reads a script, and returns its settings and its events; what asks for output is looked at and left out. */
export function readScript(text) {
    let settings = null;
    const events = [];
    let inForce = 0; // how many edits are
    text.split('\n').forEach((line, n) => {
        const number = n + 1;
        if (/^[ \t\r]*$/.test(line)) {
            return;
        }
        const value = parsed(line, number);
        if (settings === null) {
            settings = readHead(value, number);
            return;
        }
        const command = readCommand(value, sideOf(settings.depth), number);
        if (OUTPUTS.includes(command.do)) {
            return;
        }
        if (events.length === MAX_EVENTS) {
            throw new Fault(number, `a world takes ${MAX_EVENTS.toLocaleString('en')} events, and this is one more`);
        }
        if (command.do === 'undo' && inForce === 0) {
            throw new Fault(number, 'there is no edit to undo');
        }
        if (command.do === 'undo') {
            inForce -= 1;
        } else if (command.do !== 'camera' && command.do !== 'away') {
            inForce += 1;
        }
        events.push(command);
    });
    if (settings === null) {
        throw new Fault(1, 'there is no head, as {"terra":1,"depth":3,"reach":1}');
    }
    return { settings, events };
}

/** Writes a script that makes this world, and a shot of it. */
export function writeScript({ depth, reach }, events) {
    const lines = [{ terra: 1, depth, reach }, ...events, { do: 'shot' }];
    return lines.map((line) => `${JSON.stringify(line)}\n`).join('');
}
