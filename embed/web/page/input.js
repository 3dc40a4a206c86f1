// Mouse, fingers and keys, as what they ask for: turn, move, zoom, aim, begin and end a stroke.

const TURN = 0.005;
const TAP = 10; // pixels that a finger may move in a tap
const NOTCH = 40; // pixels that a wheel turns for a step; a notch of a mouse is more
const isForControl = (target, key) =>
    target.closest?.('input, button, summary') != null && /^(Arrow.*|Enter| |Home|End|Page.*)$/.test(key);

/** Calls `on` with what pointers over the canvas ask for. */
export function watchPointers(canvas, on) {
    const fingers = new Map();
    let drag = null; // what a mouse button does: 'stroke', 'turn' or 'slide'
    let turned = 0; // how far the wheel has turned since its last step
    let tap = null; // where a finger went down that has not moved yet
    const spread = () => {
        const [a, b] = [...fingers.values()];
        return { apart: Math.hypot(a.x - b.x, a.y - b.y), x: (a.x + b.x) / 2, y: (a.y + b.y) / 2 };
    };

    canvas.addEventListener('pointerdown', (event) => {
        canvas.setPointerCapture(event.pointerId);
        on.aim(event.clientX, event.clientY);
        if (event.pointerType === 'touch') {
            fingers.set(event.pointerId, { x: event.clientX, y: event.clientY });
            tap = fingers.size === 1 ? { x: event.clientX, y: event.clientY } : null;
            return;
        }
        const isSlide = event.button === 1 || (event.button === 2 && event.shiftKey);
        const isTurn = event.button === 2 || on.isLooking();
        drag = isSlide ? 'slide' : isTurn ? 'turn' : 'stroke';
        if (drag === 'stroke') {
            on.stroke(true);
        }
    });

    canvas.addEventListener('pointermove', (event) => {
        if (event.pointerType !== 'touch') {
            on.aim(event.clientX, event.clientY);
            if (drag === 'turn') {
                on.turn(-event.movementX * TURN, -event.movementY * TURN);
            } else if (drag === 'slide') {
                on.slide(-event.movementX, event.movementY);
            }
            return;
        }
        const finger = fingers.get(event.pointerId);
        if (!finger) {
            return;
        }
        const before = fingers.size === 2 ? spread() : null;
        const moved = { x: event.clientX - finger.x, y: event.clientY - finger.y };
        if (tap && Math.hypot(event.clientX - tap.x, event.clientY - tap.y) > TAP) {
            tap = null;
        }
        Object.assign(finger, { x: event.clientX, y: event.clientY });
        if (before) {
            const after = spread();
            on.zoom(before.apart / Math.max(1, after.apart));
            on.slide(before.x - after.x, after.y - before.y);
        } else if (!tap) {
            on.turn(-moved.x * TURN, -moved.y * TURN);
        }
    });

    const end = (event) => {
        if (event.pointerType === 'touch') {
            fingers.delete(event.pointerId);
            if (tap && event.type === 'pointerup' && !on.isLooking()) {
                on.aim(tap.x, tap.y);
                on.stroke(true);
                on.stroke(false);
            }
            tap = null;
            return;
        }
        if (drag === 'stroke') {
            on.stroke(false);
        }
        drag = null;
    };
    canvas.addEventListener('pointerup', end);
    canvas.addEventListener('pointercancel', end);
    canvas.addEventListener('pointerleave', (event) => event.pointerType === 'mouse' && drag === null && on.aimAway());
    canvas.addEventListener('contextmenu', (event) => event.preventDefault());
    canvas.addEventListener(
        'wheel',
        (event) => {
            event.preventDefault();
            if (event.ctrlKey || event.shiftKey || event.altKey) {
                on.zoom(Math.exp((event.deltaY || event.deltaX) * 0.002));
            } else {
                turned += event.deltaMode === 0 ? event.deltaY : NOTCH * Math.sign(event.deltaY);
                if (Math.abs(turned) >= NOTCH) {
                    on.resize(-Math.sign(turned));
                    turned = 0;
                }
            }
        },
        { passive: false },
    );
}

const MOVES = { w: [1, 0, 0], s: [-1, 0, 0], d: [0, 1, 0], a: [0, -1, 0], e: [0, 0, 1], q: [0, 0, -1] };
const TURNS = { ArrowLeft: [1, 0], ArrowRight: [-1, 0], ArrowUp: [0, 1], ArrowDown: [0, -1] };

/** Calls `on` for keys, and returns what moves as long as its keys are held: a function of the seconds that went by. */
export function watchKeys(on, presses) {
    const held = new Set();
    const keyOf = (event) => (event.key.length === 1 ? event.key.toLowerCase() : event.key);
    addEventListener('keydown', (event) => {
        const key = keyOf(event);
        if (event.ctrlKey || event.metaKey || event.altKey || isForControl(event.target, key)) {
            return;
        }
        if (key in MOVES || key in TURNS) {
            held.add(key);
            on.wake();
        } else if (presses[key]) {
            presses[key]();
        } else {
            return;
        }
        event.preventDefault();
    });
    addEventListener('keyup', (event) => held.delete(keyOf(event)));
    addEventListener('blur', () => held.clear());
    return (seconds) => {
        for (const key of held) {
            if (MOVES[key]) {
                on.move(...MOVES[key].map((it) => it * 60 * seconds));
            } else {
                on.turn(...TURNS[key].map((it) => it * 1.6 * seconds));
            }
        }
        return held.size > 0;
    };
}
