// The ground that a new world begins with: hills, the same for the same number.

import { sideOf } from './script.js';

/** Returns the settings and the events of a world of this depth, with the place that it is first seen from. */
export function hills(depth, seed = 7) {
    const side = sideOf(depth);
    const scale = side / 256;
    let state = seed;
    const draw = (below) => {
        state = (Math.imul(state, 1664525) + 1013904223) >>> 0;
        return Math.floor((state / 2 ** 32) * below);
    };
    const cells = (of256) => Math.round(of256 * scale);
    const events = [{ do: 'ground', mode: 'fill', h: cells(104) }];
    for (let n = 0; n < 80; n++) {
        const isHole = n % 4 === 0;
        events.push({
            do: 'ball',
            mode: isHole ? 'carve' : 'fill',
            at: [draw(side + 1), draw(side + 1), cells(isHole ? 108 : 84) + draw(cells(16) + 1)],
            r: cells(10) + draw(cells(28) + 1),
        });
    }
    for (let n = 0; n < 2; n++) {
        events.push({ do: 'smooth', lo: [0, 0, cells(40)], hi: [side, side, cells(180)] });
    }
    events.push({ do: 'camera', at: [cells(118), cells(34), cells(158)] });
    return { settings: { depth, reach: 2 }, events };
}
