// The blocks of the page, and those of a shot that the program wrote, as texts that can be compared.

/** A block's name, and the lines of its vertices, its normals if it has them, and its triangles. */
export function linesOf({ name, positions, normals = [], indices }) {
    const rows = (numbers, write) =>
        Array.from({ length: numbers.length / 3 }, (_, n) => [0, 1, 2].map((k) => write(numbers[3 * n + k])).join(' '));
    return [name, [...rows(positions, (it) => it.toFixed(8)), ...rows(normals, String), ...rows(indices, String)].join('\n')];
}

/** Run in the page: the same of each block that it shows. */
export const OF_PAGE = `[...terraPage.viewer.shown()].map(${linesOf})`;

/** The same of the only shot of an OBJ, by the names of its groups. */
export function ofShot(text) {
    const blocks = new Map();
    let lines = null;
    let vertices = 0;
    let base = 0;
    for (const line of text.split('\n')) {
        const [kind, ...words] = line.split(' ');
        if (kind === 'g') {
            lines = [];
            base = vertices;
            blocks.set(words[0], lines);
        } else if (kind === 'v') {
            lines.push(words.join(' '));
            vertices += 1;
        } else if (kind === 'vn') {
            lines.push(words.join(' '));
        } else if (kind === 'f') {
            lines.push(words.map((it) => Number(it.split('/')[0]) - 1 - base).join(' '));
        }
    }
    return new Map([...blocks].map(([name, rows]) => [name, rows.join('\n')]));
}

/** Returns in words where two maps of blocks differ, or null. */
export function difference(found, wanted) {
    for (const [name, text] of wanted) {
        if (!found.has(name)) {
            return `the page lacks ${name}`;
        }
        if (found.get(name) !== text) {
            return `${name} is another one on the page`;
        }
    }
    const more = [...found.keys()].find((name) => !wanted.has(name));
    return more ? `the page has ${more} too` : null;
}
