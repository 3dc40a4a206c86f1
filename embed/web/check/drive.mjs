// Drives the page in headless Chromium, and compares what it shows with what the program writes.
//   node drive.mjs FOLDER PROGRAM OUT      FOLDER is what build.sh made; pictures and scripts go to OUT

import assert from 'node:assert/strict';
import { spawnSync } from 'node:child_process';
import { existsSync, mkdirSync, readFileSync, readdirSync, rmSync, writeFileSync } from 'node:fs';
import { join, resolve } from 'node:path';
import { Browser, pause } from './browser.mjs';
import { OF_PAGE, difference, ofShot } from './blocks.mjs';
import { serve } from './serve.mjs';

const [folder, program, out] = process.argv.slice(2).map((it) => resolve(it));
const MOST_MILLISECONDS = 4;
const WIDTH = 1280, HEIGHT = 720;
const DIGS = [
    [560, 430], [610, 445], [660, 455], [710, 450], [760, 440],
    [620, 500], [680, 510], [740, 505], [640, 560], [720, 560],
];
const median = (values) => [...values].sort((a, b) => a - b)[Math.floor(values.length / 2)];
const step = (words) => console.log(`== ${words}`);
const textOf = (id) => `document.getElementById('${id}').textContent`;
const trouble = `document.getElementById('trouble').hidden ? '' : ${textOf('trouble-told')}`;

async function open(tab, address, query = '') {
    await tab.send('Page.navigate', { url: `${address}${query}` });
    await tab.until(`globalThis.terraPage && (terraPage.side > 0 || (${trouble}) !== '')`, 'the page is loaded');
    await settled(tab);
}

/** Waits until no event is under way and the picture is drawn. */
const settled = (tab) => tab.until('terraPage.waiting === 0 && !terraPage.isAwake', 'the engine has answered');

async function dig(tab, [x, y], count) {
    await tab.mouse('mouseMoved', x, y);
    await tab.until(`terraPage.brush !== null && terraPage.aim?.[0] === ${x}`, `the brush is seen at ${x}, ${y}`);
    await tab.click(x, y);
    await tab.until(`terraPage.edits.length === ${count}`, `edit ${count} is shown`);
}

async function saved(tab, into) {
    rmSync(into, { recursive: true, force: true });
    mkdirSync(into, { recursive: true });
    await tab.browser.send('Browser.setDownloadBehavior', { behavior: 'allow', downloadPath: into });
    await tab.evaluate(`document.getElementById('save').click()`);
    for (let tries = 0; tries < 500; tries++, await pause(20)) {
        const file = readdirSync(into).find((name) => name.endsWith('.jsonl'));
        if (file) {
            return readFileSync(join(into, file), 'utf8');
        }
    }
    throw new Error('no script was saved');
}

function run(script) {
    const ran = spawnSync(program, ['run'], { input: script, maxBuffer: 2 ** 30, encoding: 'utf8' });
    assert.equal(ran.status, 0, `the program refuses the page's script: ${ran.stderr}`);
    return ofShot(ran.stdout);
}

/** Saves the page's script, runs it through the program, and compares every block. Returns the script. */
async function compare(tab, asked = (script) => script) {
    await settled(tab);
    const script = await saved(tab, join(out, 'saved'));
    const wanted = run(asked(script));
    const found = new Map(await tab.evaluate(OF_PAGE));
    assert.equal(difference(found, wanted), null);
    const rows = [...wanted.values()].flatMap((text) => text.split('\n'));
    console.log(`   ${wanted.size} blocks with ${rows.length} vertices, normals and triangles are those of the program`);
    return script;
}

function drop(tab, text, name = 'dropped.jsonl') {
    return tab.evaluate(`(() => {
        const data = new DataTransfer();
        data.items.add(new File([${JSON.stringify(text)}], ${JSON.stringify(name)}));
        dispatchEvent(new DragEvent('drop', { dataTransfer: data, cancelable: true, bubbles: true }));
    })()`);
}

const closeTrouble = (tab) => tab.evaluate(`document.getElementById('trouble-seen').click()`);

async function refused(tab, text, words) {
    await drop(tab, text);
    await tab.until(`(${trouble}).includes(${JSON.stringify(words)})`, `it is refused with “${words}”`);
    console.log(`   ${await tab.evaluate(trouble)}`);
    await closeTrouble(tab);
}

async function desktop(tab, address) {
    step('ten digs by the mouse, with the wheel between them');
    await tab.size(WIDTH, HEIGHT);
    await open(tab, address);
    for (const [n, at] of DIGS.entries()) {
        await dig(tab, at, n + 1);
        if (n === 4) {
            await tab.mouse('mouseWheel', ...at, { deltaX: 0, deltaY: -120 });
            await tab.until('terraPage.size === 8', 'the wheel makes the brush larger');
        }
    }
    const edits = await tab.evaluate('terraPage.edits');
    const [engine, page] = ['engine', 'page'].map((it) => median(edits.map((edit) => edit[it])));
    console.log(`   an edit took ${engine.toFixed(2)} ms in the worker, ${page.toFixed(2)} until it was shown (medians)`);
    console.log(`   ${await tab.evaluate(textOf('edit-told'))} ${await tab.evaluate(textOf('world-told'))}`);
    assert.ok(engine < MOST_MILLISECONDS, `an edit takes ${engine} ms`);
    const script = await compare(tab);
    await withoutDrawing(tab);
    await tab.mouse('mouseMoved', 690, 400);
    await settled(tab);
    writeFileSync(join(out, 'page.png'), await tab.picture());
    return script;
}

/** The same edits again, while the page draws nothing: here a processor draws, which takes what time there is. */
async function withoutDrawing(tab) {
    await settled(tab);
    await tab.evaluate(`terraPage.isAwake = true; terraPage.edits.length = 0`);
    for (let n = 1; n <= 20; n++) {
        const mode = n % 2 === 0 ? 'carve' : 'fill';
        await tab.evaluate(`terraPage.send({ do: 'ball', mode: '${mode}', at: [${100 + n}, 60, 100], r: 7 })`);
        await tab.until(`terraPage.edits.length === ${n}`);
    }
    const page = median((await tab.evaluate('terraPage.edits')).map((edit) => edit.page));
    console.log(`   while nothing is drawn the page has an edit after ${page.toFixed(2)} ms (median)`);
    await tab.evaluate(`terraPage.isAwake = false; terraPage.wake()`);
}

async function camera(tab) {
    step('levels change as the camera turns and moves');
    const names = 'JSON.stringify([...terraPage.viewer.shown()].map((it) => it.name).sort())';
    const before = await tab.evaluate(names);
    await tab.mouse('mousePressed', 600, 400, { button: 'right', buttons: 2, clickCount: 1 });
    for (let x = 600; x >= 400; x -= 20) {
        await tab.mouse('mouseMoved', x, 400, { button: 'right', buttons: 2 });
    }
    await tab.mouse('mouseReleased', 400, 400, { button: 'right', clickCount: 1 });
    await tab.press('f', 'KeyF');
    await tab.press('w', 'KeyW', 1200);
    await settled(tab);
    assert.notEqual(await tab.evaluate(names), before);
    await compare(tab);
    const pictures = [await tab.picture()];
    for (const key of ['k', 'l']) {
        await tab.press(key, `Key${key.toUpperCase()}`);
        await settled(tab);
        pictures.push(await tab.picture());
    }
    assert.equal(new Set(pictures.map((it) => it.toString('base64'))).size, 3, 'the switches change the picture');
}

/** With normals the blocks are those of a shot with normals, also after an edit, and the picture is another one. */
async function normals(tab) {
    step('the engine’s normals of all vertices, before and after an edit');
    const before = await tab.picture();
    await tab.press('n', 'KeyN');
    await tab.until(`[...terraPage.viewer.shown()].every((it) => it.normals.length > 0)`, 'all blocks have normals');
    await settled(tab);
    assert.notEqual((await tab.picture()).toString('base64'), before.toString('base64'));
    const count = await tab.evaluate('terraPage.edits.length');
    await tab.press('Enter', 'Enter');
    await tab.until(`terraPage.edits.length > ${count} && terraPage.waiting === 0`, 'Enter digs');
    await compare(tab, (script) => script.replace('{"do":"shot"}', '{"do":"shot","normals":true}'));
    await settled(tab);
    writeFileSync(join(out, 'normals.png'), await tab.picture());
    await tab.press('n', 'KeyN');
}

async function keyboard(tab, address) {
    step('by keyboard alone');
    await open(tab, address, '?depth=3');
    for (const [tool, shape] of [['1', ''], ['2', 'b'], ['3', '']]) {
        await tab.press(tool, `Digit${tool}`);
        if (shape) {
            await tab.press(shape, 'KeyB');
        }
        await tab.press(']', 'BracketRight');
        await tab.press('ArrowLeft', 'ArrowLeft', 100);
        await settled(tab);
        await tab.press('Enter', 'Enter');
        await tab.until(`terraPage.edits.length === ${tool}`, `Enter uses tool ${tool}`);
    }
    assert.equal(await tab.evaluate('terraPage.size'), 10);
    await compare(tab);
    await tab.press('u', 'KeyU');
    await tab.until('terraPage.edits.length === 4', 'U undoes the last of them');
    await compare(tab);
}

async function scripts(tab, script) {
    step('a script that is dropped is loaded, and one that is faulty is refused in words');
    await drop(tab, `${script}{"do":"shot","normals":true}\n{"do":"pick","at":[0,65536]}\n`);
    await tab.until('terraPage.side === 256', 'the script is loaded');
    assert.equal(await compare(tab), script);
    await refused(tab, '{"terra":1,"depth":7,"reach":1}\n', 'side of 2,048');
    const beyond = '{"terra":1,"depth":2,"reach":1}\n{"do":"ball","mode":"fill","at":[1,2,300],"r":4}\n';
    await refused(tab, beyond, 'line 2: “at”');
    await refused(tab, '{"terra":1,"depth":2,"reach":1}\n{"do":"pick","at":[0,16385]}\n', 'line 2: “at” has to be a place');
    await refused(tab, 'a picture, say', 'it isn’t JSON');
    await refused(tab, '{"terra":1,"depth":2,"reach":1}\n{"do":"undo"}\n', 'line 2: there is no edit');
    assert.equal(await compare(tab), script);
}

async function fullWorld(tab) {
    step('a world that has taken all its events refuses one more in words');
    const head = '{"terra":1,"depth":1,"reach":1}\n{"do":"ground","mode":"fill","h":16}\n';
    const away = '{"do":"away","view":1}\n';
    await refused(tab, head + away.repeat(65535), 'events, and this is one more');
    await drop(tab, head + away.repeat(65534));
    await tab.until('terraPage.side === 32', 'the script is loaded');
    await settled(tab);
    await tab.press('Enter', 'Enter');
    await tab.until(`(${trouble}).includes('takes no more')`, 'the edit is refused');
    console.log(`   ${await tab.evaluate(trouble)}`);
    await closeTrouble(tab);
    await compare(tab);
}

/** A script that takes long tells how far it is, and can be stopped; the world before it stays. */
async function stopped(tab) {
    step('a long script is stopped');
    const before = await tab.evaluate(textOf('world-told'));
    const smooth = '{"do":"smooth","lo":[0,0,0],"hi":[256,256,256]}\n';
    await drop(tab, `{"terra":1,"depth":4,"reach":1}\n${smooth.repeat(3000)}`);
    await tab.until(`/^[0-9,]+ of 3,000 events/.test(${textOf('said')})`, 'it tells how far it is');
    await tab.press('Escape', 'Escape');
    await tab.until('!terraPage.isOpening', 'it is stopped');
    assert.equal(await tab.evaluate(textOf('world-told')), before);
    await compare(tab);
}

async function stroke(tab, address) {
    step('a stroke by the mouse, with the box');
    await open(tab, address);
    await tab.press('b', 'KeyB');
    await tab.mouse('mouseMoved', 560, 480);
    await settled(tab);
    await tab.mouse('mousePressed', 560, 480, { button: 'left', buttons: 1, clickCount: 1 });
    for (let x = 560; x <= 760; x += 10) {
        await tab.mouse('mouseMoved', x, 480, { button: 'left', buttons: 1 });
        await pause(30);
    }
    await tab.mouse('mouseReleased', 760, 480, { button: 'left', clickCount: 1 });
    await settled(tab);
    const count = await tab.evaluate('terraPage.edits.length');
    const usual = median((await tab.evaluate('terraPage.edits')).map(({ engine }) => engine));
    console.log(`   ${count} edits, ${usual.toFixed(2)} ms each in the worker (median)`);
    assert.ok(count >= 4);
    await compare(tab);
}

async function memory(tab, address) {
    step('little memory: a world that doesn’t fit is refused in words, and a smaller one is made');
    await open(tab, address, '?memory=16');
    assert.match(await tab.evaluate(trouble), /memory of this page has run out/);
    console.log(`   ${await tab.evaluate(trouble)}`);
    await closeTrouble(tab);
    await tab.evaluate(`document.getElementById('ground-128').click()`);
    await tab.until('terraPage.side === 128', 'a world of side 128 is made');
    await compare(tab);
    step('edits until the memory runs out: that is told, and the script can be saved');
    for (let n = 0; n < 60 && !(await tab.evaluate(trouble)); n++) {
        await tab.evaluate(`for (let n = 0; n < 50; n++) {
            const at = [${n} * 41, n * 29, n * 7 + ${n}].map((it, axis) => axis < 2 ? it % 129 : 40 + it % 24);
            terraPage.send({ do: 'ball', mode: n % 2 ? 'fill' : 'carve', at, r: 5 });
        }`);
        await settled(tab);
    }
    assert.match(await tab.evaluate(trouble), /memory of this page has run out/);
    await closeTrouble(tab);
    const script = await saved(tab, join(out, 'saved'));
    console.log(`   with ${script.split('\n').length - 3} events`);
    run(script);
}

async function phone(tab, address) {
    step('on a phone: a tap, one finger and two, and no part beyond the width');
    await tab.size(375, 667, true);
    await tab.send('Emulation.setTouchEmulationEnabled', { enabled: true });
    await open(tab, address, '?depth=3');
    const beyond = await tab.evaluate(`[...document.querySelectorAll('header, #panel, #panel *, footer')]
        .map((it) => it.getBoundingClientRect())
        .filter(({ left, right, width }) => width > 0 && (left < 0 || right > innerWidth)).length`);
    assert.equal(beyond, 0);
    assert.ok(await tab.evaluate('document.documentElement.scrollWidth <= innerWidth'));
    await tab.tap(187, 250);
    await tab.until('terraPage.edits.length === 1', 'a tap digs');
    const seen = 'JSON.stringify([terraPage.camera.yaw, terraPage.camera.distance].map((it) => it.toFixed(3)))';
    const [yaw, distance] = JSON.parse(await tab.evaluate(seen));
    await tab.touch('touchStart', { x: 150, y: 200 });
    await tab.touch('touchMove', { x: 210, y: 220 });
    await tab.touch('touchMove', { x: 230, y: 220 });
    await tab.touch('touchEnd');
    await tab.touch('touchStart', { x: 150, y: 200, id: 1 }, { x: 200, y: 200, id: 2 });
    await tab.touch('touchMove', { x: 140, y: 200, id: 1 }, { x: 240, y: 200, id: 2 });
    await tab.touch('touchEnd');
    const [turned, nearer] = JSON.parse(await tab.evaluate(seen));
    assert.ok(turned !== yaw && Number(nearer) < Number(distance), 'one finger turns, two zoom');
    assert.equal(await tab.evaluate('terraPage.edits.length'), 1);
    await settled(tab);
    writeFileSync(join(out, 'phone.png'), await tab.picture());
    await compare(tab);
}

const { server, address } = await serve(folder);
const browser = new Browser(process.env.CHROMIUM ?? 'chromium');
for (const signal of ['SIGINT', 'SIGTERM']) {
    process.once(signal, () => browser.close().finally(() => process.exit(1)));
}
try {
    assert.ok(existsSync(join(folder, 'terra.wasm')), 'embed/web/build.sh makes the page first');
    mkdirSync(out, { recursive: true });
    const tab = await browser.tab();
    const script = await desktop(tab, address);
    await camera(tab);
    await normals(tab);
    await keyboard(tab, address);
    await scripts(tab, script);
    await fullWorld(tab);
    await stopped(tab);
    await stroke(tab, address);
    await memory(tab, address);
    await phone(tab, address);
    step('no error in the console');
    assert.deepEqual(tab.errors, []);
} catch (error) {
    console.error(error);
    process.exitCode = 1;
} finally {
    await browser.close();
    server.close();
}
