'use strict';

// What a pixel comes from. 0: it is not told.
const DATA = 1, FRONT = 2, BACK = 3, NEW = 4;
const NO_CODE = 0xFF;
const LARGEST_PIXEL = 64; // on the screen, by zooming
const SMALL = 40; // pixels across a small picture
const HEX_ROW = 16, HEX_ROWS = 3; // bytes in a row, rows before and behind the byte's

const element = (id) => document.getElementById(id);

/// A new element with a class and what stands in it.
function made(name, kind, ...inside) {
    const node = document.createElement(name);
    if (kind) node.className = kind;
    node.append(...inside);
    return node;
}

// ---- what was told when the page was made

async function unpacked(text) {
    const bytes = Uint8Array.from(atob(text), (digit) => digit.charCodeAt(0));
    const stream = new Blob([bytes]).stream().pipeThrough(new DecompressionStream('deflate'));
    return new Uint8Array(await new Response(stream).arrayBuffer());
}

async function unpackedDrawing(drawing) {
    for (const name of ['pixels', 'colours', 'codes', 'origins', 'packet']) {
        drawing[name] = await unpacked(drawing[name]);
    }
    drawing.width = 8 * drawing.columns;
    drawing.height = 8 * drawing.rows;
    drawing.numbers = numbers(drawing);
    drawing.image = image(drawing);
    return drawing;
}

/// The byte of the packet or the pixel that each pixel comes from. The bytes are counted from the one
/// before, the pixels from the pixel itself.
function numbers({ origins, columns, width }) {
    const count = origins.length / 4;
    const found = new Int32Array(count);
    let byte = 0;
    for (let at = 0; at < count; at++) {
        const [low, middle, high] = [1, 2, 3].map((plane) => origins[plane * count + at]);
        const number = (low | middle << 8 | high << 16) << 8 >> 8; // the highest bit is the sign
        if (origins[at] === DATA) {
            byte += number;
            found[at] = byte;
        } else {
            const block = at >> 6;
            const x = block % columns * 8 + at % 8;
            const y = Math.floor(block / columns) * 8 + (at >> 3) % 8;
            found[at] = y * width + x + number;
        }
    }
    return found;
}

/// The picture as it is drawn on canvases.
function image({ width, height, pixels, colours }) {
    const canvas = document.createElement('canvas');
    canvas.width = width;
    canvas.height = height;
    const context = canvas.getContext('2d');
    const data = context.createImageData(width, height);
    pixels.forEach((entry, at) => {
        for (let part = 0; part < 3; part++) data.data[4 * at + part] = colours[3 * entry + part];
        data.data[4 * at + 3] = 255;
    });
    context.putImageData(data, 0, 0);
    return canvas;
}

// ---- the chain of a pixel

const hex = (number, digits) => number.toString(16).toUpperCase().padStart(digits, '0');

/// The pixel's links, from the picture of the page on: each leads to the next.
function chain(told, x, y) {
    const links = [];
    for (let at = 0; at !== null;) {
        const drawing = told.drawings[at];
        const link = { drawing, x, y, ...origin(drawing, x, y) };
        links.push(link);
        if (link.kind === DATA || link.kind === 0) return links;
        const source = link.kind === FRONT ? drawing.front : drawing.back;
        const own = { picture: drawing.picture, at };
        link.source = link.kind === NEW ? own : source;
        at = link.source === null ? null : link.source.at;
        [x, y] = [link.from.x, link.from.y];
    }
    return links;
}

function origin(drawing, x, y) {
    const block = (y >> 3) * drawing.columns + (x >> 3);
    const at = block * 64 + y % 8 * 8 + x % 8;
    const [code, kind, number] = [drawing.codes[block], drawing.origins[at], drawing.numbers[at]];
    const from = { x: number % drawing.width, y: Math.floor(number / drawing.width) };
    return { block, code, kind, byte: number, from };
}

/// What gave a link's pixel its value, in the words of `mve why`.
function words({ drawing, code, kind, byte, from, source }) {
    if (kind === DATA) {
        return `byte ${drawing.start + byte} of the film, byte ${byte} of its packet`;
    }
    if (kind === 0) return 'not told in this page';
    const copied = `${code === 1 ? 'kept' : 'copied'} from ${from.x}, ${from.y} of`;
    if (source === null) return `${copied} a picture as it was before the film`;
    const before = source.picture === drawing.picture && kind !== NEW;
    return `${copied} picture ${source.picture}${before ? ' as it was drawn before' : ''}`;
}

// ---- the picture and its overlays

/// The picture on the screen: a pixel takes `scale` of the screen's, the corner is at `left`, `top`.
const view = { scale: 1, left: 0, top: 0 };
let told, chosen = null;

function fit() {
    const { clientWidth: wide, clientHeight: high } = element('picture');
    const { width, height } = told.drawings[0];
    const scale = Math.min(wide / width, high / height);
    view.scale = Math.min(scale >= 1 ? Math.floor(scale) : scale, LARGEST_PIXEL);
    view.left = Math.floor((wide - width * view.scale) / 2);
    view.top = Math.floor((high - height * view.scale) / 2);
    paint();
}

/// Zooms so that what is at x, y of the canvas stays there.
function zoom(factor, x, y) {
    const { clientWidth, clientHeight } = element('picture');
    const { width, height } = told.drawings[0];
    const least = Math.min(1, clientWidth / width, clientHeight / height) / 2;
    const scale = Math.min(Math.max(view.scale * factor, least), LARGEST_PIXEL);
    view.left = x - (x - view.left) * scale / view.scale;
    view.top = y - (y - view.top) * scale / view.scale;
    view.scale = scale;
    paint();
}

function zoomMiddle(factor) {
    const { clientWidth, clientHeight } = element('picture');
    zoom(factor, clientWidth / 2, clientHeight / 2);
}

function paint() {
    const canvas = element('picture');
    const ratio = window.devicePixelRatio || 1;
    canvas.width = Math.round(canvas.clientWidth * ratio);
    canvas.height = Math.round(canvas.clientHeight * ratio);
    const context = canvas.getContext('2d');
    const drawing = told.drawings[0];
    context.imageSmoothingEnabled = false;
    context.setTransform(ratio * view.scale, 0, 0, ratio * view.scale, ratio * view.left, ratio * view.top);
    context.drawImage(drawing.image, 0, 0);
    if (element('codes').checked) paintCodes(context, drawing);
    if (element('touched').checked) paintRows(context, drawing);
    if (chosen) frame(context, chosen.x, chosen.y, 1, view.scale);
    Object.assign(canvas.dataset, view); // for those who look from outside
}

const tint = ([red, green, blue], part) => `rgb(${red} ${green} ${blue} / ${part})`;

function paintCodes(context, { columns, codes }) {
    context.font = 'bold 3px monospace';
    context.textAlign = 'center';
    context.textBaseline = 'middle';
    codes.forEach((code, block) => {
        const [x, y] = [block % columns * 8, Math.floor(block / columns) * 8];
        const known = told.codes.find((other) => other.code === code);
        context.fillStyle = tint(known ? known.tint : [0, 0, 0], 0.5);
        context.fillRect(x, y, 8, 8);
        if (view.scale < 3) return;
        context.fillStyle = '#ffffff';
        context.fillText(hex(code, 1), x + 4, y + 4.2);
    });
}

/// The rows that were not touched are dimmed, those that were are framed.
function paintRows(context, { width, height, touched }) {
    const [first, end] = touched === null ? [0, 0] : [8 * touched[0], 8 * touched[1] + 8];
    context.fillStyle = 'rgb(0 0 0 / 0.65)';
    context.fillRect(0, 0, width, first);
    context.fillRect(0, end, width, height - end);
    if (touched === null) return;
    context.strokeStyle = '#ffcc00';
    context.lineWidth = 2 / view.scale;
    context.strokeRect(0, first, width, end - first);
}

/// A frame around pixels, which shows on every colour.
function frame(context, x, y, size, scale) {
    for (const [colour, wide] of [['#000000', 3], ['#ffffff', 1]]) {
        context.strokeStyle = colour;
        context.lineWidth = wide / scale;
        context.strokeRect(x - 1 / scale, y - 1 / scale, size + 2 / scale, size + 2 / scale);
    }
}

// ---- what is shown of a pixel

function show(x, y) {
    chosen = { x, y };
    const links = chain(told, x, y);
    const last = links[links.length - 1];
    element('x').value = x;
    element('y').value = y;
    element('pixel').textContent = `Picture ${told.picture}, pixel ${x}, ${y}`;
    element('colour').replaceChildren(...colour(x, y));
    element('steps').replaceChildren(...links.map(step));
    element('further').replaceChildren(...further(last, x, y));
    element('spoken').textContent = spoken(links, x, y);
    paint();
}

function colourWords(x, y) {
    const { pixels, width, colours } = told.drawings[0];
    const entry = pixels[y * width + x];
    const [red, green, blue] = told.palette.subarray(3 * entry, 3 * entry + 3);
    const wide = Array.from(colours.subarray(3 * entry, 3 * entry + 3), (part) => hex(part, 2)).join('');
    return { wide: `#${wide}`, text: `entry ${entry}, red ${red}, green ${green}, blue ${blue} of 63 (#${wide})` };
}

function colour(x, y) {
    const { wide, text } = colourWords(x, y);
    const swatch = made('span', 'swatch');
    swatch.style.background = wide;
    return [swatch, text];
}

const meaning = (code) => told.codes.find((other) => other.code === code)?.meaning ?? 'not told';

function codeWords({ block, code }) {
    return `block ${block}, code ${code === NO_CODE ? '?' : hex(code, 1)}: ${meaning(code)}`;
}

/// A link as an item of the list.
function step(link) {
    const { drawing, x, y, kind } = link;
    const text = made('div', '',
        made('div', 'where', `Picture ${drawing.picture}, pixel ${x}, ${y}`),
        made('div', 'block', codeWords(link)),
        made('div', 'origin', words(link)));
    const item = made('li', '', small(link), text);
    if (kind === DATA) item.append(made('div', 'bytes', bytes(link)));
    return item;
}

/// The picture around a link's pixel, with its block and itself in frames.
function small({ drawing, x, y }) {
    const canvas = document.createElement('canvas');
    canvas.width = canvas.height = 120 * (window.devicePixelRatio || 1);
    canvas.setAttribute('role', 'img');
    canvas.setAttribute('aria-label', `Picture ${drawing.picture} around pixel ${x}, ${y}`);
    const context = canvas.getContext('2d');
    const scale = canvas.width / SMALL;
    const corner = (at, length) => Math.max(0, Math.min(at - SMALL / 2, length - SMALL));
    context.imageSmoothingEnabled = false;
    context.setTransform(scale, 0, 0, scale, -scale * corner(x, drawing.width), -scale * corner(y, drawing.height));
    context.drawImage(drawing.image, 0, 0);
    context.strokeStyle = '#ffcc00';
    context.lineWidth = 2 / scale;
    context.strokeRect(x & ~7, y & ~7, 8, 8);
    frame(context, x, y, 1, scale);
    return canvas;
}

/// The bytes of the packet around a link's byte, by their place in the film.
function bytes({ drawing: { start, packet }, byte }) {
    const row = Math.floor((start + byte) / HEX_ROW);
    const body = made('tbody', '');
    for (let line = row - HEX_ROWS; line <= row + HEX_ROWS; line++) {
        const cells = [];
        for (let at = line * HEX_ROW - start; at < (line + 1) * HEX_ROW - start; at++) {
            const text = at < 0 || at >= packet.length ? '' : hex(packet[at], 2);
            cells.push(made('td', '', at === byte ? made('mark', '', text) : text));
        }
        if (cells.every((cell) => cell.textContent === '')) continue;
        const head = made('th', '', hex(line * HEX_ROW, 8));
        head.scope = 'row';
        body.append(made('tr', '', head, ...cells));
    }
    return made('table', 'hex', made('caption', '', `The packet around byte ${start + byte} of the film`), body);
}

/// What to do where the chain goes on behind the page.
function further({ kind, source }, x, y) {
    if (kind === DATA || source === null) return [];
    const line = `mve why ${told.film} ${told.picture} ${x} ${y}`;
    return ['The chain goes on behind what this page has. This tells all of it: ', made('code', '', line)];
}

/// For those who hear the page.
function spoken(links, x, y) {
    const end = words(links[links.length - 1]);
    const steps = links.length === 1 ? '1 step' : `${links.length} steps`;
    return `Pixel ${x}, ${y}, ${colourWords(x, y).text}. ${codeWords(links[0])}. ${steps}, the last: ${end}.`;
}

// ---- hands

/// The pixel under a pointer; none outside the picture.
function under(event) {
    const box = element('picture').getBoundingClientRect();
    const canvas = element('picture');
    const x = Math.floor((event.clientX - box.left - canvas.clientLeft - view.left) / view.scale);
    const y = Math.floor((event.clientY - box.top - canvas.clientTop - view.top) / view.scale);
    const { width, height } = told.drawings[0];
    return x >= 0 && y >= 0 && x < width && y < height ? { x, y } : null;
}

/// Moves the chosen pixel, inside the picture, and the picture so that it is seen.
function move(right, down) {
    const { width, height } = told.drawings[0];
    const inside = (at, length) => Math.max(0, Math.min(at, length - 1));
    const from = chosen ?? { x: 0, y: 0 };
    const [x, y] = [inside(from.x + right, width), inside(from.y + down, height)];
    const { clientWidth, clientHeight } = element('picture');
    const seen = (corner, at, length) =>
        Math.min(Math.max(corner, -at * view.scale), length - (at + 1) * view.scale);
    view.left = seen(view.left, x, clientWidth);
    view.top = seen(view.top, y, clientHeight);
    show(x, y);
}

const ARROWS = { ArrowLeft: [-1, 0], ArrowRight: [1, 0], ArrowUp: [0, -1], ArrowDown: [0, 1] };

function toggle(id) {
    element(id).checked = !element(id).checked;
    paint();
}

function press(event) {
    if (event.ctrlKey || event.altKey || event.metaKey) return;
    const far = event.shiftKey ? 8 : 1;
    const arrow = ARROWS[event.key];
    const others = {
        '+': () => zoomMiddle(1.5), '-': () => zoomMiddle(1 / 1.5), 0: fit,
        c: () => toggle('codes'), t: () => toggle('touched'),
    };
    const other = others[event.key.toLowerCase()];
    if (!arrow && !other) return;
    event.preventDefault();
    if (arrow) move(far * arrow[0], far * arrow[1]);
    else other();
}

/// A press that moves drags the picture; one that does not chooses the pixel.
function listenToPointer(canvas) {
    let held = null;
    canvas.addEventListener('pointerdown', (event) => {
        held = { x: event.clientX, y: event.clientY, left: view.left, top: view.top, drags: false };
        canvas.setPointerCapture(event.pointerId);
    });
    canvas.addEventListener('pointermove', (event) => {
        if (!held) return;
        const [right, down] = [event.clientX - held.x, event.clientY - held.y];
        held.drags ||= Math.hypot(right, down) > 4;
        if (!held.drags) return;
        [view.left, view.top] = [held.left + right, held.top + down];
        paint();
    });
    canvas.addEventListener('pointerup', (event) => {
        const pixel = held && !held.drags ? under(event) : null;
        held = null;
        if (pixel) show(pixel.x, pixel.y);
    });
    canvas.addEventListener('pointercancel', () => { held = null; });
}

function listen() {
    const canvas = element('picture');
    listenToPointer(canvas);
    canvas.addEventListener('wheel', (event) => {
        event.preventDefault();
        const box = canvas.getBoundingClientRect();
        const factor = 1.2 ** (-event.deltaY / 100);
        zoom(factor, event.clientX - box.left - canvas.clientLeft, event.clientY - box.top - canvas.clientTop);
    }, { passive: false });
    canvas.addEventListener('keydown', press);
    element('codes').addEventListener('change', paint);
    element('touched').addEventListener('change', paint);
    element('in').addEventListener('click', () => zoomMiddle(1.5));
    element('out').addEventListener('click', () => zoomMiddle(1 / 1.5));
    element('fit').addEventListener('click', fit);
    element('go').addEventListener('submit', (event) => {
        event.preventDefault();
        show(element('x').valueAsNumber, element('y').valueAsNumber);
    });
    window.addEventListener('resize', fit);
}

// ---- the beginning

function describe() {
    const { width, height, touched } = told.drawings[0];
    const title = `${told.film}, picture ${told.picture}`;
    document.title = `${title} – mve why`;
    element('title').textContent = title;
    element('about').textContent =
        `${width}x${height} pixels. Where each pixel comes from was told by the proved library ` +
        `when this page was made. Chains go back to picture ${told.back_to}.`;
    element('picture').setAttribute('aria-label', `${title}, ${width} by ${height} pixels`);
    element('x').max = width - 1;
    element('y').max = height - 1;
    element('rows').textContent = touched === null
        ? 'No row of blocks is touched.'
        : `Touched rows of blocks: ${touched[0]} to ${touched[1]}, counted from 0.`;
}

function describeCodes() {
    for (const { code, meaning: text, tint: colour } of told.codes) {
        const count = told.drawings[0].codes.filter((other) => other === code).length;
        if (count === 0) continue;
        const swatch = made('span', 'swatch');
        swatch.style.background = tint(colour, 1);
        const row = made('tr', '', made('th', '', swatch, hex(code, 1)), made('td', '', String(count)), made('td', '', text));
        row.firstChild.scope = 'row';
        element('legend').tBodies[0].append(row);
    }
}

async function begin() {
    if (!('DecompressionStream' in window)) {
        element('about').textContent = 'This browser is too old for the page: it lacks DecompressionStream.';
        return;
    }
    const given = JSON.parse(element('told').textContent);
    given.palette = await unpacked(given.palette);
    given.drawings = await Promise.all(given.drawings.map(unpackedDrawing));
    told = given;
    describe();
    describeCodes();
    listen();
    fit();
}

const begun = begin();
