// The page in a real browser: node tests/page/browser.mjs CHROMIUM [FOLDER]. tests/page/run calls it; screenshots go to FOLDER.
//
// It loads target/page/kihavute.html from disk, types, drags, zooms, drops files and presses keys, and looks at what the page shows.
import fs from "node:fs";
import os from "node:os";
import path from "node:path";
import { chromium, sleep } from "./chromium.mjs";

const [program, folder] = process.argv.slice(2), home = path.resolve(import.meta.dirname, "../..");
const url = `file://${home}/target/page/kihavute.html`, web = await chromium(program), { run } = web;
let passed = 0, failed = 0;
const expect = (right, what) => {
  if (right) passed++;
  else console.log(`page: ${what}`), failed++;
};
const quiet = () => expect(!web.said.length, `the console says ${web.said.splice(0).slice(0, 2)}`);
const shot = (name, whole) => folder && web.shot(path.join(folder, `${name}.png`), whole);

// What the page shows: the text of an element, the plan, a number beside the slider, the path data of a layer, the marked text.
const text = id => run(id => document.getElementById(id).innerText, id);
const plan = () => run("document.getElementById('plan').value");
const reading = name => run(name => document.querySelector(`#reading [data-of="${name}"]`).innerText, name);
const d = selector => run(selector => document.querySelector(selector).getAttribute("d"), selector);
const marked = () => run("[...document.querySelectorAll('#marks .maker')].map(node => node.textContent).join('')");
const box = selector => run(selector => { const r = document.querySelector(selector).getBoundingClientRect(); return [r.x, r.y, r.width, r.height]; }, selector);
async function press(selector) {
  await run(selector => document.querySelector(selector).scrollIntoView({ block: "nearest" }), selector);
  const [x, y, wide, high] = await box(selector);
  await web.click(x + wide / 2, y + high / 2);
}
const choose = (id, value) => run((id, value) => { const node = document.getElementById(id); node.value = value; node.onchange(); }, id, value);

// ---- it opens, and requests nothing else
await web.size(1440, 900);
await web.open(url);
const opened = await run("page.ready");
expect((await text("verdict")).startsWith("Accepted: 41 stations on 6 segments"), `the first example is shown: ${await text("verdict")}`);
const files = web.asked.filter(asked => asked.startsWith("file:"));
expect(files.length === 1 && web.asked.every(asked => /^(file|about):/.test(asked)), `it requests ${web.asked}`);
expect(await run("document.querySelectorAll('#marks b').length > 5"), "letters have their colours");
const footer = await run("document.querySelector('footer').innerText");
const origin = /module of [\d,]+ bytes, \d+ functions and no imports, made from\s+(commit [0-9a-f]{7,} of \d|a copy)/;
expect(origin.test(footer), `the page names its commit and the size of its module: ${footer}`);
await run("page.go(0.37)");
await shot("page-light");

// ---- what is drawn is what is flown: each station is within a pixel of the path of its kind, and no label covers another
function measured() {
  let worst = 0;
  for (const kind of KINDS) {
    const path = document.querySelector(`#picture .path.${kind}`), dots = document.querySelector(`#picture .dot.${kind}`).getAttribute("d");
    if (!dots) continue;
    // the path as chords, but for those from one of its pieces to the next
    const step = path.getTotalLength() / 1000, along = Array.from({ length: 1001 }, (_, k) => path.getPointAtLength(step * k));
    const chords = along.slice(1).map((to, k) => [along[k], to]).filter(([from, to]) => Math.hypot(to.x - from.x, to.y - from.y) <= 1.5 * step);
    const off = (u, v, from, to) => {
      const x = to.x - from.x, y = to.y - from.y, t = Math.min(1, Math.max(0, ((u - from.x) * x + (v - from.y) * y) / (x * x + y * y || 1)));
      return Math.hypot(from.x + t * x - u, from.y + t * y - v);
    };
    for (const [, u, v] of dots.matchAll(/M([-\d.]+) ([-\d.]+)h0/g)) worst = Math.max(worst, Math.min(...chords.map(([from, to]) => off(u, v, from, to))));
  }
  const dots = [...document.querySelectorAll("#picture .dot")].map(node => node.getAttribute("d")).join("").split("h0").length - 1;
  const boxes = [...document.querySelectorAll("#picture .labels text")].map(node => node.getBBox());
  const over = boxes.filter((a, k) => boxes.slice(k + 1).some(b => a.x < b.x + b.width && b.x < a.x + a.width && a.y < b.y + b.height && b.y < a.y + a.height));
  return { worst, dots, over: over.length, labels: boxes.length, count: page.flight().count };
}
const kinds = "30\nM0 0L60 10C90 0 120 60 90 90S40 160 90 160T140 200Q180 180 160 120A40 20 30 1 0 240 80A0 5 0 0 1 260 60M300 0h40v50a20 60 725 0 1-40 40z";
for (const drawn of ["", kinds, "40\nM0 0A90 40 20 1 1 10 30A30 30 0 0 0-40 30", "25\nM6672100 385500c40-120 160-120 200 0s160 120 200 0", "99\nM0 0L0 1L9 1"]) {
  if (drawn) await web.type(drawn);
  const { worst, dots, over, labels, count } = await run(measured), name = JSON.stringify(drawn || "the first example");
  expect(worst !== null && worst < 1 && dots === count, `${name}: ${dots} of ${count} stations are drawn, one of them ${worst} pixels beside its path`);
  expect(over === 0 && labels > 3, `${name}: ${over} of ${labels} labels cover another`);
}

// ---- typing, and a refusal
await web.type("20\nM 0 0 L 120 0\nC 160 0 200 40 200 80\nS 200 160 160 200\nA 40 40 0 0 1 80 200\nM 20 40 H 60 V 90\nL 0 200 Z");
expect((await text("verdict")).startsWith("Accepted: 20 stations on 8 segments"), `a typed plan: ${await text("verdict")}`);
expect(/1 gap/.test(await text("legend")) && (await d("#picture .gap")).startsWith("M"), `a gap is drawn and named: ${await text("legend")}`);
const good = await d("#picture .path.cubic");
await run(() => { const node = document.getElementById("plan"), at = node.value.indexOf("A 40 40 0 0") + 10; node.focus(); node.setSelectionRange(at, at + 1); });
await web.send("Input.insertText", { text: "2" });
const refused = await text("verdict");
expect(/^Refused 5, line 5, column 11: a flag of an arc is due here; write 0 or 1/.test(refused), `a refusal in words: ${refused}`);
expect((await run("document.querySelector('#marks .fault').textContent")) === "2", "the place of a refusal is marked");
expect((await run("document.body.classList.contains('stale')")) && (await d("#picture .path.cubic")) === good, "the last good picture stays, grey");
await shot("refused");
await press("#verdict button");
const selected = () => run(() => { const node = document.getElementById("plan"); return node.value.slice(node.selectionStart, node.selectionEnd); });
expect((await selected()) === "2", "'Go there' selects the place");
await web.send("Input.insertText", { text: "0" });
expect((await text("verdict")).startsWith("Accepted") && !(await run("document.body.classList.contains('stale')")), "the mended plan is accepted");

// ---- a progress: slider, keys, the letter in the text
const [sx, sy, sw, sh] = await box("#progress");
await web.drag(sx + 9, sy + sh / 2, sx + sw * 0.22, sy + sh / 2);
const dragged = await run("page.kept()");
expect(dragged > 0.19 && dragged < 0.25, `the slider is dragged to ${dragged}`);
const letter = await reading("letter");
expect((await marked()) === "C160 0 200 40 200 80" && /^C, line 3\ncolumn 1, byte 14/.test(letter), `the letter: ${await marked()}; ${letter}`);
const flown = await run(() => { const { segment, raw, x, y, dx, dy } = page.library.flight(page.kept()); return [segment, ...[raw, x, y, dx, dy].map(hex)]; });
const bits = (await Promise.all(["raw", "position", "heading"].map(reading))).flatMap(words => words.split("\n")[1].split(" "));
expect((await reading("segment")).startsWith(`${flown[0]}, cubic`) && bits.join() === flown.slice(1).join(), `the numbers are the module's: ${bits}, ${flown}`);
await web.key("ArrowRight");
expect(/^5\n/.test(await reading("station")), `an arrow key goes to the next station: ${await reading("station")}`);
await web.key("ArrowRight", { modifiers: 8 });
expect(await run("bitsOf(page.kept()) === bitsOf(progressOf(5, 20)) + 1"), "Shift and an arrow key go to the next float");
await web.key("End");
expect((await run("page.kept()")) === 1 && (await reading("raw")).includes("3F800000"), "End goes to 1");
await shot("flown");
await press("#play");
await sleep(400);
await press("#play");
const played = await run("page.kept()");
await sleep(100);
expect(played > 0.005 && played < 0.5 && (await run("page.kept()")) === played, `Fly starts again at 0, and Pause stops: ${played}`);
await press("#later");
expect(/^\d+\n/.test(await reading("station")), `the button goes to a station: ${await reading("station")}`);

// ---- a proof: the link opens it, and the address still carries the plan
const address = await run("location.hash.split('&')[0]");
await press("#reading a.proved");
expect(await run("document.getElementById('proofs').open && document.activeElement.id === 'p-order'"), "a link leads to its theorem");
expect((await run("location.hash.split('&')[0]")) === address, "and leaves the address as it is");
expect(await run("[...document.querySelectorAll('a.proved')].every(a => a.title && document.querySelector(a.hash + ' code'))"), "every such link names a theorem");
await run("document.getElementById('proofs').open = false; scrollTo(0, 0)");

// ---- pointing, panning, zooming
const [px, py, pw, ph] = await box("#picture"), before = await d("#picture .path.line");
await web.mouse("mouseWheel", px + pw / 2, py + ph / 2, { deltaX: 0, deltaY: -400 });
await sleep(60);
const zoomed = await d("#picture .path.line");
expect(zoomed !== before, "the wheel zooms");
await web.drag(px + pw / 2, py + ph / 2, px + pw / 2 + 80, py + ph / 2 + 30);
expect((await d("#picture .path.line")) !== zoomed, "dragging pans");
await press("#fit");
expect((await d("#picture .path.line")) === before, "Fit shows all of the path");
const [ax, ay] = [px + pw / 2, py + ph / 2];
await web.touch("touchStart", [ax - 40, ay], [ax + 40, ay]);
await web.touch("touchMove", [ax - 90, ay], [ax + 90, ay]);
await web.touch("touchEnd");
const spread = points => { const xs = [...points.matchAll(/[ML]([-\d.]+)/g)].map(([, x]) => Number(x)); return Math.max(...xs) - Math.min(...xs); };
expect(spread(await d("#picture .path.line")) > 1.5 * spread(before), "two fingers zoom");
await press("#fit");
const dot = (await d("#picture .dot.cubic")).match(/M([\d.]+) ([\d.]+)h0/).slice(1).map(Number);
await web.mouse("mouseMoved", px + dot[0] + 1, py + dot[1] + 1);
await sleep(60);
expect(/^\d+\n/.test(await reading("station")) && /^[CS],/.test(await reading("letter")), `pointing at a station: ${await reading("station")}`);
const [wx, wy, qx, qy] = [...(await text("where")).split(", "), ...(await reading("position")).split("\n")[0].split(", ")].map(Number);
expect(Math.hypot(wx - qx, wy - qy) < 1.5, `the coordinates at the pointer and of the station: ${[wx, wy, qx, qy]}`);
await web.click(px + dot[0] + 1, py + dot[1] + 1);
const clicked = await run("page.kept()");
await web.mouse("mouseMoved", 5, 5);
expect(clicked > 0.1 && clicked < 0.6 && (await run("page.kept()")) === clicked, `a click keeps the progress: ${clicked}`);
await press("#flip");
expect((await run("document.querySelector('#picture .unit').textContent")).endsWith("y up") && (await d("#picture .path.line")) !== before, "y can grow upwards");
await press("#flip");
await run("document.getElementById('picture').focus()");
await web.key("+");
expect((await d("#picture .path.line")) !== before, "plus zooms");
await web.key("0");
expect((await d("#picture .path.line")) === before, "0 shows all of the path");
await run(() => { const node = document.getElementById("plan"), at = node.value.indexOf("A 40"); node.focus(); node.setSelectionRange(at + 3, at + 3); });
await sleep(60);
const [arc, typed] = [await d("#picture .path.arc"), await d("#picture .typed")];
expect(arc && typed === arc, `the caret marks what its text draws: ${typed}`);

// ---- which letter drew the third turn? A click on it in the picture marks the letter in the text
await choose("example", "spiral-of-arcs");
const third = await run("page.flight().stations.segments.findIndex((segment, k, all) => segment === 2 && all[k - 2] === 2)");
const [tx, ty] = [...(await d("#picture .dot.arc")).matchAll(/M([-\d.]+) ([-\d.]+)h0/g)][third].slice(1).map(Number);
await web.click(px + tx, py + ty);
expect((await marked()) === "a40 40 0 0 1 80 0" && /^a, line 5\n/.test(await reading("letter")), `the third turn: ${await marked()}; ${await reading("letter")}`);
expect((await run("document.getElementById('example').value")) === "" && (await plan()).startsWith("49\n"), "an example is loaded");

// ---- a long text: the coloured text has the size of the typed one, and the marked letter is in sight
const long = Array.from({ length: 30 }, (_, k) => `M ${k} ${3 * k} c 40.25 -120.5 160.125 -120 200 0 s 160 120 200 0 q 60 -90 120 0 a 60 40 20 1 1 -30 60 z`);
await web.type(`1000\n${long.join("\n")}`);
const sizes = () => run(() => ["plan", "marks"].map(id => document.getElementById(id)).map(node => `${node.scrollHeight} ${node.clientWidth}`));
expect(new Set(await sizes()).size === 1, `the coloured text has the size of the typed one: ${await sizes()}`);
await run("document.getElementById('progress').focus(); document.getElementById('plan').scrollTop = 0; page.go(0.97)");
await sleep(100);
const [, my, , mh] = await box("#marks .maker"), [, ey, , eh] = await box(".editor");
expect(my > ey && my + mh < ey + eh, "the letter that drew the segment is in sight");

// ---- strict reading in both editions, and coarse coordinates
await web.type("5\nM5 5 L6 6");
const strict = await text("strict");
expect(/Strict SVG 1.1: yes/.test(strict) && /Strict SVG 2: no/.test(strict) && /white space/.test(strict), `strict reading: ${strict}`);
await web.type("5\nM5 5L 6 6");
expect(/Strict SVG 2: yes/.test(await text("strict")), `strict reading: ${await text("strict")}`);
await web.type(`5\n${" ".repeat(65537)}`);
expect(/Strict SVG 1.1: too long/.test(await text("strict")), `strict reading of 65,537 bytes: ${await text("strict")}`);
await web.type("5\nM 0 0 L 6672100.75 385500.25");
expect(/floats are 0.5 path units apart/.test(await text("totals")), `coarse coordinates: ${await text("totals")}`);

// ---- odd plans
const odd = [
  ["", "Refused 13"], ["2\n", "Accepted: 2 stations on 0 segments"], ["2\nM0 0L0 0", "Accepted"], ["9\nM1e-30 0L2e-30 1e-30", "Accepted"], ["9\nM0 0L3e38 0", "Accepted"],
  ["2\nM0 0L\u22123 4", "Refused 3"], ["\u00e5\n", "Refused 13"], ["2\nM0 0<b>", "Refused 3"], ["2\nM0 0L1 1G", "Refused 6"], [`2\nM0 0${"h1".repeat(256)}`, "Refused 8"],
  ["2\nM0 0A1 1 1e39 0 0 3 4", "Refused 10"], ["2\nM0 0L3e38 3e38", "Refused 11"], [`3\n${" ".repeat(5000)}`, "Refused 1"],
];
for (const [typed, words] of odd) {
  await web.type(typed);
  expect((await text("verdict")).startsWith(words), `${JSON.stringify(typed.slice(0, 30))}: ${await text("verdict")}`);
}
quiet();

// ---- 400 mistyped plans: the coloured text is the typed one, the place of a refusal is marked, and nothing throws
function mistype() {
  const wrong = [], edits = ["", " ", "e", "Q", "a", "z", "-", "1", "9e9", "\n", "\u00e5", "\u{1f681}", "M", ","], typed = document.getElementById("plan");
  let seed = 7, refused = 0;
  const below = n => { seed = (Math.imul(seed, 1664525) + 1013904223) >>> 0; return Math.floor((seed / 4294967296) * n); };
  for (let k = 0; k < 400; k++) {
    let text = Object.values(EXAMPLES)[below(4)];
    for (let many = 1 + below(3); many--; ) {
      const at = below(text.length);
      text = text.slice(0, at) + edits[below(edits.length)] + text.slice(at + below(2));
    }
    typed.value = text;
    try { page.fly(false); page.go(below(1000) / 999); } catch (error) { wrong.push(`${text}: ${error}`); continue; }
    const no = document.body.classList.contains("stale"), faults = document.querySelectorAll("#marks .fault").length;
    refused += no;
    if (document.getElementById("marks").textContent.trimEnd() !== text.trimEnd() || faults !== Number(no)) wrong.push(text);
  }
  return { refused, wrong };
}
const mistyped = await run(mistype);
expect(mistyped.refused > 50 && mistyped.refused < 390, `${mistyped.refused} of 400 mistyped plans are refused`);
expect(!mistyped.wrong.length, `mistyped plans: ${JSON.stringify(mistyped.wrong.slice(0, 2))}`);
quiet();

// ---- files: dropped, pasted, and what they lack
const given = fs.mkdtempSync(path.join(os.tmpdir(), "page-")), svg = inner => `<svg xmlns="http://www.w3.org/2000/svg">${inner}</svg>`;
const write = (name, data) => { fs.writeFileSync(`${given}/${name}`, data); return `${given}/${name}`; };
await web.drop(400, 300, write("two.svg", svg('<path id="north" d="M0 0L30 40"/><g transform="scale(2)"><path d="M0 0Q0 0 1 0"/></g>')));
const paths = await text("paths");
expect(/2 paths in two.svg/.test(paths) && /north, 10 bytes/.test(paths) && /transform is not applied/.test(paths), `a drawing lists its paths: ${paths}`);
await shot("dropped");
await press("#paths button");
expect((await plan()).endsWith("\nM0 0L30 40") && (await text("verdict")).startsWith("Accepted"), "a path of a drawing is flown");
const windows = write("windows.plan", "7\r\nM0 0L3 4\r\n");
await web.drop(400, 300, windows);
expect(/CRs, which this page took out/.test(await text("verdict")), `a plan with CRs: ${await text("verdict")}`);
await web.drop(400, 300, write("other.plan", "8\nM0 0L3 4"), windows);
expect((await plan()).startsWith("8\n") && /Only other.plan was opened/.test(await text("verdict")), `two files: ${await text("verdict")}`);
const lacking = [["shapes.svg", svg("<rect/>"), /no path element/], ["broken.svg", "<svg", /not well-formed/], ["large.plan", "7\n".repeat(40000), /80,000 bytes/]];
for (const [name, data, words] of lacking) {
  await web.drop(400, 300, write(name, data));
  expect(words.test(await text("verdict")) && (await plan()).startsWith("8\n"), `${name}: ${await text("verdict")}`);
}
fs.rmSync(given, { recursive: true });
function paste(text) {
  const clipboardData = new DataTransfer();
  clipboardData.setData("text", text);
  document.getElementById("plan").dispatchEvent(new ClipboardEvent("paste", { clipboardData, cancelable: true }));
}
await run(paste, svg('<path d="M1 2L30 40"/>'));
await sleep(100);
expect((await plan()) === "8\nM1 2L30 40", `a pasted drawing gives its path: ${await plan()}`);
await run("history.back()");
await sleep(100);
expect((await plan()) === "8\nM0 0L3 4", `Back returns to the plan before: ${await plan()}`);
await web.type("M0 0 L3 4");
expect(/begins on the second line/.test(await text("verdict")), `path data alone: ${await text("verdict")}`);
await press("#verdict button:nth-of-type(2)");
expect((await text("verdict")).startsWith("Accepted: 41 stations"), "a number of stations is put before it");

// ---- listing, picture, link
const sample = "9\nM0 0 H30 M0 10 H30 V50";
await web.type(sample);
expect((await run("page.listing()")).startsWith("commands 5\nM 00000000 00000000 0\n"), "the listing is there");
const drawing = await run("page.drawing()");
expect(drawing.startsWith("<svg") && drawing.includes("viewBox") && !/var\(|currentcolor/.test(drawing), "the picture stands alone");
expect(drawing.includes(`<desc>${sample}</desc>`), "the picture carries its plan");
if (folder) fs.writeFileSync(path.join(folder, "saved.svg"), drawing);
const saved = fs.mkdtempSync(path.join(os.tmpdir(), "page-"));
await web.send("Page.setDownloadBehavior", { behavior: "allow", downloadPath: saved });
await press("#store");
await press("#save");
for (let k = 0; k < 40 && fs.readdirSync(saved).filter(name => /\.(plan|svg)$/.test(name)).length < 2; k++) await sleep(50);
const stored = Object.fromEntries(fs.readdirSync(saved).map(name => [path.extname(name), fs.readFileSync(`${saved}/${name}`, "utf8")]));
expect(stored[".plan"] === sample && stored[".svg"] === (await run("page.drawing()")), `plan and picture are saved: ${Object.keys(stored)}`);
fs.rmSync(saved, { recursive: true });
await web.send("Browser.grantPermissions", { permissions: ["clipboardReadWrite", "clipboardSanitizedWrite"] }).catch(() => {});
await press("#listing");
await sleep(150);
const clipboard = () => run("navigator.clipboard.readText().catch(String)");
expect((await clipboard()) === (await run("page.listing()")), `the listing is copied: ${await clipboard()}`);
await run("page.go(0.5)");
await press("#link");
await sleep(150);
const link = await clipboard();
await web.open(link);
expect((await plan()) === sample && (await run("page.kept()")) === 0.5, `a link carries plan and progress: ${link}`);
await web.open(`${url}#20~M+0+0+A+1&at=7FC00000`);
for (const id of ["#later", "#earlier", "#play", "#play", "#in", "#save"]) await press(id);
expect(/^Refused 2/.test(await text("verdict")) && (await run("page.kept()")) >= 0, "a link to a refused plan");
quiet();

// ---- the formulas of docs/ORDER.md
await web.open(url);
await run("document.getElementById('argument').open = true");
await sleep(100);
const rows = await text("rows");
expect(/3EAC9EC4\s+18\s+3F800000\s+3F14A529\s+3F14A52A\s+larger/.test(rows), `before the step of the drawn line: ${rows}`);
expect(/3EAC9EC5\s+19\s+354FC89C\s+3F14A529\s+3F14A529\s+steps back/.test(rows), `the step of the drawn line: ${rows}`);
for (let k = 0, many = await run("FORMS.length"); k < many; k++) {
  await choose("form", k);
  expect(/steps back/.test(await text("rows")) === ![2, 7].includes(k), `formula ${k}: ${await text("rows")}`);
}
await choose("form", 6);
await run("document.getElementById('clamp').checked = true");
await choose("form", 6);
expect(!/steps back/.test(await text("rows")), `with its clamp: ${await text("rows")}`);
await web.type("5\nM0 0Q0 0 1 0");
await choose("form", 0);
const tables = await run("document.getElementById('table').options.length"), says = await text("says");
expect(/Of the 1 curve of this plan, .* it steps back on 1\./.test(says) && tables === 2, `a curve of the plan: ${says}`);
await run("document.getElementById('argument').scrollIntoView({ block: 'start' })");
await shot("argument");

// ---- keyboard alone: every control is reached
await web.open(url);
const order = [];
for (let k = 0; k < 60; k++) {
  await web.key("Tab");
  const at = await run("document.activeElement.id || document.activeElement.className || document.activeElement.tagName");
  if (at === "BODY") break;
  order.push(at);
}
for (const id of "skip example open store save listing link theme plan picture in out fit flip play earlier later progress proved".split(" "))
  expect(order.includes(id), `Tab reaches ${id}: ${order}`);
function unnamed() {
  const controls = [...document.querySelectorAll("button, select, input:not([hidden]), textarea, svg[role]")];
  return controls.filter(node => !(node.getAttribute("aria-label") || node.textContent.trim() || node.labels?.length)).map(node => node.id);
}
expect(!(await run(unnamed)).length, `controls without a name: ${await run(unnamed)}`);

// ---- contrast as WCAG AA requires, light and dark: 4.5 to 1 for text, 3 to 1 for marks and borders
function contrast() {
  const canvas = document.createElement("canvas").getContext("2d", { willReadFrequently: true }), poor = [];
  const rgb = (colour, under = [255, 255, 255]) => {
    for (const fill of [`rgb(${under})`, colour]) { canvas.fillStyle = fill; canvas.fillRect(0, 0, 1, 1); }
    return [...canvas.getImageData(0, 0, 1, 1).data].slice(0, 3);
  };
  const light = colour => {
    const [r, g, b] = colour.map(value => ((value /= 255) <= 0.04045 ? value / 12.92 : ((value + 0.055) / 1.055) ** 2.4));
    return 0.2126 * r + 0.7152 * g + 0.0722 * b;
  };
  const ratio = (a, b) => { const [x, y] = [light(a), light(b)].sort((p, q) => q - p); return (x + 0.05) / (y + 0.05); };
  const ground = node => {
    const colour = node && getComputedStyle(node).backgroundColor;
    return !node ? [255, 255, 255] : colour === "rgba(0, 0, 0, 0)" ? ground(node.parentElement) : rgb(colour, ground(node.parentElement));
  };
  let least = 99;
  const look = (node, colour, need, what) => {
    const under = ground(node), found = ratio(rgb(colour, under), under);
    least = Math.min(least, found);
    if (found < need) poor.push(`${what} ${found.toFixed(2)}`);
  };
  const walk = document.createTreeWalker(document.body, NodeFilter.SHOW_TEXT);
  for (let piece; (piece = walk.nextNode()); ) {
    const node = piece.parentElement;
    if (!piece.textContent.trim() || !node.checkVisibility({ checkOpacity: true }) || node.closest("script, style, .hidden, textarea")) continue;
    const style = getComputedStyle(node), name = node.id || node.className.baseVal || node.className || node.tagName;
    look(node, node.closest("svg") ? style.fill : style.color, 4.5, `${name} '${piece.textContent.trim().slice(0, 20)}'`);
  }
  for (const mark of document.querySelectorAll("svg path:not(.grid, .steps, .halo, .current)")) {
    const style = getComputedStyle(mark);
    if (mark.getAttribute("d")) look(mark.ownerSVGElement, mark.matches(".packet") ? style.fill : style.stroke, 3, mark.getAttribute("class"));
  }
  for (const node of document.querySelectorAll("button, select, .editor"))
    look(node.parentElement, getComputedStyle(node).borderTopColor, 3, `border of ${node.id || node.className}`);
  return { least, poor };
}
await web.type("20\nM 0 0 L 120 0\nC 160 0 200 40 200 80\nQ 200 160 160 200\nA 40 40 0 0 1 80 200\nA 0 0 0 0 1 40 200\nM 20 40 H 60 V 90\nL 0 200 Z");
await run("for (const id of ['argument', 'proofs', 'listed']) document.getElementById(id).open = true; page.go(0.4)");
for (const theme of ["light", "dark"]) {
  await run(theme => { document.documentElement.dataset.theme = theme; }, theme);
  await sleep(60);
  let lowest = 99;
  // on a segment of each kind, since its letter is marked in the text
  for (const progress of [0.05, 0.2, 0.35, 0.45, 0.5, 0.99]) {
    await run(progress => page.go(progress), progress);
    const { least, poor } = await run(contrast);
    lowest = Math.min(least, lowest);
    expect(!poor.length, `${theme}, progress ${progress}: too little contrast: ${poor.join("; ")}`);
  }
  console.log(`page: ${theme}: least contrast ${lowest.toFixed(2)}`);
}
await shot("proofs", true);
await run("for (const id of ['argument', 'proofs', 'listed']) document.getElementById(id).open = false; scrollTo(0, 0)");
await shot("page-dark");

// ---- narrow, and printed
await web.size(390, 844, 2);
await web.open(url);
expect(await run("document.documentElement.scrollWidth <= innerWidth"), `nothing is cut off at 390 pixels: ${await run("document.documentElement.scrollWidth")}`);
await shot("narrow", true);
await web.size(1100, 780);
await run("document.documentElement.dataset.theme = 'dark'");
await web.send("Emulation.setEmulatedMedia", { media: "print" });
await sleep(100);
expect((await run("getComputedStyle(document.querySelector('.stage')).backgroundColor")) === "rgb(255, 255, 255)", "print is light, from the dark page too");
expect(await run("!document.querySelector('.bar').checkVisibility() && document.getElementById('picture').checkVisibility()"), "print leaves the buttons out");
await shot("printed");
await web.send("Emulation.setEmulatedMedia", { media: "" });

// ---- how long a keystroke takes
await web.size(1440, 900);
await web.open(url);
function keystrokes(typed) {
  if (typed) document.getElementById("plan").value = typed;
  page.fly(true);
  const all = Array.from({ length: 30 }, () => {
    const began = performance.now();
    page.fly(false);
    document.getElementById("picture").getBoundingClientRect();
    return performance.now() - began;
  }).sort((a, b) => a - b);
  return [all[0], all[15]];
}
// a fixed loop beside it, the least of 30 too: on a machine that is slow or busy both take longer
function yardstick() {
  const all = Array.from({ length: 30 }, () => {
    const began = performance.now();
    let sum = 0;
    for (let k = 0; k < 2_000_000; k++) sum += Math.sqrt(k);
    return sum > 0 ? performance.now() - began : 0;
  });
  return Math.min(...all);
}
const LOOPS = 5;
const waves = Array.from({ length: 40 }, (_, k) => `q10 ${k % 2 ? 90 : -90} 20 0`).join(""), times = [];
for (const [name, typed] of [["41 stations", ""], ["1,000 on 40 curves", `1000\nM0 300${waves}`], ["1,000 on 255 arcs", `1000\nM0 0${"a9 4 3 0 1 5 5".repeat(255)}`]]) {
  let [least, median] = await run(keystrokes, typed), loop = await run(yardstick), round = 1;
  // within a frame, or within so many of the loops where the machine is slow; a busy machine is given more rounds of 30
  for (; round < 9 && least >= 16 && least >= LOOPS * loop; round++) {
    await sleep(100);
    [least, median] = await run(keystrokes, typed);
    loop = await run(yardstick);
  }
  expect(least < 16 || least < LOOPS * loop, `${name}: a keystroke takes ${least} ms, ${(least / loop).toFixed(1)} loops, in the last of ${round} rounds`);
  times.push(`${name} ${least.toFixed(1)} and ${median.toFixed(1)}, ${(least / loop).toFixed(1)} loops${round > 1 ? ` in round ${round}` : ""}`);
}
await shot("thousand");
console.log(`page: opened in ${opened.toFixed(0)} ms; a keystroke, least and median of 30, in ms: ${times.join("; ")}`);
quiet();

// ---- a browser without WebAssembly is told so
await web.send("Page.addScriptToEvaluateOnNewDocument", { source: "delete window.WebAssembly" });
await web.open(url, "document.getElementById('verdict')?.className === 'no'");
expect(/does not run in this browser .*Open the page in Chrome/.test(await text("verdict")), `without WebAssembly: ${await text("verdict")}`);
quiet();
await web.close();
console.log(`${passed} passed, ${failed} failed`);
process.exitCode = failed || !passed ? 1 : 0;
