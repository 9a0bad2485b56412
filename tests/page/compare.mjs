// The module against the compiled library, by bytes: node tests/page/compare.mjs NATIVE COUNT. tests/page/run calls it.
//
// NATIVE is tests/page/native.c, compiled. The plans are those of examples/, the recorded ones, edges, and COUNT random ones of a fixed seed.
// Then: the words of refusals against tools/refusal, the names of theorems against their files, the formulas of docs/ORDER.md against its
// bits, and the page's own lookup against the module's.
import fs from "node:fs";
import os from "node:os";
import path from "node:path";
import vm from "node:vm";
import { spawnSync } from "node:child_process";

const [native, count] = process.argv.slice(2), home = path.resolve(import.meta.dirname, "../..");
const read = name => fs.readFileSync(`${home}/${name}`), words = name => read(name).toString();
const exported = "kihavute, refusalOf, groupsOf, FORMS, tried, fused, stepBack, near, hex, floatOf, bitsOf, progressOf";
const page = vm.runInThisContext(`${["module", "words", "order"].map(name => words(`page/${name}.js`)).join("\n")}; ({ ${exported} })`);
const wasm = read("target/page/kihavute.wasm"), library = await page.kihavute(wasm);
let passed = 0, failed = 0;
const expect = (right, what) => {
  if (right) passed++;
  else if (++failed < 20) console.log(`page: ${what}`);
};
const quoted = plan => JSON.stringify(plan.toString().slice(0, 200));
const listingOf = plan => Buffer.from(library.stations(plan)).toString("latin1");

// ---- the module exports every function of the header and imports nothing
expect(library.imports === 0, "the module has imports");
const functions = [...words("include/kihavute.h").matchAll(/^\w+ (kihavute_\w+)\(/gm)].map(([, name]) => name);
for (const name of functions) expect(typeof library.c[name] === "function", `${name} is not exported`);
expect(functions.length === library.exports - 2, `${library.exports - 2} functions are exported, and the header has ${functions.length}`);

// ---- plans
let seed = 20261116;
const below = n => {
  seed = (Math.imul(seed, 1664525) + 1013904223) >>> 0;
  return Math.floor((seed / 4294967296) * n);
};
const pick = list => list[below(list.length)];
const number = () => pick([
  () => String(below(500)), () => String(below(200000) / 100 - 1000), () => `-.${below(1000)}`, () => `${below(99)}e${below(9) - 4}`,
  () => `+${below(9)}.`, () => String(below(1e9)), () => "0", () => `${below(9)}.5E+1`,
])();
const flag = () => (below(40) ? pick(["0", "1"]) : pick(["2", "-1", ""]));
const takes = { M: 2, L: 2, H: 1, V: 1, C: 6, S: 4, Q: 4, T: 2, A: 7, Z: 0 };
function random() {
  const stations = below(60) ? 2 + below(60) : pick([0, 1, 1000, 1001, 7, "x", ""]);
  let text = `${stations}${below(80) ? "\n" : pick(["\r\n", " ", ""])}`;
  for (let k = 0, many = 1 + below(14); k < many; k++) {
    const letter = k ? pick([..."MLHVCSQTAZLQCA"]) : below(30) ? "M" : pick([..."LZCx"]);
    text += below(2) ? letter : letter.toLowerCase();
    for (let group = 0, groups = letter === "Z" ? 1 : 1 + (below(4) ? 0 : below(3)); group < groups; group++)
      for (let i = 0; i < takes[letter]; i++) {
        text += i || group ? pick([" ", ",", " ", "\n", "\t", ", "]) : pick(["", " "]);
        text += letter === "A" && (i === 3 || i === 4) ? flag() : number();
      }
    if (!below(120)) text += pick(["e", "$", "  ,", "1e", "\u2212", "G", "-"]);
    if (!below(3)) text += pick([" ", "\n"]);
  }
  return Buffer.from(below(50) ? text : text.slice(0, below(text.length)));
}
const edges = [
  "", "\n", "3", "3\n", "3\nM0 0L3 4", "3\r\nM0 0L3 4", "\uFEFF3\nM0 0", "2\nM0 0Q0 0 1 0", "1000\nM0 0A5 3 765 0 1 3 4", "2\nM0 0L3e38 3e38",
  "2\nM0 0A1 1 1e39 0 0 3 4", "2\nM1e39 0m-1e39 0", `2\n${" ".repeat(4096)}`, `2\n${" ".repeat(4097)}`, `2\n${" ".repeat(65536)}`, `2\n${" ".repeat(70000)}`,
  `2\nM0 0${"h1".repeat(255)}`, `2\nM0 0${"h1".repeat(256)}`, `1000\nM0 0${"a9 4 3 0 1 5 5".repeat(255)}`, "0\nM0 0", "1001\nM0 0", "1234567890\nM0 0",
  "2\nM0 0A1 1 0 11 2 3", "2\nM\t0\t0\tL\t3\t4", "2\nM\v0 0", " 3\nM0 0", "3 \nM0 0", "3 M0 0", "M0 0", "<svg>", "12345678901\n", "\xff\xfe3",
];
const plans = fs.readdirSync(`${home}/examples`).filter(name => name.endsWith(".plan")).map(name => read(`examples/${name}`));
for (const text of edges) plans.push(Buffer.from(text, text.startsWith("\xff") ? "latin1" : "utf8"));
// the recorded plans of replay_reading: a p, the count of bytes in four digits, the plan
const records = read("crates/replay_reading/stdin");
for (let at = records.indexOf("p00103\nM0 0L3 4"); at >= 0 && records[at] === 112; ) {
  const size = Number(records.subarray(at + 1, at + 5));
  plans.push(records.subarray(at + 5, at + 5 + size));
  at += 5 + size;
}
const fixed = plans.length;
expect(fixed > 150, `only ${fixed} fixed plans are found`);
for (let k = 0; k < count; k++) plans.push(random());

// What tests/page/native.c prints for a plan, by the module.
function answers(plan) {
  const lines = [listingOf(plan)], at = plan.indexOf(10), data = plan.subarray(at < 0 ? plan.length : at + 1);
  for (const edition of [1, 2]) {
    const yes = library.strict(data, edition);
    lines.push(yes === null ? `strict ${edition} 1\n` : `strict ${edition} 0 ${Number(yes)}\n`);
  }
  if (lines[0].startsWith("refused")) return lines.join("");
  const built = library.build(data), groups = page.groupsOf(new Uint8Array(plan), at + 1), drawn = groups.flatMap((group, k) => (group.draws ? [k] : []));
  const same = groups.length === built.commands.length && drawn.join() === built.segments.map(segment => segment.command).join();
  expect(same, `the groups of ${quoted(plan)} are not those of its commands and segments`);
  const { segments, raws, out } = library.flights(Float32Array.from({ length: 37 }, (_, k) => page.progressOf(k, 37)));
  for (let k = 0; k < 37; k++) lines.push(`${segments[k]} ${[raws[k], ...out.subarray(4 * k, 4 * k + 4)].map(page.hex).join(" ")}\n`);
  return lines.join("");
}
const began = performance.now(), texts = plans.map(answers), took = ((performance.now() - began) * 1000) / plans.length;
const refused = plans.filter((_, k) => texts[k].startsWith("refused"));
const run = spawnSync(native, { input: Buffer.concat(plans.flatMap(plan => [Buffer.from(`${plan.length}\n`), plan])), maxBuffer: 2 ** 30 });
const expected = run.stdout.toString("latin1");
expect(run.status === 0, `${native} ended with ${run.status}`);
let from = 0;
plans.forEach((plan, k) => {
  expect(expected.startsWith(texts[k], from), `module and library differ on plan ${k}: ${quoted(plan)}`);
  from += texts[k].length;
});
expect(from === expected.length, "the compiled library prints more than the module");
console.log(`page: ${plans.length} plans, ${fixed} of them fixed, ${refused.length} refused, ${took.toFixed(0)} us each: ${expected.length} equal bytes`);

// ---- the stations of a listing are the flights at k/(n - 1), as the page draws them
for (const plan of plans.slice(0, fixed + 200)) {
  const listing = listingOf(plan);
  if (listing.startsWith("refused")) continue;
  const lines = listing.trimEnd().split("\n"), at = lines.findIndex(line => line.startsWith("stations ")), n = Number(lines[at].split(" ")[1]);
  library.build(plan.subarray(plan.indexOf(10) + 1));
  const { segments, out } = library.flights(Float32Array.from({ length: n }, (_, k) => page.progressOf(k, n)));
  const station = k => `${k} ${segments[k] === 4294967295 ? "-" : segments[k]} ${Array.from(out.subarray(4 * k, 4 * k + 4), page.hex).join(" ")}`;
  expect(lines.slice(at + 1).every((line, k) => line === station(k)), `the stations of ${quoted(plan)} are not those of its listing`);
}

// ---- refusals in words: every fixed plan, and 25 random ones of each number
const folder = fs.mkdtempSync(path.join(os.tmpdir(), "page-")), seen = {};
for (const plan of refused) {
  const [, number, ...carried] = listingOf(plan).trim().split(" ");
  seen[number] = (seen[number] ?? 0) + 1;
  if (seen[number] > 25 && plans.indexOf(plan) >= fixed) continue;
  fs.writeFileSync(`${folder}/plan`, plan);
  const said = spawnSync(`${home}/tools/refusal`, [`${folder}/plan`, "p", number, ...carried]).stdout.toString().split("\n");
  const { at, words, hints } = page.refusalOf(new Uint8Array(plan), Number(number), carried), before = plan.subarray(0, at);
  const ours = [`p:${before.filter(c => c === 10).length + 1}:${at - before.lastIndexOf(10)}: refused ${number}: ${words}`, ...hints.map(hint => `hint: ${hint}`)];
  const theirs = [said[0], ...said.slice(3).filter(Boolean)];
  expect(ours.join("\n") === theirs.join("\n"), `the page says\n  ${ours.join("\n  ")}\nand tools/refusal\n  ${theirs.join("\n  ")}`);
}
fs.rmSync(folder, { recursive: true });
expect(Object.keys(seen).length >= 10, `refusals of ${Object.keys(seen).length} numbers alone`);
console.log(`page: refusals by number ${JSON.stringify(seen)}`);

// ---- every theorem and function that the page names is in the file that it names
let cited = 0;
function holds(name, file) {
  cited++;
  const form = file.endsWith(".rt") ? `^ *pub fn ${name}\\(` : `^ *(pub )?${name} :`;
  expect(new RegExp(form, "m").test(words(file)), `the page cites ${name} of ${file}, which is not there`);
}
for (const [, names, file] of words("page/index.html").matchAll(/<code>([^<]+)<\/code>\s+in\s+<code>(crates[^<]+)<\/code>/g))
  for (const name of names.split(", ")) holds(name, file);
for (const { laws } of page.FORMS) for (const [name, file] of laws) holds(name, file);
expect(cited >= 20, `the page cites only ${cited} theorems and functions`);
console.log(`page: ${cited} theorems and functions cited`);

// ---- the formulas of docs/ORDER.md: a multiply-add that rounds once, the bits of each witness, and the plain lookup against the module's
// x·y + z is below the middle of two f32 here, and f64 rounds it to that middle, from which it is rounded up
const last = 2 ** -23, odd = 1 + last, small = 2 ** -24 * (1 - last);
expect(Math.fround(odd * small + odd) === 1 + 2 * last, "the numbers for a second rounding");
expect(page.fused(odd, small, odd) === odd && page.fused(-odd, small, -odd) === -odd, "a fused multiply-add rounds twice");
const witnesses = [
  [0, "3F14A52A", "3F14A529"], [1, "3EA00001", "3EA00000"], [3, "3D042109", "3D042108"],
  [4, "3D842109", "3D842108"], [5, "3D842109", "3D842108"], [6, "3D94A529", "3D842108"],
];
const order = words("docs/ORDER.md");
for (const [k, first, second] of witnesses) {
  const form = page.FORMS[k], table = form.drawn ? library.quad(...form.drawn) : Float32Array.from(form.table);
  const progress = page.near(form.at), next = page.floatOf(page.bitsOf(progress) + 1);
  const found = [progress, next].map(at => page.hex(page.tried(table, at, form, !form.share).raw));
  expect(found[0] === first && found[1] === second, `${form.name}: ${found}, and docs/ORDER.md has ${first} ${second}`);
  expect(order.includes(first) && order.includes(second), `docs/ORDER.md no longer has ${first} and ${second} of ${form.name}`);
  expect(page.stepBack(table, form, !form.share) !== null, `${form.name}: no step back is found on its witness`);
  if (form.share) expect(page.stepBack(table, form, true) === null, `${form.name}: a step back with its clamp`);
}
for (let k = 0; k < 3000; k++) {
  const table = new Float32Array(32);
  for (let i = 1; i < 32; i++) table[i] = table[i - 1] + (below(4) ? below(1000) / pick([1, 7, 1000]) : 0);
  const progress = Math.fround(below(1e9) / 1e9);
  expect(page.hex(page.tried(table, progress).raw) === page.hex(library.raw(table, table[31], progress)), `the page's lookup at ${progress} of ${table}`);
}
console.log(`page: module of ${wasm.length} bytes, ${functions.length} functions`);
console.log(`${passed} passed, ${failed} failed`);
process.exitCode = failed || !passed ? 1 : 0;
