// The formulas of docs/ORDER.md, tried: the proved lookup from progress to raw parameter beside those that were proposed for it. The
// lookup's answers are the module's. The others are computed here, in f32 by Math.fround and a multiply-add that is rounded once; no
// other part of the page uses them.

const f32 = Math.fround, LEAST = 2 ** -23;
const wideFloat = new Float64Array(1), wideBits = new BigInt64Array(wideFloat.buffer);

// x·y + z for f32, rounded once: the product is exact in f64, and the sum is rounded to odd there, so that rounding it to f32 is the only
// rounding that counts.
function fused(x, y, z) {
  const p = x * y, s = p + z, v = s - p, rest = p - (s - v) + (z - v);
  if (rest === 0 || !Number.isFinite(s)) return f32(s);
  wideFloat[0] = s;
  if (!(wideBits[0] & 1n)) wideBits[0] += rest > 0 === s > 0 ? 1n : -1n;
  return f32(wideFloat[0]);
}

const plainShare = ({ target, lower, span }) => f32(f32(target - lower) / span);
const plainJoin = (k, share, n) => f32(f32(k + share) / n);
const times = (value, count) => Array(count).fill(value);
const near = bits => floatOf(parseInt(bits, 16));

// Each formula: its name, what it replaces, the table and the progress that show what it does, and its theorems by file.
const WITNESSES = "crates/table_order/proofs/Witnesses.antt", VARIANTS = "crates/table_order/proofs/Variants.antt";
const CONTRACTION = "crates/table_order/proofs/Contraction.antt";
const FORMS = [
  {
    name: "share·R + lower/31, fused", part: "(lower + share)/31; R is 1/31 rounded", drawn: [0, 0, 0, 0, 1, 0], at: "3EAC9EC4",
    laws: [["fused-division-back", WITNESSES]],
    join: (k, share, n) => fused(share, f32(1 / n), f32(k / n)),
    says: "It steps back, here on a line that somebody drew: the end of one part of the table and the start of the next are computed differently.",
  },
  {
    name: "share·R + (lower·R), fused", part: "(lower + share)/n; R is 1/n rounded", table: [...times(0, 15), 1, ...times(2, 33)], at: "3F000000",
    laws: [["fused-products-back", WITNESSES]],
    join: (k, share, n) => fused(share, f32(1 / n), f32(k * f32(1 / n))),
    says: "It never steps back in the 32 entries of a curve (n = 31), and does in the 49 of a spline through four points (n = 48).",
  },
  {
    name: "(lower + share)·R", part: "(lower + share)/31; R is 1/31 rounded", table: [...times(0, 17), 1, ...times(2, 14)], at: "3F000000",
    laws: [["products-out-of-place", WITNESSES]],
    join: (k, share, n) => f32(f32(k + share) * f32(1 / n)),
    says: "It never steps back, but after 3F000000 it is below 17/31, the raw parameter of an entry that it has passed.",
  },
  {
    name: "(target − lower)·inverse", part: "(target − lower)/span; inverse is 1/span rounded", table: [0, 9.99e37, ...times(3e38, 30)], at: "3EAA7EFA",
    laws: [["bare-reciprocal-back", WITNESSES], ["reciprocal-shares", VARIANTS]],
    share: ({ target, lower, inverse }) => f32(f32(target - lower) * inverse),
    says: "Without its clamp it steps back if the span is so long that its reciprocal is subnormal.",
  },
  {
    name: "target·inverse − (lower·inverse), fused", part: "(target − lower)/span; inverse is 1/span rounded", table: [0, 15, 18, ...times(36, 29)],
    at: "3F000000", laws: [["bare-fused-product-back", WITNESSES], ["product-shares", VARIANTS]],
    share: ({ target, lower, inverse }) => fused(target, inverse, -f32(lower * inverse)),
    says: "Without its clamp the share exceeds 1 at the end of a part of the table.",
  },
  {
    name: "target·inverse − lower/span, fused", part: "(target − lower)/span; inverse is 1/span rounded", table: [0, 7, 10, ...times(20, 29)],
    at: "3F000000", laws: [["bare-fused-quotient-back", WITNESSES], ["quotient-shares", VARIANTS]],
    share: ({ target, lower, span, inverse }) => fused(target, inverse, -f32(lower / span)),
    says: "Without its clamp the share exceeds 1 at the end of a part of the table.",
  },
  {
    name: "(total·progress − lower)/span, fused", part: "the target and its share; a compiler does it by itself if it is allowed to",
    table: [0, 1, 1 + 2 ** -22, ...times(3, 29)], at: "3EAAAAAE", laws: [["bare-contraction-back", WITNESSES], ["contracted-shares", CONTRACTION]],
    share: ({ total, progress, lower, span }) => f32(fused(total, progress, -lower) / span),
    says: "Without its clamp it is a quarter of a part too far, and then steps back.",
  },
  {
    name: "the first length above the target", part: "the first length not below the target", above: true, table: [0, 1, 1, 1, ...times(2, 28)], at: "3F000000",
    laws: [["above-skips-equal-lengths", WITNESSES]],
    says: "It never steps back, but among equal lengths it takes the last entry in place of the first.",
  },
];

// What a formula answers on a table at a progress from 0 to 1: the entry, the share, the raw parameter. Without a formula: the lookup's answer.
function tried(table, progress, form = {}, clamped = true) {
  const n = table.length - 1, total = table[n];
  if (!(total > LEAST)) return { entry: 0, share: progress, raw: progress };
  const target = f32(total * progress);
  if (target <= 0 || target >= total) return { entry: target <= 0 ? 0 : n, share: target <= 0 ? 0 : 1, raw: target <= 0 ? 0 : 1 };
  let entry = 0;
  while (entry < n && (form.above ? table[entry] <= target : table[entry] < target)) entry++;
  const lower = table[entry - 1], span = Math.max(f32(table[entry] - lower), LEAST);
  let share = (form.share ?? plainShare)({ target, lower, span, total, progress, inverse: f32(1 / span) });
  if (clamped) share = Math.min(1, Math.max(0, share));
  return { entry, share, raw: (form.join ?? plainJoin)(entry - 1, share, n) };
}

// The first progress, among the floats around the entries of a table, after which the formula steps back; null if there is none among them.
function stepBack(table, form, clamped) {
  const total = table.at(-1);
  if (!(total > LEAST)) return null;
  for (const entry of table) {
    const middle = bitsOf(f32(entry / total));
    for (let bits = Math.max(0, middle - 5), last = null; bits <= Math.min(middle + 5, 0x3f800000); bits++) {
      const { raw } = tried(table, floatOf(bits), form, clamped);
      if (last !== null && raw < last) return floatOf(bits - 1);
      last = raw;
    }
  }
  return null;
}

// Draws eight neighbouring progresses, a column each: the lookup as a line, the formula dashed, a step back in red; and their bits as rows.
function argument(library, form, clamped, table, middle, chart, rows) {
  const from = bitsOf(middle) - 3, found = [];
  for (let bits = Math.max(0, from); bits < from + 8 && bits <= 0x3f800000; bits++) {
    const progress = floatOf(bits), other = tried(table, progress, form, clamped);
    found.push({ progress, ...other, proved: library.raw(table, table.at(-1), progress) });
  }
  found.forEach((row, k) => { row.back = k > 0 && row.raw < found[k - 1].raw; });
  const all = found.flatMap(row => [row.raw, row.proved]), low = Math.min(...all), high = Math.max(...all);
  const x = k => 130 + (k * 840) / Math.max(1, found.length - 1), y = raw => 225 - (high > low ? (200 * (raw - low)) / (high - low) : 100);
  chart.replaceChildren();
  // a line for each float from the least to the largest, if they are few
  const many = bitsOf(high) - bitsOf(low) + 1, floats = Array.from({ length: many < 9 ? many : 1 }, (_, k) => floatOf(bitsOf(low) + k));
  make(chart, "path", { class: "steps", d: floats.map(raw => `M125 ${y(raw)}H1000`).join("") });
  for (const raw of floats) make(chart, "text", { x: 4, y: y(raw) + 7 }).textContent = hex(raw);
  const line = (name, piece) => make(chart, "path", { class: name, d: found.map(piece).join("") });
  line("proved", (row, k) => `${k ? "L" : "M"}${x(k)} ${y(row.proved)}`);
  line("tried", (row, k) => `${k ? "L" : "M"}${x(k)} ${y(row.raw)}`);
  line("back", (row, k) => (row.back ? `M${x(k - 1)} ${y(found[k - 1].raw)}L${x(k)} ${y(row.raw)}` : ""));
  line("dots proved", (row, k) => `M${x(k)} ${y(row.proved)}h0`);
  const word = row => (row.back ? "steps back" : row.raw < row.proved ? "smaller" : row.raw > row.proved ? "larger" : "equal");
  const cells = row => [hex(row.progress), row.entry, hex(row.share), hex(row.proved), hex(row.raw), word(row)];
  rows.innerHTML = found.map(row => `<tr${row.back ? ' class="back"' : ""}>${cells(row).map(text => `<td>${text}`).join("")}`).join("");
  return found;
}
