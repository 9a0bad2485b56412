// The picture of a flight: what the module answered, turned into pixels. No place of the flight is computed here: the path is drawn from
// the stored numbers of its segments, an arc from the centre, radii and angles that the library fitted.

const make = (parent, name, attributes = {}) => {
  const node = document.createElementNS("http://www.w3.org/2000/svg", name);
  for (const key in attributes) node.setAttribute(key, attributes[key]);
  parent.append(node);
  return node;
};

// A segment as SVG's commands, in path units: letters, each with its numbers, x before y.
function shapeOf({ kind, numbers: n }) {
  if (kind === 1) return [["M", n[0], n[1]], ["Q", ...n.slice(2)]];
  if (kind === 2) return [["M", n[0], n[1]], ["C", ...n.slice(2)]];
  if (kind !== 3) return [["M", n[0], n[1]], ["L", n[2], n[3]]];
  const [cx, cy, rx, ry, degrees, start, swept] = n.slice(4), turn = ((degrees % 360) * Math.PI) / 180;
  const cos = Math.cos(turn), sin = Math.sin(turn), to = (u, v) => [cx + cos * rx * u - sin * ry * v, cy + sin * rx * u + cos * ry * v];
  // pieces of at most an eighth of a turn, each a cubic that is within 4e-6 radii of the arc
  const many = Math.max(1, Math.ceil(Math.abs(swept) / (Math.PI / 4) - 1e-6)), step = swept / many, k = (4 / 3) * Math.tan(step / 4);
  const shape = [["M", ...to(Math.cos(start), Math.sin(start))]];
  for (let i = 0, a = start; i < many; i++, a += step) {
    const [c, s, d, t] = [Math.cos(a), Math.sin(a), Math.cos(a + step), Math.sin(a + step)];
    shape.push(["C", ...to(c - k * s, s + k * c), ...to(d + k * t, t - k * d), ...to(d, t)]);
  }
  return shape;
}

// Both points wherever a segment does not start where the one before it ends.
function gapsOf(segments) {
  const gaps = [];
  for (let k = 1; k < segments.length; k++) {
    const last = segments[k - 1], at = [2, 4, 6, 2, 2][last.kind], [x, y] = last.numbers.slice(at, at + 2), [u, v] = segments[k].numbers;
    if (x !== u || y !== v) gaps.push([x, y, u, v]);
  }
  return gaps;
}

// The largest of 1, 2 or 5 times a power of ten that is at most `most`.
function round125(most) {
  const power = 10 ** Math.floor(Math.log10(most));
  return [5, 2, 1].map(d => d * power).find(d => d <= most * 1.0000001) ?? power;
}

// A coordinate with as many digits as a step of the grid needs.
function short(value, step) {
  if (Math.abs(value) >= 1e7 || (value && Math.abs(value) < 1e-4)) return String(Number(value.toPrecision(7)));
  return value.toFixed(Math.min(9, Math.max(0, -Math.floor(Math.log10(step) + 1e-9))));
}

// Draws into an <svg>. It calls `chosen(progress, keep)` if a progress is pointed at or clicked, with null if the pointer is beside the
// path; `where` shows the pointer's coordinates.
function picture(svg, chosen, where) {
  const layer = name => make(svg, "path", { class: name });
  const grid = layer("grid"), ticks = make(svg, "g", { class: "ticks" }), gaps = layer("gap"), current = layer("current"), typed = layer("typed");
  const paths = KINDS.map(kind => layer(`path ${kind}`)), arrows = KINDS.map(kind => layer(`arrow ${kind}`));
  const dots = KINDS.map(kind => layer(`dot ${kind}`)), start = layer("start"), end = layer("end"), labels = make(svg, "g", { class: "labels" });
  const scale = layer("scale"), unit = make(svg, "text", { class: "unit" }), halo = layer("halo"), packet = layer("packet");
  let flight = null, box = null, view = { x: 0, y: 0, k: 1 }, fitted = 1, wide = 640, high = 480, up = false, at = null;

  // path units to pixels, in f64, so that large coordinates do not jitter
  const X = x => Math.round(((x - view.x) * view.k + wide / 2) * 100) / 100;
  const Y = y => Math.round(((y - view.y) * view.k * (up ? -1 : 1) + high / 2) * 100) / 100;
  const data = shape => shape.map(([letter, ...n]) => letter + n.map((v, k) => (k % 2 ? Y(v) : X(v))).join(" ")).join("");
  const r = value => Math.round(value * 10) / 10;

  function fit() {
    const w = box ? box[2] - box[0] : 0, h = box ? box[3] - box[1] : 0, k = Math.min((wide - 110) / w, (high - 130) / h);
    fitted = k > 0 && Number.isFinite(k) ? k : 1;
    view = { x: box ? (box[0] + box[2]) / 2 : 0, y: box ? (box[1] + box[3]) / 2 : 0, k: fitted };
  }

  function drawGrid() {
    const step = round125(110 / view.k) || 1, sides = [wide / 2 / view.k, high / 2 / view.k];
    let d = "";
    ticks.replaceChildren();
    for (let i = Math.ceil((view.x - sides[0]) / step), to = i + 60; i < to && i * step <= view.x + sides[0]; i++) {
      d += `M${X(i * step)} 0V${high}`;
      if (X(i * step) < wide - 40) make(ticks, "text", { x: X(i * step) + 3, y: high - 5 }).textContent = short(i * step, step);
    }
    for (let i = Math.ceil((view.y - sides[1]) / step), to = i + 60; i < to && i * step <= view.y + sides[1]; i++) {
      d += `M0 ${Y(i * step)}H${wide}`;
      if (Y(i * step) > 48 && Y(i * step) < high - 22) make(ticks, "text", { x: 4, y: Y(i * step) - 3 }).textContent = short(i * step, step);
    }
    grid.setAttribute("d", d);
    const long = round125(170 / view.k), x = wide - 18 - long * view.k;
    scale.setAttribute("d", `M${x} ${high - 33}v10m0 -5h${long * view.k}m0 -5v10`);
    unit.textContent = `${Number(long.toPrecision(3))} path unit${long === 1 ? "" : "s"}, y ${up ? "up" : "down"}`;
    unit.setAttribute("x", wide - 18);
    unit.setAttribute("y", high - 38);
  }

  // A word beside the path, if it covers none that is there already. Letters are about 7 pixels wide and 13 high.
  let covered = [];
  function label(x, y, text, anchor = "middle") {
    const size = 7 * String(text).length + 4, left = anchor === "end" ? x - size : anchor === "start" ? x : x - size / 2;
    if (covered.some(([u, v, w]) => left < u + w && u < left + size && Math.abs(v - y) < 15)) return;
    covered.push([left, y, size]);
    make(labels, "text", { x: r(x), y: r(y), "text-anchor": anchor }).textContent = text;
  }

  // The start and the end, with their words; returns whether they are at one spot of the picture.
  function drawEnds({ count, segments, stations: { out } }) {
    const there = k => [X(out[4 * k]), Y(out[4 * k + 1]), out[4 * k + 2], up ? -out[4 * k + 3] : out[4 * k + 3]];
    const [u, v] = there(0), [p, q] = there(count - 1), closed = Math.hypot(u - p, v - q) < 14;
    start.setAttribute("d", segments.length ? `M${u - 9} ${v}a9 9 0 1 0 18 0a9 9 0 1 0 -18 0` : "");
    end.setAttribute("d", segments.length ? `M${p - 7} ${q - 7}h14v14h-14z` : "");
    // the words are on the other side of the line than the numbers
    const beside = (k, text) => {
      const [x, y, dx, dy] = there(k);
      label(x - 16 * dy, y + 22 * (dx || dy ? dx : 1) + 4, text, dy > 0.4 ? "end" : dy < -0.4 ? "start" : "middle");
    };
    if (segments.length) beside(0, closed ? "start, end" : "start");
    if (segments.length && !closed) beside(count - 1, "end");
    return closed;
  }

  // The stations as dots in the colour of their kind, with headings and numbers as far as there is room for them.
  function drawStations({ count, length, segments, stations }, closed, arrow, dot) {
    const apart = (length * view.k) / (count - 1), crowded = count > 200 ? 30 : 24, every = Math.max(1, Math.round(count / 12)), taken = new Set();
    svg.style.setProperty("--dot", apart < 5 ? 3 : apart < 11 ? 4.5 : 6.5);
    const { out } = stations;
    for (let k = 0; k < count; k++) {
      const u = X(out[4 * k]), v = Y(out[4 * k + 1]), dx = out[4 * k + 2], dy = up ? -out[4 * k + 3] : out[4 * k + 3];
      if (!(u > -40 && v > -40 && u < wide + 40 && v < high + 40) || stations.segments[k] === NONE) continue;
      const kind = segments[stations.segments[k]].kind, spot = Math.round(u / crowded) * 100003 + Math.round(v / crowded);
      dot[kind] += `M${u} ${v}h0`;
      if (!taken.has(spot) && (dx || dy)) {
        taken.add(spot);
        const p = u + 17 * dx, q = v + 17 * dy, barb = side => `${r(p - 6 * dx - side * dy)} ${r(q - 6 * dy + side * dx)}`;
        arrow[kind] += `M${u} ${v}L${r(p)} ${r(q)}M${barb(3.6)}L${r(p)} ${r(q)}L${barb(-3.6)}`;
      }
      // a number is beside the path, above it if there is no direction; the ring at the start and the square at the end need room
      const last = k === count - 1, far = k === 0 ? (closed ? 18 : 7) : last ? 7 : 0, x = dx || dy ? dx : 1;
      const numbered = last ? !closed : k % every === 0 && k + every / 2 <= count - 1;
      if (numbered) label(u + (15 + far) * dy, v - (13 + Math.min(far, 7)) * x + 4, k === 0 && closed ? `0, ${count - 1}` : k);
    }
  }

  function draw() {
    drawGrid();
    labels.replaceChildren();
    covered = [];
    const line = ["", "", "", "", ""], arrow = ["", "", "", "", ""], dot = ["", "", "", "", ""];
    for (const segment of flight?.segments ?? []) line[segment.kind] += data(segment.shape);
    if (flight) drawStations(flight, drawEnds(flight), arrow, dot);
    gaps.setAttribute("d", (flight?.gaps ?? []).map(([x, y, u, v]) => `M${X(x)} ${Y(y)}L${X(u)} ${Y(v)}`).join(""));
    for (const [layers, pieces] of [[paths, line], [arrows, arrow], [dots, dot]]) layers.forEach((node, kind) => node.setAttribute("d", pieces[kind]));
    point(pointed);
    move(at);
  }

  // Puts the packet where a flight is, and marks its segment.
  function move(flown) {
    at = flown;
    if (!flight || !at || at.segment === NONE || !Number.isFinite(at.x + at.y)) {
      for (const node of [packet, halo, current]) node.setAttribute("d", "");
      return;
    }
    const u = X(at.x), v = Y(at.y), dy = up ? -at.dy : at.dy, { dx } = at, to = (a, b) => `${u + a * dx - b * dy} ${v + a * dy + b * dx}`;
    packet.setAttribute("d", dx || dy ? `M${to(13, 0)}L${to(-8, 8)}L${to(-4, 0)}L${to(-8, -8)}Z` : `M${u - 6} ${v}a6 6 0 1 0 12 0a6 6 0 1 0 -12 0`);
    halo.setAttribute("d", `M${u} ${v}h0`);
    current.setAttribute("d", data(flight.segments[at.segment].shape));
  }

  // Marks the segments that the text at the caret draws.
  let pointed = [];
  function point(segments) {
    pointed = segments;
    typed.setAttribute("d", pointed.map(segment => data(segment.shape)).join(""));
  }

  // The progress of the flight nearest to a pixel: a station within 11 pixels, else a place on the path within 24; null if there is neither.
  function nearest(px, py) {
    if (!flight || !flight.segments.length) return null;
    const away = (x, y) => Math.hypot(X(x) - px, Y(y) - py), { stations, count } = flight, { progresses, out } = flight.dense;
    let least = 11, station = null, closest = null;
    for (let k = 0; k < count; k++) {
      const d = away(stations.out[4 * k], stations.out[4 * k + 1]);
      if (d < least) [least, station] = [d, k];
    }
    if (station !== null) return progressOf(station, count);
    least = Math.max(24, ((flight.length * view.k) / progresses.length) * 1.5);
    for (let k = 0; k < progresses.length; k++) {
      const d = away(out[4 * k], out[4 * k + 1]);
      if (d < least) [least, closest] = [d, k];
    }
    if (closest === null) return null;
    let low = progresses[Math.max(0, closest - 1)], top = progresses[Math.min(progresses.length - 1, closest + 1)];
    const off = progress => { const f = flight.ask(progress); return away(f.x, f.y); };
    for (let k = 0; k < 24; k++) {
      const a = low + (top - low) / 3, b = top - (top - low) / 3;
      if (off(a) <= off(b)) top = b;
      else low = a;
    }
    const found = Math.fround((low + top) / 2);
    return off(found) < 24 ? found : null;
  }

  function zoom(factor, px = wide / 2, py = high / 2) {
    const k = Math.min(fitted * 2000, Math.max(fitted / 8, view.k * factor));
    view.x += (px - wide / 2) * (1 / view.k - 1 / k);
    view.y += (up ? -1 : 1) * (py - high / 2) * (1 / view.k - 1 / k);
    view.k = k;
    draw();
  }
  function pan(u, v) {
    view.x -= u / view.k;
    view.y -= (v / view.k) * (up ? -1 : 1);
    draw();
  }

  // ---- pointer, wheel and keys

  const held = new Map(); // the pointers that are down, each with its last pixel
  let moved = 0;
  const pixel = event => { const box = svg.getBoundingClientRect(); return [event.clientX - box.left, event.clientY - box.top]; };
  svg.addEventListener("wheel", event => { event.preventDefault(); zoom(Math.exp(-event.deltaY / 400), ...pixel(event)); }, { passive: false });
  svg.addEventListener("pointerdown", event => { held.set(event.pointerId, pixel(event)); moved = 0; svg.setPointerCapture(event.pointerId); });
  svg.addEventListener("pointermove", event => {
    const now = pixel(event), before = held.get(event.pointerId), step = round125(1 / view.k), flip = up ? -1 : 1;
    where.textContent = `${short(view.x + (now[0] - wide / 2) / view.k, step)}, ${short(view.y + (flip * (now[1] - high / 2)) / view.k, step)}`;
    if (!before) return chosen(nearest(...now), false);
    moved += Math.hypot(now[0] - before[0], now[1] - before[1]);
    const other = [...held].find(([id]) => id !== event.pointerId)?.[1];
    const apart = point => Math.max(1, Math.hypot(point[0] - other[0], point[1] - other[1]));
    if (other) zoom(apart(now) / apart(before), ...other);
    else if (moved > 4) pan(now[0] - before[0], now[1] - before[1]);
    held.set(event.pointerId, now);
  });
  for (const name of ["pointerup", "pointercancel"])
    svg.addEventListener(name, event => {
      if (!held.delete(event.pointerId) || moved > 4 || name === "pointercancel") return;
      const progress = nearest(...pixel(event));
      if (progress !== null) chosen(progress, true);
    });
  svg.addEventListener("pointerleave", () => { where.textContent = ""; if (!held.size) chosen(null, false); });
  svg.addEventListener("keydown", event => {
    const act = {
      "+": () => zoom(1.25), "=": () => zoom(1.25), "-": () => zoom(0.8), 0: () => { fit(); draw(); },
      ArrowLeft: () => pan(40, 0), ArrowRight: () => pan(-40, 0), ArrowUp: () => pan(0, 40), ArrowDown: () => pan(0, -40),
    }[event.key];
    if (act && !event.ctrlKey && !event.metaKey && !event.altKey) { event.preventDefault(); act(); }
  });
  new ResizeObserver(() => {
    const size = svg.getBoundingClientRect(), was = view.k / fitted;
    if (!size.width || !size.height) return;
    [wide, high] = [size.width, size.height];
    if (Math.abs(was - 1) < 1e-9) fit();
    draw();
  }).observe(svg);

  return {
    // A new flight. While a plan is edited the view follows the path unless it is zoomed; `whole` brings all of the path into view.
    show(next, whole) {
      const before = box, same = before && next.box && before.every((v, k) => v === next.box[k]);
      [flight, box, at, pointed] = [next, next.box, null, []];
      if (whole || !before || (!same && Math.abs(view.k / fitted - 1) < 1e-9)) fit();
      draw();
    },
    move, point, zoom,
    fit: () => { fit(); draw(); },
    flip: () => { up = !up; draw(); return up; },
    size: () => ({ wide, high }),
  };
}
