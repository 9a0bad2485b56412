// The page: at each keystroke the text becomes a flight; a progress is shown as a place on the path and as a letter of the text.

const $ = id => document.getElementById(id), coder = new TextEncoder();
const DRAWS = { L: 0, H: 0, V: 0, Z: 0, Q: 1, T: 1, C: 2, S: 2, A: 3 }; // the kind of segment that a letter draws
const html = text => text.replace(/[&<>"]/g, c => `&#${c.charCodeAt(0)};`);
const english = new Intl.NumberFormat("en"), plural = (n, one) => `${english.format(n)} ${one}${n === 1 ? "" : "s"}`;
// A link to a proof; its title names the theorems.
const theorems = to => $(to).querySelector("code").textContent;
const proved = to => ` <a class="proved" href="#${to}" title="${theorems(to)}">proved</a>`;
const briefly = to => ` <a class="proved" href="#${to}" title="${theorems(to)}"><span class="hidden">proved</span></a>`;

// The shortest decimal that is read back as the value.
function shown(value) {
  for (let digits = 1; digits < 9; digits++) {
    const text = value.toPrecision(digits);
    if (f32(Number(text)) === value) return String(Number(text));
  }
  return String(Number(value.toPrecision(9)));
}

// The least and the largest x and y of what is flown; null without a segment.
function boxOf(segments, ...flown) {
  const box = [Infinity, Infinity, -Infinity, -Infinity];
  const take = (x, y) => {
    if (!Number.isFinite(x + y)) return;
    [box[0], box[1], box[2], box[3]] = [Math.min(box[0], x), Math.min(box[1], y), Math.max(box[2], x), Math.max(box[3], y)];
  };
  for (const { numbers } of segments) take(numbers[0], numbers[1]);
  for (const out of segments.length ? flown : []) for (let k = 0; k < out.length; k += 4) take(out[k], out[k + 1]);
  return box[0] <= box[2] ? box : null;
}

async function start() {
  const library = await kihavute(Uint8Array.from(atob(WASM), c => c.charCodeAt(0)));
  const plan = $("plan"), marks = $("marks"), slider = $("progress");
  let flight = null; // of the last plan that was accepted
  let refusal = null; // of the present text, if it is refused
  let bytes = new Uint8Array(), begin = 0, listing = ""; // the text, the offset of its path data, what the station tool prints
  let kept = 0, marked = -1; // the progress, and the segment whose letter is marked in the text
  let note = "", file = "plan"; // a remark on the file that was opened, and its name
  const view = picture($("picture"), (progress, keep) => (progress !== null && keep ? go(progress) : show(progress ?? kept)), $("where"));

  // ---- the text

  // Offsets of bytes to those of JavaScript, which differ if a character takes several bytes.
  let indexOf = at => at;
  function mapOffsets(text) {
    indexOf = at => at;
    if (bytes.length === text.length) return;
    const map = [];
    for (let k = 0; k < text.length; k++) {
      const code = text.codePointAt(k), size = code < 128 ? 1 : code < 2048 ? 2 : code < 65536 ? 3 : 4;
      for (let i = 0; i < size; i++) map.push(k);
      if (code > 65535) k++;
    }
    indexOf = at => map[at] ?? text.length;
  }

  // Line and column of a byte, from 1, as tools/refusal counts them.
  function lineOf(at) {
    const before = bytes.subarray(0, at);
    return [before.reduce((n, c) => n + (c === 10), 1), at - before.lastIndexOf(10)];
  }

  // Colours the text: letters as what they draw, the place of a refusal, the letter and the group of numbers that draw the present segment.
  function paint() {
    const text = plan.value + (refusal && refusal.at >= bytes.length ? " " : "\n"), from = text.indexOf("\n") + 1;
    const style = Array(text.length).fill("").fill("count", 0, from);
    for (let k = from; k < text.length; k++) {
      const kind = DRAWS[text[k].toUpperCase()];
      if (kind !== undefined) style[k] = `b ${KINDS[kind]}`;
      else if (text[k] === "M" || text[k] === "m") style[k] = "b";
    }
    if (refusal) style[indexOf(refusal.at)] += " fault";
    const segment = refusal ? null : flight?.segments[marked];
    if (segment) {
      const letter = indexOf(begin + flight.commands[segment.command].offset), group = flight.groups[segment.command];
      for (let k = indexOf(group.from); k < indexOf(group.to); k++) style[k] += " maker";
      if (!style[letter].includes("maker")) style[letter] += " maker";
    }
    let out = "";
    for (let k = 0, run = 0; k <= text.length; k++) {
      if (k < text.length && style[k] === style[run]) continue;
      const words = html(text.slice(run, k)), name = style[run].trim();
      out += !name ? words : name[0] === "b" ? `<b class="${name.slice(1).trim()}">${words}</b>` : `<span class="${name}">${words}</span>`;
      run = k;
    }
    marks.innerHTML = out;
    // reading these at once would lay the page out at each keystroke
    requestAnimationFrame(() => {
      const mark = document.activeElement === plan ? null : marks.querySelector(".maker"), top = plan.scrollTop;
      if (mark && (mark.offsetTop < top || mark.offsetTop > top + plan.clientHeight - 24)) plan.scrollTop = mark.offsetTop - plan.clientHeight / 3;
      marks.scrollTop = plan.scrollTop;
    });
  }

  // Marks in the picture what the text at the caret draws.
  function caret() {
    if (refusal || !flight) return view.point([]);
    const at = document.activeElement === plan ? plan.selectionStart : -1;
    const command = flight.groups.findIndex((group, k) => indexOf(begin + flight.commands[k].offset) <= at && at <= indexOf(group.to));
    view.point(flight.segments.filter(segment => segment.command === command));
  }

  // Reads, builds and draws the present text.
  function fly(whole) {
    bytes = coder.encode(plan.value);
    mapOffsets(plan.value);
    begin = bytes.indexOf(10) + 1 || bytes.length;
    listing = new TextDecoder().decode(library.stations(bytes));
    const data = bytes.subarray(begin), words = listing.trimEnd().split(" ");
    refusal = words[0] === "refused" ? refusalOf(bytes, Number(words[1]), words.slice(2)) : null;
    if (!refusal) {
      const built = library.build(data), count = parseInt(plan.value, 10), many = Math.min(2048, 64 + 64 * built.segments.length);
      const asked = n => Float32Array.from({ length: n }, (_, k) => progressOf(k, n));
      const stations = library.flights(asked(count)), progresses = asked(many), dense = { progresses, ...library.flights(progresses) };
      for (const segment of built.segments) segment.shape = shapeOf(segment);
      flight = { ...built, count, stations, dense, groups: groupsOf(bytes, begin), gaps: gapsOf(built.segments), ask: library.flight };
      flight.box = boxOf(flight.segments, dense.out, stations.out);
      view.show(flight, whole);
      plotOrder();
      showTotals();
    }
    document.body.classList.toggle("stale", Boolean(refusal));
    judge(data);
    $("room").textContent = `${plural(data.length, "byte")} of 4,096`;
    $("lines").textContent = plural(listing.length, "byte");
    if ($("listed").open) $("lined").textContent = listing;
    marked = -1;
    if (flight) show(kept);
    else paint();
    caret();
    if ($("argument").open) argue(true);
    remember();
  }

  // Says whether the text is accepted, and what strict reading says.
  function judge(data) {
    const verdict = $("verdict");
    verdict.className = refusal ? "no" : "";
    plan.setAttribute("aria-invalid", Boolean(refusal));
    if (refusal) {
      const [line, column] = lineOf(refusal.at), hints = refusal.hints.map(hint => `<p>${html(hint)}</p>`).join("");
      verdict.innerHTML = `<p><b>Refused ${refusal.number}</b>, line ${line}, column ${column}: ${html(refusal.words)}.${proved("p-read")}</p>${hints}`;
      const button = (words, act) => {
        const node = document.createElement("button");
        verdict.append(Object.assign(node, { type: "button", textContent: words, onclick: act }), " ");
      };
      const at = indexOf(refusal.at);
      button("Go there", () => { plan.focus(); plan.setSelectionRange(at, at + 1); });
      if (/^\s*[a-z]/i.test(plan.value)) button("Put 41 stations before it", () => load(`41\n${plan.value}`));
    } else {
      const { count, segments } = flight, on = `${plural(count, "station")} on ${plural(segments.length, "segment")}`;
      verdict.innerHTML = `<p><b>Accepted</b>: ${on}.${proved("p-read")}</p>`;
    }
    if (note) verdict.insertAdjacentHTML("beforeend", `<p>${html(note)}</p>`);
    const [first, second] = [1, 2].map(edition => library.strict(data, edition)), word = yes => (yes === null ? "too long" : yes ? "yes" : "no");
    const edition = (name, yes) => `<span class="${yes ? "yes" : "no"}">Strict ${name}: <b>${word(yes)}</b></span>`;
    // the grammar of SVG 2 has no white space before a command's letter; whether the answer is no for that alone, the grammar itself decides
    const bare = () => new TextDecoder().decode(data).replace(/\s+/g, (run, at, all) => (/[a-df-z]/i.test(all[at + run.length]) ? "" : run)).trim();
    const spaced = second === false && library.strict(coder.encode(bare()), 2);
    $("strict").innerHTML = edition("SVG 1.1", first) + edition("SVG 2", second) + proved("p-strict") +
      (spaced ? "<small>The grammar of SVG 2 has no white space before a command's letter or at the end; without that white space the answer is yes.</small>" : "");
  }

  // The numbers of the whole flight.
  function showTotals() {
    const { segments, commands, length, box, gaps, count } = flight, apart = Number((length / (count - 1)).toPrecision(6));
    const entry = (name, n, of) => (n ? `<li class="${name}"${of}>${plural(n, name.replace("fallback", "fallback line"))}</li>` : "");
    const why = ' title="An arc that is drawn as a straight line, for instance since a radius is 0"';
    $("legend").innerHTML = KINDS.map((kind, k) => entry(kind, segments.filter(segment => segment.kind === k).length, k === 4 ? why : "")).join("") +
      entry("gap", gaps.length, "");
    const rows = [[`Length${briefly("p-place")}`, `${shown(length)} path units`], ["Between stations", `${apart} path units`]];
    rows.push([`Commands${briefly("p-number")}`, english.format(commands.length)]);
    if (box) {
      const step = 2 ** (Math.floor(Math.log2(Math.max(...box.map(Math.abs), 2 ** -126))) - 23);
      rows.push(["x", `${shown(box[0])} to ${shown(box[2])}`], ["y", `${shown(box[1])} to ${shown(box[3])}`]);
      const coarse = `neighbouring floats are ${Number(step.toPrecision(4))} path units apart here; shift the origin (README, Coordinates)`;
      if (step > 0.001) rows.push(["Coarse", coarse]);
    }
    $("totals").innerHTML = rows.map(([name, value]) => `<dt>${name}<dd>${value}`).join("");
    $("picture").setAttribute("aria-label", `The flight: ${plural(segments.length, "segment")}, ${plural(count, "station")}, ${shown(length)} path units long`);
  }

  // ---- the progress

  // Shows the flight at a progress: the packet, the numbers, the letter in the text. The length flown is total·progress rounded once, the
  // target of the library's lookup; all other numbers are the module's.
  function show(progress) {
    if (!flight) return;
    const at = flight.ask(progress), { segments, commands, count, length } = flight, segment = segments[at.segment];
    view.move(at);
    if (at.segment !== marked) {
      marked = at.segment;
      paint();
    }
    const k = progress * (count - 1), on = Math.round(k), exact = progressOf(on, count) === progress;
    const station = exact ? `${on}` : `${Math.floor(k)} to ${Math.floor(k) + 1}`, name = segment ? `${at.segment}, ${KINDS[segment.kind]}` : "none";
    const letter = segment && !refusal ? begin + commands[segment.command].offset : null, [line, column] = letter === null ? [] : lineOf(letter);
    const heading = at.dx || at.dy ? `${Number(at.heading.toFixed(3))}°` : "none";
    const put = (what, value, bits) => { $("reading").querySelector(`[data-of="${what}"]`).innerHTML = `${value}<small>${bits}</small>`; };
    put("station", station, `of 0 to ${count - 1}`);
    put("flown", shown(f32(length * progress)), `of ${shown(length)}`);
    put("segment", name, segment ? `of 0 to ${segments.length - 1}` : "");
    put("raw", shown(at.raw), hex(at.raw));
    put("position", `${shown(at.x)}, ${shown(at.y)}`, `${hex(at.x)} ${hex(at.y)}`);
    put("heading", heading, `${hex(at.dx)} ${hex(at.dy)}`);
    put("letter", letter === null ? "–" : `${plan.value[indexOf(letter)]}, line ${line}`, letter === null ? "" : `column ${column}, byte ${letter - begin}`);
    $("now").innerHTML = `${shown(progress)}<small>progress ${hex(progress)}</small>`;
    slider.setAttribute("aria-valuetext", `${Number(progress.toFixed(4))}, station ${station}, segment ${name}, heading ${heading}`);
    $("plot").querySelector(".cursor").setAttribute("d", `M${1000 * progress} 0V100`);
    $("plot").querySelector(".spot").setAttribute("d", segment ? `M${1000 * progress} ${orderAt(at.segment, at.raw)}h0` : "");
  }

  // Goes to a progress and keeps it.
  function go(progress) {
    kept = progress > 0 ? f32(Math.min(1, progress)) : 0;
    slider.value = kept;
    show(kept);
    remember();
  }
  function goStation(by) {
    if (!flight) return;
    const k = kept * (flight.count - 1), on = by > 0 ? Math.floor(k + 1e-6) + 1 : Math.ceil(k - 1e-6) - 1;
    go(progressOf(Math.min(flight.count - 1, Math.max(0, on)), flight.count));
  }

  // Draws the pair of segment and raw parameter over progress.
  const orderAt = (segment, raw) => Math.round(9400 - (8800 * (segment + raw)) / Math.max(1, flight.segments.length)) / 100;
  function plotOrder() {
    const { progresses, segments, raws } = flight.dense, many = progresses.length, some = flight.segments.length, thin = Math.ceil(many / 600);
    let line = "", back = 0;
    for (let k = 0; k < many && some; k++) {
      if (k % thin === 0 || k === many - 1) line += `${k ? "L" : "M"}${Math.round(1000 * progresses[k])} ${orderAt(segments[k], raws[k])}`;
      if (k && (segments[k] < segments[k - 1] || (segments[k] === segments[k - 1] && raws[k] < raws[k - 1]))) back++;
    }
    $("plot").replaceChildren();
    make($("plot"), "path", { class: "steps", d: some <= 40 ? flight.segments.map((_, k) => `M0 ${orderAt(k, 0)}H1000`).join("") : "" });
    make($("plot"), "path", { class: "curve", d: line });
    make($("plot"), "path", { class: "cursor" });
    make($("plot"), "path", { class: "spot" });
    $("plotted").textContent = `Segment and raw parameter over progress: ${plural(many, "flight")}, ${plural(back, "step")} back.`;
  }

  // ---- docs/ORDER.md: a formula on the table that shows what it does, or on a curve of this plan

  let middle = 0, table = null;
  function argue(fresh) {
    const form = FORMS[$("form").value], clamped = !form.share || $("clamp").checked;
    if (fresh) {
      const curves = (flight?.segments ?? []).map((segment, k) => [k, segment.table?.subarray(0, 32)]).filter(([, entries]) => entries);
      const found = curves.map(([k, entries]) => [k, stepBack(entries, form, clamped)]).filter(([, at]) => at !== null), was = $("table").value;
      $("table").innerHTML = `<option value="">${form.drawn ? "the drawn line M0 0Q0 0 1 0" : "the table of docs/ORDER.md"}</option>` +
        found.slice(0, 40).map(([k, at]) => `<option value="${k} ${at}">segment ${k} of this plan: it steps back</option>`).join("");
      $("table").value = [...$("table").options].some(option => option.value === was) ? was : "";
      $("clampless").hidden = !form.share;
      const [segment, at] = $("table").value.split(" ");
      table = segment ? flight.segments[segment].table.subarray(0, 32) : form.drawn ? library.quad(...form.drawn) : Float32Array.from(form.table);
      middle = segment ? Number(at) : near(form.at);
      const laws = form.laws.map(([name, from]) => `<code>${name}</code> in <code>${from}</code>`).join(", ");
      const here = `Of the ${plural(curves.length, "curve")} of this plan, tried at the floats around their entries, it steps back on ${found.length || "none"}.`;
      $("says").innerHTML = `In place of ${html(form.part)}. ${html(form.says)} <span class="theorem">${laws}</span>. ` +
        (curves.length ? here : "This plan has no curve to try it on.");
    }
    argument(library, form, clamped, table, middle, $("chart"), $("rows"));
  }

  // ---- link, listing, picture, files

  // The plan and the progress as an address: spaces as +, line feeds as ~.
  function address() {
    const text = encodeURIComponent(plan.value.toWellFormed()).replace(/~/g, "%7E").replace(/%20/g, "+").replace(/%0A/g, "~").replace(/%2C/g, ",");
    return `#${text}${kept ? `&at=${hex(kept)}` : ""}`;
  }
  let waiting = 0;
  function remember() {
    clearTimeout(waiting);
    waiting = setTimeout(() => history.replaceState(null, "", address()), 400);
  }
  function recall() {
    const [text, at] = location.hash.slice(1).split("&at=");
    if (!text || text === "plan") return false;
    try {
      put(decodeURIComponent(text.replace(/\+/g, "%20").replace(/~/g, "%0A")));
    } catch {
      return false; // no address of this page
    }
    if (at) go(near(at));
    return true;
  }
  function put(text, said = "") {
    plan.value = text;
    note = said;
    kept = 0;
    slider.value = 0;
    fly(true);
  }
  // Puts another plan in place of the text; the browser's Back returns to the one before.
  function load(text, said) {
    history.replaceState(null, "", address());
    put(text, said);
    history.pushState(null, "", address());
  }

  function say(button, words) {
    button.dataset.was ??= button.textContent;
    button.textContent = words;
    setTimeout(() => { button.textContent = button.dataset.was; }, 1500);
  }
  async function copy(text, button) {
    let done = true;
    try {
      await navigator.clipboard.writeText(text);
    } catch {
      const box = document.body.appendChild(Object.assign(document.createElement("textarea"), { value: text }));
      box.select();
      done = document.execCommand("copy");
      box.remove();
    }
    say(button, done ? "Copied" : "Not allowed");
  }

  // The picture as a file of its own, with the colours of the page and the plan in its <desc>. A packet at the start is not drawn.
  const STYLES = ["fill", "stroke", "stroke-width", "stroke-dasharray", "stroke-linecap", "stroke-linejoin", "opacity", "font-size", "text-anchor", "paint-order"];
  function drawing() {
    const svg = $("picture"), twin = svg.cloneNode(true), { wide, high } = view.size(), twins = twin.querySelectorAll("*");
    svg.querySelectorAll("*").forEach((node, k) => {
      const style = getComputedStyle(node);
      for (const key of STYLES) twins[k].setAttribute(key, style.getPropertyValue(key));
    });
    for (const node of twin.querySelectorAll(kept ? ".typed" : ".typed, .current, .halo, .packet")) node.remove();
    for (const name of ["id", "style", "tabindex", "role", "aria-label", "aria-describedby"]) twin.removeAttribute(name);
    const head = { xmlns: svg.namespaceURI, width: wide, height: high, viewBox: `0 0 ${wide} ${high}`, "font-family": "sans-serif" };
    for (const key in head) twin.setAttribute(key, head[key]);
    twin.prepend(make(twin, "rect", { width: wide, height: high, fill: getComputedStyle(svg.parentElement).backgroundColor }));
    const words = make(twin, "desc");
    words.textContent = plan.value;
    twin.prepend(words);
    return new XMLSerializer().serializeToString(twin);
  }
  function save(text, name, button) {
    const href = URL.createObjectURL(new Blob([text]));
    Object.assign(document.createElement("a"), { href, download: name }).click();
    setTimeout(() => URL.revokeObjectURL(href), 1000);
    say(button, "Saved");
  }

  // Opens a file: a plan, or a drawing, whose paths are listed. `more` is how many files came with it.
  async function take(given, more = 0) {
    const large = (most, what) => tell(`${given.name} has ${plural(given.size, "byte")}, and ${what} at most ${english.format(most)}; nothing was opened.`);
    $("paths").hidden = true;
    if (given.size > 2 ** 24) return large(2 ** 24, "a drawing may have");
    const raw = new Uint8Array(await given.arrayBuffer()), text = new TextDecoder("utf-8", { ignoreBOM: true }).decode(raw);
    const only = more ? `Only ${given.name} was opened; open the other ${plural(more, "file")} one by one. ` : "";
    const crs = raw.includes(13) ? "The file has CRs, which this page took out; ./run refuses a first line that ends in one." : "";
    if (/^[\s\uFEFF]*</.test(text)) return takeDrawing(text, given.name, only);
    if (raw.length > 65536) return large(65536, "a text may have");
    file = given.name.replace(/\.[^.]*$/, "") || "plan";
    load(text, only + crs);
  }
  function takeDrawing(text, name, only) {
    const parsed = new DOMParser().parseFromString(text, "image/svg+xml"), found = [...parsed.querySelectorAll("path[d]")], count = flight?.count ?? 41;
    if (parsed.querySelector("parsererror")) return tell(`${only}${name} is not well-formed SVG; save it again from a drawing program.`);
    if (!found.length) return tell(`${only}${name} has no path element; turn its shapes into paths in a drawing program.`);
    const row = path => {
      const data = path.getAttribute("d"), moved = path.closest("[transform]") ? " <small>its transform is not applied</small>" : "";
      return `<li><button type="button">${html(path.id || data.slice(0, 28))}, ${plural(coder.encode(data).length, "byte")}</button>${moved}`;
    };
    const list = $("paths");
    list.hidden = false;
    list.innerHTML = `<h2>${plural(found.length, "path")} in ${html(name)}</h2><p class="hint">Choose the path to fly with ${plural(count, "station")}.</p>` +
      `<ol>${found.map(row).join("")}</ol>`;
    file = name.replace(/\.[^.]*$/, "") || "plan";
    list.querySelectorAll("button").forEach((button, k) => { button.onclick = () => load(`${count}\n${found[k].getAttribute("d")}`, only); });
    if (found.length === 1) list.querySelector("button").click();
    else list.querySelector("button").focus();
  }
  // A remark below the verdict, until the next keystroke.
  function tell(words) {
    note = words;
    judge(bytes.subarray(begin));
  }

  // ---- controls

  plan.addEventListener("input", () => { note = ""; fly(false); });
  plan.addEventListener("paste", event => {
    const text = event.clipboardData.getData("text");
    if (!/^\s*</.test(text)) return;
    event.preventDefault();
    take(new File([text], "the pasted text"));
  });
  plan.addEventListener("scroll", () => { marks.scrollTop = plan.scrollTop; });
  plan.addEventListener("blur", caret);
  document.addEventListener("selectionchange", caret);
  slider.addEventListener("input", () => go(Number(slider.value)));
  slider.addEventListener("keydown", event => {
    const by = { ArrowRight: 1, ArrowUp: 1, ArrowLeft: -1, ArrowDown: -1 }[event.key];
    if (!by) return;
    event.preventDefault();
    if (event.shiftKey) go(floatOf(Math.min(0x3f800000, Math.max(0, bitsOf(kept) + by))));
    else goStation(by);
  });
  $("earlier").onclick = () => goStation(-1);
  $("later").onclick = () => goStation(1);
  let flying = 0;
  $("play").onclick = () => {
    const on = !flying;
    cancelAnimationFrame(flying);
    flying = 0;
    $("play").setAttribute("aria-pressed", on);
    $("play").textContent = on ? "Pause" : "Fly";
    if (!on) return;
    let last = performance.now();
    if (kept >= 1) go(0);
    const step = now => {
      go(kept + (now - last) / 14000);
      last = now;
      if (kept < 1) flying = requestAnimationFrame(step);
      else $("play").click();
    };
    flying = requestAnimationFrame(step);
  };
  for (const name of ["pointerdown", "pointermove"])
    $("plot").addEventListener(name, event => {
      const { left, width } = $("plot").getBoundingClientRect();
      if (event.buttons) go((event.clientX - left) / width);
    });
  $("in").onclick = () => view.zoom(1.4);
  $("out").onclick = () => view.zoom(1 / 1.4);
  $("fit").onclick = () => view.fit();
  $("flip").onclick = () => $("flip").setAttribute("aria-pressed", view.flip());
  $("listing").onclick = () => copy(listing, $("listing"));
  $("listed").addEventListener("toggle", () => { $("lined").textContent = listing; });
  $("link").onclick = () => { history.replaceState(null, "", address()); copy(location.href, $("link")); };
  $("save").onclick = () => save(drawing(), `${file}.svg`, $("save"));
  $("store").onclick = () => save(plan.value, `${file}.plan`, $("store"));
  $("open").onclick = () => $("file").click();
  $("file").onchange = () => { if ($("file").files[0]) take($("file").files[0]); $("file").value = ""; };
  const theme = document.documentElement.dataset;
  $("theme").onclick = () => {
    const dark = theme.theme ? theme.theme === "dark" : matchMedia("(prefers-color-scheme: dark)").matches;
    theme.theme = dark ? "light" : "dark";
    try { localStorage.setItem("kihavute", theme.theme); } catch { /* a browser may keep nothing for a file */ }
  };
  try { if (localStorage.getItem("kihavute")) theme.theme = localStorage.getItem("kihavute"); } catch { /* nor give it back */ }
  $("example").innerHTML += Object.keys(EXAMPLES).map(name => `<option>${html(name)}</option>`).join("");
  $("example").onchange = () => { if ($("example").value) load(EXAMPLES[(file = $("example").value)]); $("example").value = ""; };
  $("form").innerHTML = FORMS.map((form, k) => `<option value="${k}">${html(form.name)}</option>`).join("");
  for (const id of ["form", "table", "clamp"]) $(id).onchange = () => argue(true);
  for (const [id, by] of [["before", -1], ["after", 1]])
    $(id).onclick = () => { middle = floatOf(Math.min(0x3f800000, Math.max(0, bitsOf(middle) + by))); argue(false); };
  $("argument").addEventListener("toggle", () => { if ($("argument").open) argue(true); });
  for (const name of ["popstate", "hashchange"]) addEventListener(name, recall);
  // a link to a proof leaves the address as it is, since that carries the plan
  addEventListener("click", event => {
    const to = event.target.closest("a.proved")?.hash.slice(1);
    if (!to) return;
    event.preventDefault();
    $("proofs").open = true;
    document.querySelector("li.here")?.classList.remove("here");
    $(to).classList.add("here");
    $(to).scrollIntoView({ block: "center" });
    $(to).focus({ preventScroll: true });
  });
  for (const name of ["dragenter", "dragover", "dragleave", "drop"])
    addEventListener(name, event => {
      event.preventDefault();
      document.body.classList.toggle("over", name !== "drop" && (name !== "dragleave" || Boolean(event.relatedTarget)));
      const files = name === "drop" ? event.dataTransfer.files : [];
      if (files.length) take(files[0], files.length - 1);
    });

  for (const link of document.querySelectorAll("a.proved")) link.title = theorems(link.hash.slice(1));
  $("size").textContent = `${plural(library.bytes, "byte")}, ${plural(library.exports - 2, "function")} and no imports`;
  if (!recall()) put(Object.values(EXAMPLES)[0]);
  window.page = { library, fly, go, drawing, listing: () => listing, kept: () => kept, flight: () => flight, ready: performance.now() }; // for tests/page
  document.documentElement.dataset.ready = "yes";
}

start().catch(error => {
  $("verdict").className = "no";
  $("verdict").textContent = `The library does not run in this browser (${error.message}). Open the page in Chrome 123, Firefox 120, Safari 17.5 or a later one.`;
});
