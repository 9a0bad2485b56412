// The proved library: include/kihavute.h as a WebAssembly module, called on buffers in the module's own memory.
//
// A pointer is a number, a count is a BigInt (the module's size_t has 64 bits), an answer is 8 elements of 64 bits. The buffers hold every
// plan that the station tool accepts, 256 commands. They are made once, and the memory never grows after that, so no view becomes invalid.

const MOST = { text: 65537, listing: 69632, commands: 256, flights: 4096, entries: 65521 };
const KINDS = ["line", "quad", "cubic", "arc", "fallback"]; // a segment's kind is an index
const FIELDS = [4, 6, 8, 11, 11]; // how many numbers a segment of each kind stores
const NONE = 4294967295; // KIHAVUTE_NO_SEGMENT

const cell = new DataView(new ArrayBuffer(4));
const floatOf = bits => (cell.setUint32(0, Number(bits)), cell.getFloat32(0));
const bitsOf = value => (cell.setFloat32(0, value), cell.getUint32(0));
const hex = value => bitsOf(value).toString(16).toUpperCase().padStart(8, "0");

async function kihavute(wasm) {
  const { module, instance } = await WebAssembly.instantiate(wasm, {});
  const c = instance.exports;
  c.memory.grow(16);
  let free = Number(c.__heap_base.value);
  const room = (Type, count) => {
    free = (free + 15) & ~15;
    const view = new Type(c.memory.buffer, free, count);
    free += view.byteLength;
    return view;
  };
  const text = room(Uint8Array, MOST.text), listed = room(Uint8Array, MOST.listing), answer = room(BigUint64Array, 8);
  const letters = room(Uint8Array, MOST.commands), numbers = room(Float32Array, 7 * MOST.commands), offsets = room(Uint32Array, MOST.commands);
  const kinds = room(Uint8Array, MOST.commands), fields = room(Float32Array, 11 * MOST.commands), tables = room(Float32Array, 33 * MOST.commands);
  const lengths = room(Float32Array, MOST.commands), commands = room(Uint32Array, MOST.commands);
  const progresses = room(Float32Array, MOST.flights), segments = room(Uint32Array, MOST.flights), raws = room(Float32Array, MOST.flights);
  const out = room(Float32Array, 4 * MOST.flights), entries = room(Float32Array, MOST.entries);

  const lend = (view, count = view.length) => [view.byteOffset, BigInt(count)];
  const given = k => Number(answer[k]);
  // a text above the library's limit of 65,536 bytes is lent with one byte more than that, and refused for its length
  const put = bytes => { text.set(bytes.subarray(0, MOST.text)); return lend(text, Math.min(bytes.length, MOST.text)); };
  const accepted = (number, call) => { if (number) throw new Error(`${call} refused with ${number}`); };
  const stored = [kinds, fields, tables, lengths, commands];
  let path = stored.flatMap(view => lend(view, 0)); // the path of the last build, without a segment before

  return {
    c, bytes: wasm.length, exports: WebAssembly.Module.exports(module).length, imports: WebAssembly.Module.imports(module).length,

    // The listing of a plan, as the station tool prints it, in ASCII.
    stations(plan) {
      accepted(c.kihavute_stations(...put(plan), ...lend(listed), ...lend(answer)), "kihavute_stations");
      return listed.slice(0, given(0));
    },

    // Whether path data matches the grammar of an edition, 1 for SVG 1.1 and 2 for SVG 2; null if it is too long to be judged.
    strict(data, edition) {
      return c.kihavute_strict(...put(data), edition, ...lend(answer)) ? null : given(0) === 1;
    },

    // Builds path data that the station tool accepts. Returns its commands and segments; the path stays in the module for the calls below.
    build(data) {
      accepted(c.kihavute_read(...put(data), ...lend(letters), ...lend(numbers), ...lend(offsets), ...lend(answer)), "kihavute_read");
      const read = Array.from(letters.subarray(0, given(0)), (letter, k) => ({ letter: String.fromCharCode(letter), offset: offsets[k] }));
      accepted(c.kihavute_build_text(...put(data), ...stored.flatMap(view => lend(view)), ...lend(answer)), "kihavute_build_text");
      path = stored.flatMap((view, k) => lend(view, given(k)));
      const built = [];
      for (let k = 0, field = 0, table = 0, many = given(0); k < many; k++) {
        const kind = kinds[k], curved = kind >= 1 && kind <= 3;
        built.push({
          kind, command: commands[k], start: k ? lengths[k - 1] : 0, end: lengths[k],
          numbers: Array.from(fields.subarray(field, field + FIELDS[kind])), table: curved ? tables.slice(table, table + 33) : null,
        });
        field += FIELDS[kind];
        table += curved ? 33 : 0;
      }
      return { commands: read, segments: built, length: built.length ? built.at(-1).end : 0 };
    },

    // The flight at one progress.
    flight(progress) {
      accepted(c.kihavute_flight(...path, progress, ...lend(answer)), "kihavute_flight");
      const [x, y, dx, dy] = [0, 1, 2, 3].map(k => floatOf(answer[k])), segment = given(4), raw = floatOf(answer[5]);
      return { progress, x, y, dx, dy, segment, raw, heading: floatOf(c.kihavute_rotation_deg(dx, dy) >>> 0) };
    },

    // The flights at up to 4,096 progresses: segments, raw parameters, and in `out` the x, the y and the direction of each.
    flights(asked) {
      progresses.set(asked);
      const many = asked.length;
      accepted(c.kihavute_flights(...path, ...lend(progresses, many), ...lend(segments), ...lend(raws), ...lend(out), ...lend(answer)), "kihavute_flights");
      return { segments: segments.slice(0, many), raws: raws.slice(0, many), out: out.slice(0, 4 * many) };
    },

    // The proved lookup from progress to raw parameter in a table of running lengths.
    raw(table, total, progress) {
      entries.set(table);
      accepted(c.kihavute_raw_parameter(...lend(entries, table.length), total, progress, ...lend(answer)), "kihavute_raw_parameter");
      return floatOf(answer[0]);
    },

    // The 32 running lengths of a quadratic curve.
    quad(...points) {
      accepted(c.kihavute_quad_table(...points, ...lend(out, 33), ...lend(answer)), "kihavute_quad_table");
      return out.slice(0, 32);
    },
  };
}

// The progress of station k of n: k/(n - 1) rounded once, as the station tool computes it.
const progressOf = (k, n) => Math.fround(k / (n - 1));
