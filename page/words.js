// A refusal in words, the words of tools/refusal: tests/page/run compares the two. Offsets count bytes of the whole plan, from 0.

const TAKES = { M: 2, L: 2, H: 1, V: 1, C: 6, S: 4, Q: 4, T: 2, A: 7, Z: 0 };
const isSeparator = c => c === 44 || c === 32 || (c >= 9 && c <= 13 && c !== 11);
const isDigit = c => c >= 48 && c <= 57;
const isLetter = c => (c >= 65 && c <= 90) || (c >= 97 && c <= 122);
const startsNumber = c => isDigit(c) || c === 43 || c === 45 || c === 46;
const upper = c => String.fromCharCode(c).toUpperCase();
const past = (b, i, test) => { while (i < b.length && test(b[i])) i++; return i; };
const pastSeparators = (b, i) => past(b, i, isSeparator);

function pastNumber(b, i) {
  if (b[i] === 43 || b[i] === 45) i++;
  i = past(b, i, isDigit);
  if (b[i] === 46) i = past(b, i + 1, isDigit);
  if (b[i] === 101 || b[i] === 69) {
    i++;
    if (b[i] === 43 || b[i] === 45) i++;
    i = past(b, i, isDigit);
  }
  return i;
}

// The group of numbers of each command, in path data that is read to its end: from its first number (of a Z: its letter) to the offset
// after its last; whether the command draws a segment; and the offset of its third number, the rotation of an arc. Empty if the data is
// not read to its end.
function groupsOf(b, begin) {
  const groups = [];
  let letter = "", point = false, from = begin;
  for (let i = pastSeparators(b, begin); i < b.length; i = pastSeparators(b, i)) {
    if (isLetter(b[i])) { letter = upper(b[i]); from = i; i++; }
    if (!(letter in TAKES)) return [];
    let more = 0;
    for (; letter === "Z" || startsNumber(b[pastSeparators(b, i)]); more++) {
      const group = { from, to: i, third: begin, draws: letter === "M" && more === 0 ? false : point };
      if (letter !== "Z") group.from = pastSeparators(b, i);
      for (let k = 1; k <= TAKES[letter]; k++) {
        i = pastSeparators(b, i);
        if (k === 3) group.third = i;
        i = letter === "A" && (k === 4 || k === 5) ? i + 1 : pastNumber(b, i);
      }
      group.to = i;
      groups.push(group);
      if (letter === "Z") break;
      point = true;
    }
    if (letter !== "Z" && more === 0) return [];
    if (letter === "Z") letter = "";
  }
  return groups;
}

const upperWord = (b, i) => [...b.slice(i, past(b, i, isLetter))].map(upper).join("");
const isAttribute = (b, i) => upperWord(b, i) === "D" && b[i + 1] === 61;
const QUOTES = 'leave out d=" and the quote at the end; a plan has what stands between them';

// The hint at another format that begins at a byte, if one does.
function foreign(b, i) {
  if (b[i] === 123 || b[i] === 91)
    return ["this is JSON, as of a QGroundControl plan or of GeoJSON; a plan is the number of stations, a line feed, and SVG path text"];
  if (/^(MULTI)?(LINESTRING|POLYGON|POINT)Z?M?$/.test(upperWord(b, i)))
    return ["this is WKT; write M, then its pairs of x and y without the word and the brackets, after a line with the number of stations"];
  return [];
}

// The unit at a byte, right after a number: m, which is a command too, and those that are none.
function unitAt(b, i) {
  if (!isDigit(b[i - 1]) && b[i - 1] !== 46) return "";
  const unit = String.fromCharCode(...b.slice(i, past(b, i, c => isLetter(c) || c === 37)));
  return /^(m|km|cm|mm|ft|in|mi|nmi|yd|px|pt|deg|%)$/.test(unit) ? unit : "";
}

// What often is where a number, a flag or a letter is expected.
function stray(b, begin, number, i) {
  const c = b[i], other = foreign(b, pastSeparators(b, begin));
  if (other.length) return other;
  if (c === 34 || isAttribute(b, i)) return [QUOTES];
  if (c === 35 || (c === 47 && (b[i + 1] === 47 || b[i + 1] === 42)) || (c === 60 && b[i + 1] === 33)) return ["a plan has no comments; take this one out"];
  if ((c === 39 || c === 95 || c === 96) && isDigit(b[i - 1]) && isDigit(b[i + 1]))
    return ["no mark stands between the digits of a number; write 385500, not 385'500"];
  if (unitAt(b, i)) return [`a number has no unit; where ${unitAt(b, i)} is one, leave it out`];
  if (c >= 128) return ["that is no ASCII byte; write a minus sign as -, and separate numbers by spaces or commas"];
  if (number === 7 && startsNumber(c) && past(b, begin, c => !isLetter(c)) >= i)
    return ["pairs of numbers alone are no path; write M before the first, and lines lead to the others"];
  return [];
}

// What is wrong with the first line: the offset of the first wrong byte, and hints.
function firstLine(b) {
  let at = past(b, 0, isDigit), i = 0;
  const hints = [], c = b[at];
  if (b.length === 0) return { at, hints: ["the plan is empty"] };
  if (b[0] === 10) hints.push("the first line is empty");
  if ((b[0] === 255 && b[1] === 254) || (b[0] === 254 && b[1] === 255))
    return { at, hints: [...hints, "the plan is UTF-16 text; save it as plain ASCII or UTF-8, without a byte order mark"] };
  if (b[0] === 239 && b[1] === 187 && b[2] === 191) hints.push("the plan begins with a byte order mark; save it without one (UTF-8, no BOM)");
  i = past(b, 0, c => c === 32 || c === 9 || c >= 128);
  if (b[i] === 60)
    return { at, hints: [...hints, 'this is an SVG file; a plan is the number of stations, a line feed, and what stands in d=".." of one <path>'] };
  const other = foreign(b, i);
  if (other.length) return { at, hints: [...hints, ...other] };
  if (b[i] === 35) return { at, hints: [...hints, "a plan has no comments; its first line is the number of stations"] };
  if (isLetter(b[i])) hints.push("the path text begins on the second line; put the number of stations before it");
  if (isAttribute(b, i)) hints.push(QUOTES);
  i = past(b, 0, c => c !== 10 && c !== 13);
  if (b[i] === 13 && b[i + 1] === 10) hints.push("the first line ends in CR LF, and a plan has LF alone; tr -d '\\r' <PLAN >NEW takes each CR out");
  else if (b[i] === 13) hints.push("the first line ends in CR, and a plan has LF; tr '\\r' '\\n' <PLAN >NEW changes them");
  if (c === 32 || c === 9) {
    i = past(b, at, c => c === 32 || c === 9);
    if (at === 0 || i === b.length || b[i] === 10 || b[i] === 13) hints.push("the first line has spaces; leave nothing but digits in it");
    else hints.push("the number of stations stands in a line of its own; end it with a line feed");
  }
  if (at > 0 && at === b.length) hints.push("a line feed is due after the number, then the path text");
  if (at > 9) { at = 9; hints.push("the number has more than 9 digits"); }
  return { at, hints };
}

// The refusal `refused NUMBER CARRIED..` of the plan b: its offset, its words, hints.
function refusalOf(b, number, [first = 0, second = 0]) {
  const line = b.indexOf(10), begin = line < 0 ? b.length + 1 : line + 1, digits = past(b, 0, isDigit);
  const segment = n => groupsOf(b, begin).filter(group => group.draws)[n] ?? { from: begin, third: begin };
  let at = begin + Number(first), words = "see the table of refusals in README.md", hints = [];
  if (number === 1) [at, words] = [begin + 4096, "the path text has more than 4,096 bytes, and goes on from here; split the plan"];
  else if (number === 2) {
    for (at = b.length; at > begin && isSeparator(b[at - 1]); at--);
    words = "the text ends where a number or a flag is due; complete the last group";
  } else if (number === 3) words = "a number is due here; write one";
  else if (number === 4) words = "this exponent has no digit; give it one or remove the e";
  else if (number === 5) words = "a flag of an arc is due here; write 0 or 1";
  else if (number === 6) [at, words] = [begin + Number(second), `the command ${first} is not known; use M, L, H, V, C, S, Q, T, A or Z`];
  else if (number === 7 && at > begin && isLetter(b[at - 1]) && upper(b[at - 1]) !== "Z")
    words = "nothing is drawn yet, so there is no point to draw from; begin the path with M";
  else if (number === 7) words = "no command is in force here; write its letter before the number";
  else if (number === 8) {
    at = (groupsOf(b, begin)[256] ?? { from: begin }).from;
    words = `the plan has ${first} commands, more than 256; split it before this one`;
  } else if (number === 10) [at, words] = [segment(first).third, `this rotation, of segment ${first}, is no finite number; write one below 3.4e38 in size`];
  else if (number === 11)
    [at, words] = [segment(first).from, `the length of the path is no longer finite with segment ${first}, which begins here; use smaller coordinates`];
  else if (number === 13 && Number(first) !== 0) [at, words] = [0, `${first} ${Number(first) === 1 ? "station is" : "stations are"} asked for, and a plan has 2 to 1,000`];
  else if (number === 13 && digits > 0 && digits < 10 && b[digits] === 10) [at, words] = [0, "no stations are asked for, and a plan has 2 to 1,000"];
  else if (number === 13) ({ at, hints } = firstLine(b)), (words = "the first line is the number of stations, 2 to 1,000, in digits and nothing else");
  else at = begin;
  at = Math.min(at, b.length);
  if (number >= 3 && number <= 7) {
    const culprit = number === 3 ? pastSeparators(b, at) : at;
    // where the text ends at a letter, this may be the unit of the last number
    hints.push(...stray(b, begin, number, number === 3 && culprit === b.length && at > begin ? at - 1 : culprit));
  }
  return { number, at, words, hints };
}
