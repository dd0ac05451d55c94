// Draws the text of this page: drawings and their scans, rows, events and claims. All else stays text.
// 1. the text, 2. its lines by their form, 3. ladders, 4. events, 5. elements, 6. views, 7. the page.
"use strict";
(() => {
// ---- 1. The text ----

/** The text of the page. A <wbr> in it stands for a NUL, which HTML can't hold. */
function textOf(pre) {
  const parts = [];
  for (const node of pre.childNodes) parts.push(node.nodeType === Node.TEXT_NODE ? node.data : "\0");
  return parts.join("");
}

/** The lines of a text, without the carriage return before a line feed and the colours of a terminal. */
function linesOf(text) {
  const lines = text.split("\n");
  if (lines[lines.length - 1] === "") lines.pop();
  const isPlain = !text.includes("\r") && !text.includes("\x1b");
  return isPlain ? lines : lines.map((line) => line.replace(/\r$/, "").replace(/\x1b\[[0-9;]*m/g, ""));
}

// ---- 2. Lines by their form ----

const VALUE = "(?:-?\\d+|T#\\d+ms)";
const ROW = new RegExp(`^[A-Za-z_]\\w*=${VALUE}(?: [A-Za-z_]\\w*=${VALUE})*$`);
const VERDICT = /^(HOLDS|FAILS|UNDECIDED) (\S.*)$/;
const ANSWERS = "taken|old|stray|unused";

/** By a line's first word its forms, and what the event is that it tells. `present` marks what isn't as one would wish. */
const EVENT_FORMS = {
  EVAL: [
    [/^EVAL (\d+) (\w+)\.(\w+) (\d+)\.(\d+) TAKES (\S.*) GIVES (\S.*)$/, (f) => (
      { kind: "evaluation", message: f[1], lane: f[2], task: `${f[2]}.${f[3]}`, pair: `${f[4]}.${f[5]}`, takes: f[6], gives: f[7] })],
    [/^EVAL (\w+)\.(\w+) (\d+)((?: %\S+=-?\d+)*)$/i, (f) => (
      { kind: "evaluation", lane: f[1], task: `${f[1]}.${f[2]}`, dt: f[3], inputs: f[4].trim() })],
  ],
  DELIVER: [[new RegExp(`^DELIVER (\\d+) (\\w+)(?: (${ANSWERS}))?$`, "i"), (f) => (
    { kind: "delivery", message: f[1], lane: f[2], answer: f[3] ?? "" })]],
  RESTART: [[/^RESTART (\w+)(?: (\d+))?$/i, (f) => ({ kind: "restart", lane: f[1], incarnation: f[2] })]],
  START: [[/^START (\w+) (\d+)$/, (f) => ({ kind: "restart", lane: f[1], incarnation: f[2], isStart: true })]],
  HEAR: [[/^HEAR (\w+) (\w+) (\d+)(?: (new|old))?$/i, (f) => (
    { kind: "hearing", lane: f[1], other: f[2], incarnation: f[3], answer: f[4] ?? "" })]],
  HELLO: [[/^HELLO (\w+) (\d+) (new|old)$/, (f) => (
    { kind: "hearing", isOwn: true, other: f[1], incarnation: f[2], answer: f[3] })]],
  MESSAGE: [[new RegExp(`^MESSAGE (\\w+)\\.(\\w+) (\\d+\\.\\d+) (${ANSWERS})$`), (f) => (
    { kind: "delivery", isOwn: true, from: f[1], task: `${f[1]}.${f[2]}`, pair: f[3], answer: f[4] })]],
  SEND: [[/^SEND (\w+) ((?:HELLO|MESSAGE) .+)$/, (f) => ({ kind: "sending", isOwn: true, to: f[1], sent: f[2] })]],
  EXPECT: [
    [new RegExp(`^EXPECT (\\w+)\\.(\\w+\\.\\w+=${VALUE} (met|unmet ${VALUE}))$`), (f) => (
      { kind: "expectation", lane: f[1], told: f[2], answer: f[3].split(" ")[0] })],
    [/^EXPECT((?: \w+\.\w+\.\w+=\S+)+)$/i, (f) => ({ kind: "expectation", told: f[1].trim(), answer: "" })],
  ],
  REFUSED: [[/^REFUSED(?: (\d+))? (\w+)$/, (f) => ({ kind: "refused", isOwn: !f[1], event: f[1], cause: f[2] })]],
  OVERRUN: [[/^OVERRUN (\w+)\.(\w+) (\d+)$/, (f) => ({ kind: "overrun", lane: f[1], late: `${f[1]}.${f[2]}`, skipped: f[3] })]],
  INPUT: [[/^INPUT taken$/, () => ({ kind: "input", isOwn: true })]],
  FIELD: [[/^FIELD ended$/, () => ({ kind: "ended", isOwn: true })]],
  UNNOTED: [[/^UNNOTED$/, () => ({ kind: "unnoted", isOwn: true })]],
  UNANSWERED: [[/^UNANSWERED (\d+)$/, (f) => ({ kind: "unanswered", ticket: f[1] })]],
  FAULT: [[/^FAULT (\w+) (\d+) (\w+)$/, (f) => ({ kind: "fault", lane: f[1], ticket: f[2], cause: f[3] })]],
  UNSHOWN: [[/^UNSHOWN (.+:(?:\d+) \w+(?: .*)?)$/, (f) => ({ kind: "unshown", told: f[1] })]],
  NOJOURNAL: [[/^NOJOURNAL (\w+)$/, (f) => ({ kind: "unshown", lane: f[1], told: "no journal" })]],
  // Where only what is shown is equal, that is neither bad nor good.
  REPLAY: [[/^REPLAY (of what is shown )?(equal|differs)$/, (f) => ({ kind: "replay", answer: f[1] && f[2] === "equal" ? "shown" : f[2], told: f[0] })]],
};

/** The event that a line tells, or undefined. */
function eventOf(line) {
  const [word] = line.split(" ", 1);
  if (word.length < 4) return undefined;
  for (const [form, event] of EVENT_FORMS[word.toUpperCase()] ?? []) {
    const found = form.exec(line);
    if (found) return event(found);
  }
  return undefined;
}

/** Whether a line is a comment on a row of its own. */
const isComment = (line) => /^\s*\(\*(?:(?!\*\)).)*\*\)\s*$/.test(line);

/** Whether a line can be one of a drawing. */
const isDrawn = (line) => line === "" || line[0] === " " || line[0] === "|" || line[0] === "+" || isComment(line);

// A drawing has at most so many lines; a page draws so many parts, and what stands behind them as text.
const MOST_ROWS = 2000;
const MOST_PARTS = 400;

/** Parts of the text that are drawn alike, in order; each with its first line and the one behind its last. */
function sectionsOf(lines) {
  let sections = [];
  let at = 0;
  while (at < lines.length) {
    const line = lines[at];
    const found = ROW.test(line) ? [scansFrom(lines, at)]
      : VERDICT.test(line) ? [verdictFrom(lines, at)]
      : eventOf(line) ? [eventsFrom(lines, at)]
      : isDrawn(line) ? drawingsFrom(lines, at)
      : [{ form: "text", end: at + 1 }];
    for (const section of found) {
      sections.push({ ...section, first: at });
      at = section.end;
    }
    if (sections.length > 2 * MOST_PARTS) sections = joinedTexts(sections);
    if (sections.length > 2 * MOST_PARTS) break;
  }
  sections = joinedTexts(sections);
  const kept = sections.slice(0, MOST_PARTS);
  const end = kept.length ? kept[kept.length - 1].end : 0;
  return end < lines.length ? joinedTexts([...kept, { form: "text", first: end, end: lines.length }]) : kept;
}

/** Texts that follow each other are one. */
function joinedTexts(sections) {
  const joined = [];
  for (const section of sections) {
    const last = joined[joined.length - 1];
    if (section.form === "text" && last?.form === "text") last.end = section.end;
    else joined.push(section);
  }
  return joined;
}

/** The names of a row, with what is a time. */
const namesOf = (row) => row.replace(/=T#\d+ms/g, " TIME").replace(/=-?\d+/g, "");

/** Rows of the same variables; behind each one the same number of drawn lines, or none. */
function scansFrom(lines, first) {
  const names = namesOf(lines[first]);
  const height = endOf(lines, first + 1, isDrawn) - first - 1;
  const rows = [];
  const drawn = [];
  let at = first;
  while (at < lines.length && ROW.test(lines[at]) && namesOf(lines[at]) === names) {
    const next = at + 1 + height;
    if (next > lines.length || (next < lines.length && isDrawn(lines[next]))) break;
    const below = lines.slice(at + 1, next);
    if (!below.every(isDrawn)) break;
    rows.push(lines[at]);
    if (height) drawn.push(below);
    at = next;
  }
  const ladder = height ? ladderOf(drawn) : undefined;
  if (height && !ladder) return { form: "rows", rows: lines.slice(first, first + 1), end: first + 1 };
  return { form: ladder ? "scans" : "rows", rows, drawn, ladder, end: at };
}

/** A claim, and the words that make its run. */
function verdictFrom(lines, first) {
  const [, verdict, told] = VERDICT.exec(lines[first]);
  const command = lines[first + 1]?.startsWith("plc eval ") ? lines[first + 1] : undefined;
  return { form: "verdict", verdict, told, command, end: first + (command ? 2 : 1) };
}

/** Events, one behind the other; comments and blank lines of a schedule may stand between. */
function eventsFrom(lines, first) {
  const events = [];
  let end = first;
  for (let at = first; at < lines.length; at += 1) {
    const event = eventOf(lines[at]);
    if (event) {
      events.push({ ...event, line: at });
      end = at + 1;
    } else if (!/^[ \t]*(#.*)?$/.test(lines[at])) break;
  }
  return { form: "events", run: new Run(events), end };
}

/** Lines that can be drawn: one drawing, or else those drawings that stand between other lines, each on a rail of its own. */
function drawingsFrom(lines, first) {
  const end = endOf(lines, first, isDrawn);
  const whole = drawingOf(lines, first, end);
  if (whole) return [whole];
  const sections = [];
  for (let at = first; at < end; ) {
    const isRailed = RAILED.test(lines[at]);
    const next = Math.min(end, endOf(lines, at, (line) => RAILED.test(line) === isRailed));
    sections.push((isRailed && drawingOf(lines, at, next)) || { form: "text", end: next });
    at = next;
  }
  return sections;
}

const RAILED = /^ *[|+]/;

/** The line behind those that are so. */
function endOf(lines, first, isSo) {
  let end = first;
  while (end < lines.length && isSo(lines[end])) end += 1;
  return end;
}

/** These lines as a drawing, or undefined. What shows power without a row above is none. */
function drawingOf(lines, first, end) {
  const drawn = lines.slice(first, end);
  const isPlain = drawn.some((line) => line.includes("-") && !isComment(line)) && drawn.every((line) => isComment(line) || (!line.includes("=") && withoutHashes(line) === line));
  const ladder = isPlain && ladderOf([drawn]);
  return ladder ? { form: "drawing", rows: [], drawn: [drawn], ladder, end } : undefined;
}

// ---- 3. Ladders ----

const BLANK = 0, RAIL = 1, WIRE = 2, JOIN = 3, UPRIGHT = 4, SYMBOL = 5, BOX = 6, OPERAND = 7, WORD = 8;
const BLOCKS = new Set(["SR", "RS", "CTU", "CTD", "CTUD", "TP", "TON", "TOF"]);
const WORDS = /[A-Za-z0-9_.#]+/g;
const DURATION = /(^|[^A-Za-z0-9_.#])(?:T|TIME)#[0-9][A-Za-z0-9_]*/gi;

/** What is drawn, without power: a sign that some scan shows as drawn, else `-` for `=`, and `+` for a `#` that is in no duration. */
function withoutPower(scans) {
  const rows = [];
  for (let row = 0; row < scans[0].length; row += 1) {
    const shown = [...new Set(scans.map((scan) => scan[row]))];
    if (shown.length === 1 && isComment(shown[0])) {
      rows.push(shown[0]);
      continue;
    }
    if (shown.some((it) => it.length !== shown[0].length)) return undefined;
    const signs = [...shown[0]].map((_, column) => {
      const drawn = shown.map((it) => it[column]).find((sign) => sign !== "=" && sign !== "#");
      return drawn ?? (shown[0][column] === "=" ? "-" : "#");
    });
    rows.push(withoutHashes(signs.join("")));
  }
  return rows;
}

/** A row with `+` for each `#` that is in no duration. */
function withoutHashes(row) {
  if (!row.includes("#")) return row;
  const kept = new Set();
  for (const found of row.matchAll(DURATION)) kept.add(found.index + found[0].indexOf("#"));
  return row.replace(/#/g, (sign, at) => (kept.has(at) ? sign : "+"));
}

/** The ladder that all these scans show, or undefined where they show no whole one, or not the same. */
function ladderOf(scans) {
  const rows = scans[0].length > MOST_ROWS ? undefined : withoutPower(scans);
  if (!rows || !rows.some((row) => row.trim() && !isComment(row))) return undefined;
  const ladder = new Ladder(rows);
  return ladder.isWhole ? ladder : undefined;
}

/** What stands at each place of a drawing. Rows and columns count from 0. */
class Ladder {
  constructor(rows) {
    this.comments = rows.map((row) => (isComment(row) ? row.trimEnd() : ""));
    this.rows = rows.map((row) => (isComment(row) ? "" : row.trimEnd()));
    this.width = Math.max(...rows.map((row) => row.trimEnd().length));
    this.rail = Math.min(...this.rows.filter(Boolean).map((row) => row.search(/[^ ]/)));
    this.marks = this.rows.map((row) => new Uint8Array(row.length));
    this.boxes = [];
    this.symbols = [];
    this.isWhole = this.rows.every((row) => " |+".includes(row[this.rail] ?? " "));
    this.findBoxes();
    this.findSymbols(/\|[ \/PNpn]\|/g, false);
    this.findSymbols(/\([ \/SRPNsrpn]\)/g, true);
    this.findWords();
    this.findOperands();
    this.markRails();
    this.markRest();
    this.nameThings();
    this.byRow = this.thingsByRow();
  }

  sign(row, column) {
    return this.rows[row]?.[column] ?? " ";
  }

  mark(row, column) {
    return this.marks[row]?.[column] ?? BLANK;
  }

  findBoxes() {
    const top = /(?=(\+-+\+))/g;
    this.rows.forEach((line, row) => {
      for (const found of line.matchAll(top)) {
        if (found.index <= this.rail) continue;
        const left = found.index;
        const right = left + found[1].length - 1;
        const block = this.inside(row + 1, left, right)?.trim();
        if (block !== undefined && BLOCKS.has(block.toUpperCase())) this.addBox({ top: row, left, right, block, pins: [] });
      }
    });
  }

  /** What stands between the sides of a box in a row; undefined where these aren't there. */
  inside(row, left, right) {
    const hasSides = "|>".includes(this.sign(row, left)) && this.sign(row, right) === "|";
    return hasSides ? this.rows[row].slice(left + 1, right) : undefined;
  }

  addBox(box) {
    let row = box.top + 2;
    const isBottom = () => /^\+-+\+$/.test((this.rows[row] ?? "").slice(box.left, box.right + 1));
    while (row < this.rows.length && !isBottom()) {
      const inner = this.inside(row, box.left, box.right);
      const pins = inner === undefined ? undefined : pinsOf(inner, row, box);
      if (!pins) break;
      box.pins.push(...pins);
      row += 1;
    }
    box.bottom = row;
    if (row >= this.rows.length || !isBottom()) {
      this.isWhole = false;
      return;
    }
    for (let at = box.top; at <= row; at += 1) this.marks[at].fill(BOX, box.left, box.right + 1);
    this.boxes.push(box);
  }

  findSymbols(form, isCoil) {
    this.rows.forEach((line, row) => {
      form.lastIndex = this.rail + 1;
      for (let found = form.exec(line); found; found = form.exec(line)) {
        const column = found.index;
        const isFree = [0, 1, 2].every((k) => this.mark(row, column + k) === BLANK);
        const isOne = isFree && (isCoil || "-+".includes(this.sign(row, column - 1)));
        if (isOne) {
          this.symbols.push({ row, column, isCoil, sign: found[0][1].toUpperCase() });
          this.marks[row].fill(SYMBOL, column, column + 3);
        }
        form.lastIndex = column + (isOne ? 3 : 1);
      }
    });
  }

  findWords() {
    this.words = [];
    this.rows.forEach((line, row) => {
      const free = [...line].map((sign, column) => (this.marks[row][column] === BLANK ? sign : " ")).join("");
      for (const found of free.matchAll(WORDS)) {
        this.words.push({ row, column: found.index, text: found[0] });
        this.marks[row].fill(WORD, found.index, found.index + found[0].length);
      }
    });
  }

  /** The word at the end of a run of dashes outside a pin is its operand, and the dashes are no wire. */
  findOperands() {
    for (const box of this.boxes) for (const pin of box.pins) {
      const step = pin.isLeft ? -1 : 1;
      let at = pin.column + step;
      while (this.sign(pin.row, at) === "-") at += step;
      if (this.mark(pin.row, at) !== WORD) continue;
      const word = this.words.find((it) => it.row === pin.row && it.column <= at && at < it.column + it.text.length);
      word.isOperand = true;
      pin.operand = word;
      const [from, to] = pin.isLeft ? [at + 1, pin.column] : [pin.column + 1, at];
      this.marks[pin.row].fill(OPERAND, from, to);
    }
  }

  markRails() {
    const last = this.width - 1;
    const ends = this.rows.flatMap((line, row) => (line.length === this.width ? [row] : []));
    this.hasRightRail = last > this.rail && ends.every((row) => "|+".includes(this.sign(row, last)) && this.mark(row, last) === BLANK);
    this.rows.forEach((line, row) => {
      if ("|+".includes(this.sign(row, this.rail))) this.marks[row][this.rail] = RAIL;
    });
    if (this.hasRightRail) for (const row of ends) this.marks[row][last] = RAIL;
  }

  markRest() {
    const marks = { "-": WIRE, "+": JOIN, "|": UPRIGHT };
    this.rows.forEach((line, row) => {
      for (let column = 0; column < line.length; column += 1) {
        if (line[column] === " " || this.marks[row][column] !== BLANK) continue;
        this.marks[row][column] = marks[line[column]] ?? BLANK;
        if (!(line[column] in marks)) this.isWhole = false;
      }
    });
  }

  /** Each symbol and box with its name, the word of the row above that overlaps it. */
  nameThings() {
    const things = [...this.symbols.map((it) => [it, it.row, it.column, it.column + 2]), ...this.boxes.map((it) => [it, it.top, it.left, it.right])];
    const byRow = new Map();
    for (const word of this.words) if (!word.isOperand) byRow.set(word.row, [...(byRow.get(word.row) ?? []), word]);
    for (const [thing, row, first, last] of things) {
      const above = (byRow.get(row - 1) ?? []).filter((it) => it.column <= last && first < it.column + it.text.length);
      if (above.length !== 1) this.isWhole = false;
      thing.name = above[0]?.text ?? "";
    }
  }

  thingsByRow() {
    const byRow = this.rows.map(() => ({ symbols: [], boxes: [], words: [] }));
    for (const symbol of this.symbols) byRow[symbol.row].symbols.push(symbol);
    for (const word of this.words) byRow[word.row].words.push(word);
    for (const box of this.boxes) for (let row = box.top; row <= box.bottom; row += 1) byRow[row].boxes.push(box);
    return byRow;
  }

  pinAt(row, column, isLeft) {
    return this.byRow[row]?.boxes.some((box) => box.pins.some((pin) => pin.row === row && pin.column === column && pin.isLeft === isLeft)) ?? false;
  }

  /** Whether state passes from a place to its right, as far as that place tells. */
  gives(row, column) {
    const mark = this.mark(row, column);
    if (mark === BOX) return this.pinAt(row, column, false);
    return mark === WIRE || mark === JOIN || mark === SYMBOL || (mark === RAIL && column === this.rail);
  }

  /** Whether state passes to a place from its left, as far as that place tells. */
  takes(row, column) {
    const mark = this.mark(row, column);
    if (mark === BOX) return this.pinAt(row, column, true);
    return mark === WIRE || mark === JOIN || mark === SYMBOL;
  }

  isUpright(row, column) {
    const mark = this.mark(row, column);
    return mark === JOIN || mark === UPRIGHT;
  }

  /** Whether one place alone lets state into the upright of this place from the left. */
  hasOneSource(row, column) {
    let top = row;
    while (this.isUpright(top - 1, column)) top -= 1;
    let sources = 0;
    for (let at = top; this.isUpright(at, column); at += 1) {
      if (this.mark(at, column) === JOIN && this.gives(at, column - 1)) sources += 1;
    }
    return sources === 1;
  }
}

/** The pins in an inner row of a box; undefined where anything else stands there. */
function pinsOf(inner, row, box) {
  const found = [...inner.matchAll(/[^ ]+/g)];
  if (found.length > 2 || !found.every((it) => /^[A-Za-z_]\w*$/.test(it[0]))) return undefined;
  const isLeft = (k) => (found.length === 2 ? k === 0 : found[0].index <= inner.length - found[0].index - found[0][0].length);
  return found.map((it, k) => (
    { row, name: it[0], at: box.left + 1 + it.index, isLeft: isLeft(k), column: isLeft(k) ? box.left : box.right }));
}

/** What has power in one scan of a ladder, place by place; of what no scan shows nothing is told. */
class Power {
  constructor(ladder, shown) {
    this.ladder = ladder;
    this.shown = shown;
  }

  isLive(row, column) {
    const sign = this.shown[row]?.[column];
    const mark = this.ladder.mark(row, column);
    return (mark === WIRE && sign === "=") || ((mark === JOIN || mark === UPRIGHT) && sign === "#");
  }

  /** Whether state comes out of this place to its right: known where a wire or an upright tells it. */
  comesOut(row, column) {
    const { ladder } = this;
    if (!ladder.gives(row, column) || !ladder.takes(row, column + 1)) return false;
    const [own, next] = [ladder.mark(row, column), ladder.mark(row, column + 1)];
    if (own === WIRE || own === JOIN) return this.isLive(row, column);
    if (next === WIRE) return this.isLive(row, column + 1);
    return next === JOIN && this.isLive(row, column + 1) && (own === RAIL || ladder.hasOneSource(row, column + 1));
  }
}

// ---- 4. Events ----

/** What a run tells beyond its lines: lanes and tasks, by which evaluation each message and take was made, the marks. */
class Run {
  constructor(events) {
    this.events = events;
    this.lanes = [];
    this.tasks = new Map();
    this.arrows = [];
    this.marks = [];
    this.variables = new Map();
    this.incarnations = [];
    this.begun = new Set();
    this.messages = new Map();
    this.made = 0;
    this.laneSpellings = new Map();
    this.taskSpellings = new Map();
    nameOwners(events);
    events.forEach((event, at) => this.add(event, at));
    this.spreadTasks();
  }

  /** The lane of a resource; names are compared without regard to case. */
  laneOf(name) {
    return known(this.laneSpellings, name, () => {
      this.incarnations.push(1);
      return this.lanes.push(name) - 1;
    });
  }

  taskOf(name) {
    return known(this.taskSpellings, name, () => {
      const task = { name, place: this.tasks.size, inLane: 0, lane: this.laneOf(name.split(".")[0]), pairs: new Map(), given: [] };
      this.tasks.set(name, task);
      return task;
    });
  }

  add(event, at) {
    event.at = at;
    if (event.lane) this.own = event.lane;
    if (event.isOwn) event.lane ??= this.own;
    if (event.lane) event.column = this.laneOf(event.lane);
    if (event.to) event.toColumn = this.laneOf(event.to);
    if (event.other) this.laneOf(event.other);
    if (event.kind === "evaluation") this.addEvaluation(event);
    else if (event.kind === "delivery") this.addDelivery(event);
    else if (event.kind === "restart" && event.incarnation) this.raise(event.column, event.incarnation);
    if (event.kind === "restart") this.begun.add(event.column);
    if (isMark(event)) this.marks.push(at);
  }

  raise(lane, incarnation) {
    this.incarnations[lane] = Math.max(this.incarnations[lane], Number(incarnation));
  }

  addEvaluation(event) {
    this.made += 1;
    event.message ??= String(this.made);
    event.of = this.taskOf(event.task);
    event.taken = !event.takes || event.takes === "-" ? [] : event.takes.split(" ").map((word) => this.take(word, event));
    this.messages.set(event.message, event);
    if (!event.pair) return;
    const incarnation = incarnationOf(event.pair);
    // Of runs and audits no line tells a restart, but the next evaluation does.
    event.hasRisen = this.begun.has(event.column) && Number(incarnation) > this.incarnations[event.column];
    this.begun.add(event.column);
    this.raise(event.column, incarnation);
    event.of.pairs.set(event.pair, event);
    if (event.gives !== "-") event.gives.split(" ").forEach((word, k) => this.give(word, k, event));
  }

  /** A take; it makes an arrow. Of another incarnation it is if its producer's resource went on to a later one before. */
  take(word, event) {
    const split = word.indexOf("=");
    const producer = this.taskOf(word.slice(0, split));
    const pair = word.slice(split + 1);
    if (pair === "-" || pair === "") return { producer };
    const source = producer.pairs.get(pair);
    const take = { producer, pair, source, isOther: Number(incarnationOf(pair)) !== this.incarnations[producer.lane] };
    this.arrows.push({ from: source, to: event, take });
    if (source) (source.takers ??= []).push(event);
    return take;
  }

  /** A value that is given; it stands until another one is. */
  give(word, k, event) {
    const { given } = event.of;
    if (!given[k] || !word.startsWith(given[k].prefix)) {
      const prefix = word.slice(0, word.indexOf("=") + 1);
      const name = `${event.lane}.${prefix.slice(0, -1)}`;
      if (!this.variables.has(name)) this.variables.set(name, { name, prefix, column: event.column, at: [], values: [] });
      given[k] = this.variables.get(name);
    }
    const { prefix, at, values } = given[k];
    const value = word.slice(prefix.length);
    if (values[values.length - 1] === value) return;
    at.push(event.at);
    values.push(value);
  }

  /** Where a message was made: by its number, or by the name of an evaluation that a node was sent. */
  addDelivery(event) {
    if (!event.task) {
      event.source = this.messages.get(event.message.replace(/^0+(?=\d)/, ""));
      return;
    }
    event.of = this.taskOf(event.task);
    event.source = event.of.pairs.get(event.pair);
    if (!event.source && event.answer === "taken") event.of.pairs.set(event.pair, event);
  }

  /** Each task's place among those of its lane that evaluate here. */
  spreadTasks() {
    this.perLane = this.lanes.map(() => 0);
    for (const task of new Set(this.events.filter((it) => it.kind === "evaluation").map((it) => it.of))) {
      task.inLane = this.perLane[task.lane];
      this.perLane[task.lane] += 1;
    }
  }
}

const incarnationOf = (pair) => pair.slice(0, pair.indexOf("."));

/** What is kept of a name in any spelling; of a new one it is made. */
function known(spellings, name, make) {
  if (!spellings.has(name)) {
    const key = name.toUpperCase();
    if (!spellings.has(key)) spellings.set(key, make());
    spellings.set(name, spellings.get(key));
  }
  return spellings.get(name);
}

/**
 * A node writes what it sends, and that it notes nothing more, before the line that tells whose it is: these events get their lane
 * from the next one that has one.
 */
function nameOwners(events) {
  let next;
  for (let at = events.length - 1; at >= 0; at -= 1) {
    const event = events[at];
    if (event.kind === "sending" || event.kind === "unnoted") event.lane = next;
    else if (event.lane) next = event.lane;
    else if (!event.isOwn) next = undefined;
  }
}

/** Whether an event stands out. */
function isMark(event) {
  if (event.kind === "delivery") return event.answer !== "taken" && event.answer !== "";
  if (event.kind === "restart") return !event.isStart || event.incarnation !== "1";
  if (event.kind === "replay") return event.answer === "differs";
  if (event.kind === "expectation") return event.answer === "unmet";
  return ["refused", "overrun", "ended", "unnoted", "fault", "unanswered", "unshown"].includes(event.kind);
}

/** What kind of mark an event is, in a word. */
const markOf = (event) => (["delivery", "expectation"].includes(event.kind) ? event.answer : event.kind);

// ---- 5. Elements ----

const SVG = "http://www.w3.org/2000/svg";

function filled(node, attributes, children) {
  for (const [name, value] of Object.entries(attributes)) {
    if (value === undefined || value === false) continue;
    if (name.startsWith("on")) node.addEventListener(name.slice(2), value);
    else node.setAttribute(name, value === true ? "" : value);
  }
  for (const child of children.flat(Infinity)) if (child !== undefined && child !== false) node.append(child);
  return node;
}

const html = (name, attributes = {}, ...children) => filled(document.createElement(name), attributes, children);
const svg = (name, attributes = {}, ...children) => filled(document.createElementNS(SVG, name), attributes, children);
const path = (d, kind) => svg("path", { d, class: kind });
const count = (number, one, many = `${one}s`) => `${number.toLocaleString("en")} ${number === 1 ? one : many}`;
const classes = (...names) => names.filter(Boolean).join(" ");
const greatest = (numbers, least) => numbers.reduce((most, it) => Math.max(most, it), least);
const clamp = (value, least, most) => Math.max(least, Math.min(most, value));

/** Calls once in the next frame, however often it is asked. */
function oncePerFrame(call) {
  let isAsked = false;
  return () => {
    if (isAsked) return;
    isAsked = true;
    requestAnimationFrame(() => {
      isAsked = false;
      call();
    });
  };
}

// ---- 6. Views ----

const CELL = 10;
const LINE = 26;
const MARGIN = 12;
// By so much pieces of one line overlap, so that no seam is seen.
const SEAM = 0.8;
// Columns on the right of a ladder for the values of its last names.
const ROOM = 9;

/** A ladder, with what has power in one scan. Only the rows in view are drawn. */
class LadderView {
  constructor(section, choose) {
    this.ladder = section.ladder;
    this.drawn = section.drawn;
    this.hasPower = section.form === "scans";
    this.choose = choose;
    this.valueOf = () => undefined;
    this.isBit = () => false;
    this.rows = new Map();
    this.lit = undefined;
    const width = (this.ladder.width + (this.hasPower ? ROOM : 0)) * CELL + 2 * MARGIN;
    const height = this.ladder.rows.length * LINE + 2 * MARGIN;
    this.layer = svg("g", { transform: `translate(${MARGIN} ${MARGIN})` });
    this.picture = svg("svg", { class: classes("ladder", this.hasPower && "shown"), viewBox: `0 0 ${width} ${height}`, width, height, role: "group", "aria-label": "ladder" }, this.layer);
    this.node = html("div", { class: "sheet" }, this.picture);
    this.size = { width, height };
  }

  show(scan) {
    const before = this.shown;
    this.shown = this.drawn[scan];
    this.power = new Power(this.ladder, this.hasPower ? this.shown : []);
    for (const [row, group] of this.rows) {
      if (before?.[row] !== this.shown[row] || group.dataset.worth !== this.wordsWorth(row)) this.redraw(row, group);
    }
    this.draw();
  }

  /** What the words of a row are worth in this scan. */
  wordsWorth(row) {
    return this.ladder.byRow[row].words.map((it) => this.valueOf(it.text) ?? "").join(" ");
  }

  /** How large it can be in this window, and never so small that names can't be read: then the sheet scrolls. */
  room() {
    const most = clamp((innerHeight * 0.5) / this.size.height, 1, 1.4);
    return clamp((this.node.clientWidth - 2) / this.size.width, 0.72, most);
  }

  fit(scale) {
    this.picture.setAttribute("width", this.size.width * scale);
    this.picture.setAttribute("height", this.size.height * scale);
    this.scale = scale;
  }

  draw() {
    if (!this.shown) return;
    if (!this.scale) this.fit(this.room());
    const step = LINE * this.scale;
    const above = this.picture.getBoundingClientRect().top + MARGIN * this.scale;
    const view = this.drawsAll ? [0, this.ladder.rows.length] : [(-above - 400) / step, (innerHeight - above + 400) / step];
    const first = clamp(Math.floor(view[0]), 0, this.ladder.rows.length);
    const end = clamp(Math.ceil(view[1]), 0, this.ladder.rows.length);
    for (const [row, group] of this.rows) if (row < first || row >= end) {
      group.remove();
      this.rows.delete(row);
    }
    for (let row = first; row < end; row += 1) if (!this.rows.has(row)) {
      const group = this.rowGroup(row);
      this.rows.set(row, group);
      this.layer.append(group);
    }
  }

  redraw(row, group) {
    const focused = group.contains(document.activeElement) ? document.activeElement.dataset.column : undefined;
    const fresh = this.rowGroup(row);
    group.replaceWith(fresh);
    this.rows.set(row, fresh);
    if (focused !== undefined) fresh.querySelector(`[data-column="${focused}"]`)?.focus();
  }

  rowGroup(row) {
    const { ladder } = this;
    const things = ladder.byRow[row];
    return svg("g", { class: "row", "data-row": row, "data-worth": this.wordsWorth(row), transform: `translate(0 ${row * LINE})` },
      things.boxes.map((box) => this.boxPart(box, row)),
      this.comment(row),
      this.lines(row),
      things.symbols.map((symbol) => this.symbol(symbol)),
      things.words.flatMap((word) => this.word(word)));
  }

  /** A comment where it stands. */
  comment(row) {
    const told = this.ladder.comments[row];
    return told !== "" && svg("text", { x: told.search(/\S/) * CELL, y: LINE / 2 + 5, class: "comment" }, told.trim());
  }

  /** Rails, wires, joins and uprights of a row. */
  lines(row) {
    const { ladder, power } = this;
    const parts = [];
    const length = ladder.rows[row].length;
    for (let column = 0; column < length; column += 1) {
      const mark = ladder.mark(row, column);
      if (mark === WIRE || mark === OPERAND) {
        const isLive = power.isLive(row, column);
        let end = column + 1;
        while (ladder.mark(row, end) === mark && power.isLive(row, end) === isLive) end += 1;
        const kind = mark === OPERAND ? "operand" : classes("wire", isLive && "live");
        parts.push(svg("path", { d: `M${column * CELL - SEAM} ${LINE / 2}H${end * CELL + SEAM}`, class: kind, "data-column": column, "data-places": end - column }));
        column = end - 1;
      } else if (mark === JOIN || mark === UPRIGHT) {
        parts.push(this.upright(row, column, mark));
      } else if (mark === RAIL) {
        const x = (column + 0.5) * CELL;
        parts.push(path(`M${x} ${-SEAM}V${LINE + SEAM}`, "rail"));
        const isLeft = column === ladder.rail;
        if (isLeft && ladder.takes(row, column + 1)) parts.push(path(`M${x} ${LINE / 2}H${(column + 1) * CELL + SEAM}`, classes("wire", power.comesOut(row, column) && "live")));
        if (!isLeft && ladder.gives(row, column - 1)) parts.push(path(`M${column * CELL} ${LINE / 2}H${x}`, classes("wire", power.isLive(row, column - 1) && "live")));
      }
    }
    return parts;
  }

  upright(row, column, mark) {
    const { ladder, power } = this;
    const isLive = power.isLive(row, column);
    const [left, middle, right] = [column * CELL, (column + 0.5) * CELL, (column + 1) * CELL];
    const up = ladder.isUpright(row - 1, column);
    const down = ladder.isUpright(row + 1, column);
    const isFed = mark === JOIN && ladder.gives(row, column - 1);
    const isRead = mark === JOIN && ladder.takes(row, column + 1);
    let d = isRead ? `M${middle} ${LINE / 2}H${right + SEAM}` : "";
    if (up || down) d += `M${middle} ${up ? -SEAM : LINE / 2}V${down ? LINE + SEAM : LINE / 2}`;
    const parts = [path(d, classes("wire", isLive && "live"))];
    if (isFed) parts.unshift(path(`M${left} ${LINE / 2}H${middle}`, classes("wire", power.comesOut(row, column - 1) && "live")));
    if (up + down + isFed + isRead > 2) parts.push(svg("circle", { cx: middle, cy: LINE / 2, r: isLive ? 4 : 3, class: classes("dot", isLive && "live") }));
    return svg("g", { class: classes(mark === JOIN ? "join" : "upright", isLive && "live"), "data-column": column, "data-places": 1 }, parts);
  }

  symbol(symbol) {
    const { ladder, power } = this;
    const { row, column } = symbol;
    const y = LINE / 2;
    const x = column * CELL;
    const isIn = power.comesOut(row, column - 1);
    const isOut = power.comesOut(row, column + 2) || (symbol.isCoil && isIn);
    const isOn = this.hasPower && isIn && isOut;
    const [one, two] = symbol.isCoil ? [x + 4, x + 3 * CELL - 4] : [x + 9, x + 3 * CELL - 9];
    const parts = [path(`M${x} ${y}H${one}`, classes("wire", isIn && "live"))];
    if (ladder.takes(row, column + 3) || !symbol.isCoil) parts.push(path(`M${two} ${y}H${x + 3 * CELL}`, classes("wire", isOut && "live")));
    if (symbol.isCoil) {
      parts.push(svg("circle", { cx: (one + two) / 2, cy: y, r: 9.5, class: "inside" }));
      parts.push(path(`M${one + 4.5} ${y - 9}A11 11 0 0 0 ${one + 4.5} ${y + 9}M${two - 4.5} ${y - 9}A11 11 0 0 1 ${two - 4.5} ${y + 9}`, "body"));
    } else {
      parts.push(svg("rect", { x: one, y: y - 9, width: two - one, height: 18, class: "inside" }));
      parts.push(path(`M${one} ${y - 9}V${y + 9}M${two} ${y - 9}V${y + 9}`, "body"));
    }
    if (symbol.sign === "/") parts.push(path(`M${(one + two) / 2 - 4} ${y + 8}L${(one + two) / 2 + 4} ${y - 8}`, "body"));
    else if (symbol.sign !== " ") parts.push(svg("text", { x: (one + two) / 2, y: y + 4.5, class: "letter" }, symbol.sign));
    const what = symbol.isCoil ? COIL_NAMES[symbol.sign] : CONTACT_NAMES[symbol.sign];
    const state = this.hasPower ? (isOn ? ", has power" : isIn ? ", power reaches it" : ", no power") : "";
    return svg("g", {
      class: classes(symbol.isCoil ? "coil" : "contact", isOn && "live", this.isLit(symbol.name) && "lit"),
      tabindex: 0, role: "button", "data-row": row, "data-column": column, "data-name": symbol.name, "aria-label": `${what} ${symbol.name}${state}`,
      onclick: () => this.choose(symbol.name), onkeydown: (press) => pressed(press, () => this.choose(symbol.name)),
    }, svg("title", {}, `${what} ${symbol.name}${state}`), svg("rect", { x, y: 1, width: 3 * CELL, height: LINE - 2, class: "reach" }), parts);
  }

  boxPart(box, row) {
    const { power, ladder } = this;
    const [left, right, y] = [(box.left + 0.5) * CELL, (box.right + 0.5) * CELL, LINE / 2];
    const [top, bottom] = [row === box.top ? y : -SEAM, row === box.bottom ? y : LINE + SEAM];
    const parts = [svg("rect", { x: left, y: top, width: right - left, height: bottom - top, class: "inside" })];
    let d = `M${left} ${top}V${bottom}M${right} ${top}V${bottom}`;
    if (row === box.top || row === box.bottom) d += `M${left} ${y}H${right}`;
    parts.push(path(d, "body"));
    if (row === box.top + 1) parts.push(svg("text", { x: (left + right) / 2, y: y + 5, class: "block" }, box.block));
    for (const pin of box.pins) if (pin.row === row) {
      const [edge, side] = pin.isLeft ? [box.left * CELL, left] : [(box.right + 1) * CELL, right];
      const other = pin.isLeft ? box.left - 1 : box.right + 1;
      const isFed = pin.isLeft ? ladder.gives(row, other) : ladder.takes(row, other);
      const isLive = pin.isLeft ? power.comesOut(row, other) : power.comesOut(row, box.right);
      if (isFed) parts.push(path(`M${edge} ${y}H${side}`, classes("wire", isLive && "live")));
      else if (pin.operand) parts.push(path(`M${edge} ${y}H${side}`, "operand"));
      parts.push(svg("text", { x: pin.at * CELL, y: y + 5, class: classes("pin", isLive && "live"), textLength: pin.name.length * CELL }, pin.name));
    }
    const isTop = row === box.top;
    const choice = isTop ? { tabindex: 0, role: "button", "data-column": box.left, onkeydown: (press) => pressed(press, () => this.choose(box.name)) } : {};
    return svg("g", {
      class: classes(isTop ? "box" : "box-part", this.isLit(box.name) && "lit"), "data-row": row, "data-name": box.name,
      "aria-label": `${box.block} ${box.name}`, onclick: () => this.choose(box.name), ...choice,
    }, parts);
  }

  word(word) {
    const name = baseOf(word.text);
    const isName = /^[a-z_]/i.test(word.text) && !word.text.includes("#");
    const worth = this.valueOf(word.text);
    const drawn = svg("text", {
      x: word.column * CELL, y: LINE / 2 + 5, textLength: word.text.length * CELL,
      class: classes("word", isName ? "name" : "literal", this.isLit(name) && "lit", worth === "1" && this.isBit(word.text) && "on"), "data-name": name,
      onclick: isName ? () => this.choose(word.text) : undefined,
    }, word.text);
    return [drawn, worth !== undefined && !this.isBit(word.text) && this.worth(word, worth)];
  }

  /** The value of a number or time beside its name, where there is room. */
  worth(word, worth) {
    const text = this.ladder.rows[word.row];
    const end = word.column + word.text.length;
    const isRoom = (from, to) => text.slice(Math.max(0, from), to).trim() === "" && from > this.ladder.rail;
    const length = worth.length + 1;
    if (isRoom(end, end + length) && end + length <= this.ladder.width + ROOM) return svg("text", { x: (end + 0.8) * CELL, y: LINE / 2 + 5, class: "worth" }, worth);
    if (isRoom(word.column - length, word.column)) return svg("text", { x: (word.column - 0.8) * CELL, y: LINE / 2 + 5, class: "worth before" }, worth);
    return undefined;
  }

  isLit(name) {
    return this.lit !== undefined && baseOf(name) === this.lit;
  }

  light(name) {
    this.lit = name;
    for (const [row, group] of this.rows) this.redraw(row, group);
  }

  counts() {
    const contacts = this.ladder.symbols.filter((it) => !it.isCoil).length;
    return { contacts, coils: this.ladder.symbols.length - contacts, boxes: this.ladder.boxes.length, names: this.ladder.words.length };
  }
}

const ICONS = {
  first: "M3 3V13M14 3V13L6 8Z", before: "M11 3V13L4 8Z", play: "M4 2V14L14 8Z", stop: "M4 3V13M12 3V13", next: "M5 3V13L12 8Z", last: "M2 3V13L10 8ZM13 3V13",
};
const icon = (name) => svg("svg", { class: "icon", viewBox: "0 0 16 16", width: 16, height: 16, "aria-hidden": "true" }, svg("path", { d: ICONS[name] }));

const CONTACT_NAMES = { " ": "contact", "/": "negated contact", P: "rising contact", N: "falling contact" };
const COIL_NAMES = { " ": "coil", "/": "negated coil", S: "set coil", R: "reset coil", P: "rising coil", N: "falling coil" };

/** A name by which others are compared: what stands before the dot, in capitals. */
const baseOf = (name) => name.split(".")[0].toUpperCase();

/** Does what a click does where Enter or a blank is pressed. */
function pressed(press, call) {
  if (press.key !== "Enter" && press.key !== " ") return;
  press.preventDefault();
  press.stopPropagation();
  call();
}

const TRACK = 34;
const LETTER = 6.7;

/** Variables over scans as a timing diagram. Only what is in view is drawn. */
class TimingView {
  constructor(rows, select, choose) {
    this.count = rows.length;
    this.rows = rows;
    this.tracks = tracksOf(rows);
    this.places = new Map(this.tracks.map((track, k) => [track.name.toUpperCase(), k]));
    this.select = select;
    this.unit = unitOf(this.tracks);
    this.scan = 0;
    this.names = this.tracks.map((track) => html("div", { class: "track", "data-name": baseOf(track.name), onclick: () => choose(track.name) },
      html("span", { class: "name" }, track.name), html("output", {}, "")));
    this.layer = svg("svg", { class: "waves", "aria-hidden": "true" });
    this.field = html("div", { class: "field", onclick: (click) => this.point(click) }, this.layer);
    this.list = html("div", { class: "names" }, html("div", { class: "track head" }, html("span", {}, "scan"), html("output", {}, "1")), this.names);
    this.node = html("div", { class: "timing", tabindex: 0, role: "group", "aria-label": `${count(this.tracks.length, "variable")} over ${count(this.count, "scan")}` }, this.list, this.field);
    this.node.addEventListener("scroll", oncePerFrame(() => this.draw()));
    this.resize();
  }

  resize() {
    this.field.style.width = `${this.count * this.unit + 2}px`;
    this.field.style.height = `${(this.tracks.length + 1) * TRACK}px`;
  }

  /** Few scans take what room there is. */
  fit() {
    if (this.isZoomed) return;
    const room = this.node.clientWidth - this.list.offsetWidth - 4;
    this.unit = Math.floor(clamp(room / this.count, unitOf(this.tracks), 60));
    this.resize();
  }

  zoom(by) {
    this.isZoomed = true;
    this.unit = clamp(Math.round(this.unit * by), 4, 120);
    this.resize();
    this.reveal();
    this.draw();
  }

  point(click) {
    const x = click.clientX - this.field.getBoundingClientRect().left;
    this.select(clamp(Math.floor(x / this.unit), 0, this.count - 1));
  }

  show(scan) {
    this.scan = scan;
    this.told = this.rows[scan].split(" ").map((word) => word.slice(word.indexOf("=") + 1));
    this.list.querySelector("output").textContent = scan + 1;
    this.names.forEach((row, k) => {
      row.querySelector("output").textContent = this.told[k];
      row.classList.toggle("on", this.tracks[k].kind === "BOOL" && this.tracks[k].values[scan] === 1);
    });
    this.reveal();
    this.draw();
  }

  /** The scan comes into view. */
  reveal() {
    const room = this.node.clientWidth - this.list.offsetWidth;
    const x = this.scan * this.unit;
    if (x < this.node.scrollLeft || x + this.unit > this.node.scrollLeft + room) this.node.scrollLeft = Math.max(0, x - room / 3);
  }

  light(name) {
    for (const row of this.names) row.classList.toggle("lit", row.dataset.name === name);
  }

  draw() {
    const { unit } = this;
    const bounds = this.node.getBoundingClientRect();
    const first = clamp(Math.floor(this.node.scrollLeft / unit) - 2, 0, this.count);
    const last = clamp(Math.ceil((this.node.scrollLeft + this.node.clientWidth) / unit) + 2, 0, this.count);
    const top = clamp(Math.floor((-bounds.top - 200) / TRACK), 0, this.tracks.length);
    const end = clamp(Math.ceil((innerHeight - bounds.top + 200) / TRACK), 0, this.tracks.length);
    const width = (last - first) * unit + 2;
    this.layer.style.left = `${first * unit}px`;
    this.layer.setAttribute("width", width);
    this.layer.setAttribute("height", (this.tracks.length + 1) * TRACK);
    const parts = [svg("rect", { x: (this.scan - first) * unit, y: 0, width: unit, height: (this.tracks.length + 1) * TRACK, class: "cursor" }), this.ruler(first, last)];
    for (let k = top; k < end; k += 1) parts.push(this.track(this.tracks[k], k, first, last));
    this.layer.replaceChildren(...parts);
  }

  ruler(first, last) {
    const every = [1, 2, 5, 10, 20, 50, 100].find((it) => it * this.unit >= 30) ?? 100;
    const height = (this.tracks.length + 1) * TRACK;
    const parts = [];
    for (let scan = first; scan < last; scan += 1) {
      if ((scan + 1) % every && scan !== 0) continue;
      const x = (scan - first) * this.unit;
      parts.push(path(`M${x} ${TRACK - 8}V${height}`, "grid"), svg("text", { x: x + 4, y: TRACK - 12, class: "scale" }, scan + 1));
    }
    return svg("g", {}, parts);
  }

  track(track, place, first, last) {
    const y = (place + 1) * TRACK;
    const parts = [];
    for (const [from, to, value] of track.stretches(first, last)) {
      const [left, right] = [(from - first) * this.unit, (to - first) * this.unit];
      const level = y + TRACK - 7 - track.height(value) * (TRACK - 15);
      if (track.kind === "BOOL" && value) parts.push(svg("rect", { x: left, y: level, width: right - left, height: y + TRACK - 7 - level, class: "high" }));
      if (track.kind !== "BOOL") parts.push(svg("rect", { x: left, y: level, width: right - left, height: y + TRACK - 7 - level, class: "band" }));
      const told = track.label(from);
      if (track.kind !== "BOOL" && told.length * LETTER + 4 <= right - left) {
        const at = Math.max(left, 0) + 3;
        parts.push(svg("text", { x: at, y: level > y + 18 ? level - 3 : level + 12, class: "value" }, told));
      }
    }
    parts.push(svg("path", { d: this.outline(track, y, first, last), class: classes("wave", track.kind === "BOOL" && "bit") }));
    return svg("g", { class: "variable", "data-name": track.name }, parts);
  }

  outline(track, y, first, last) {
    let d = "";
    for (const [from, to, value] of track.stretches(first, last)) {
      const level = y + TRACK - 7 - track.height(value) * (TRACK - 15);
      d += `${d ? "V" : `M${(from - first) * this.unit} `}${level}H${(to - first) * this.unit}`;
    }
    return d;
  }

  /** For paper: the scans in strips of its width, from the first one on. */
  print() {
    const each = Math.max(1, Math.floor((PAPER - this.list.offsetWidth) / this.unit));
    this.strips = html("div", { class: "strips" });
    for (let from = 0; from < Math.min(this.count, MOST_PRINTED); from += each) {
      const to = Math.min(this.count, from + each);
      const picture = svg("svg", { class: "waves", width: each * this.unit + 2, height: (this.tracks.length + 1) * TRACK }, this.ruler(from, to), this.tracks.map((track, k) => this.track(track, k, from, to)));
      this.strips.append(html("div", { class: "strip" }, this.list.cloneNode(true), picture));
    }
    if (this.count > MOST_PRINTED) this.strips.append(html("p", {}, `the first ${MOST_PRINTED.toLocaleString("en")} of ${count(this.count, "scan")}`));
    this.node.after(this.strips);
  }

  printed() {
    this.strips?.remove();
  }

  counts() {
    return { variables: this.tracks.length, scans: this.count };
  }
}

/** Rows as a list of values for each variable. */
function tracksOf(rows) {
  const names = rows[0].split(" ").map((word) => word.slice(0, word.indexOf("=")));
  const tracks = names.map((name) => new Track(name, rows.length));
  rows.forEach((row, scan) => {
    row.split(" ").forEach((word, k) => tracks[k].put(scan, word.slice(word.indexOf("=") + 1)));
  });
  for (const track of tracks) track.close();
  return tracks;
}

/** One variable: a number for each scan. A variable that is 0 or 1 in all of them is drawn as a BOOL. */
class Track {
  constructor(name, length) {
    this.name = name;
    this.values = new Float64Array(length);
    this.kind = "BOOL";
  }

  put(scan, text) {
    if (text.startsWith("T#")) this.kind = "TIME";
    else if (text !== "0" && text !== "1" && this.kind === "BOOL") this.kind = "INT";
    this.values[scan] = this.kind === "TIME" ? parseInt(text.slice(2), 10) : parseInt(text, 10);
  }

  close() {
    this.least = this.values.reduce((least, it) => Math.min(least, it), 0);
    this.most = this.values.reduce((most, it) => Math.max(most, it), this.least + 1);
  }

  height(value) {
    return (value - this.least) / (this.most - this.least);
  }

  label(scan) {
    return this.kind === "TIME" ? `${this.values[scan]}ms` : String(this.values[scan]);
  }

  /** The stretches of one value between two scans. */
  *stretches(first, last) {
    let from = first;
    for (let scan = first + 1; scan <= last; scan += 1) {
      if (scan < last && this.values[scan] === this.values[from]) continue;
      yield [from, scan, this.values[from]];
      from = scan;
    }
  }
}

/** How wide a scan is, so that a number that changes in each one can be read. */
function unitOf(tracks) {
  const widths = tracks.filter((it) => it.kind !== "BOOL").map((it) => Math.max(String(it.most).length, String(it.least).length) + (it.kind === "TIME" ? 2 : 0));
  const longest = greatest(widths, 0);
  return clamp(longest * LETTER + 8, 26, 84);
}

// What fits on paper: its width, and so many scans or events at most.
const PAPER = 680;
const MOST_PRINTED = 3000;

const EVENT = 30;
const MOST_EVENTS = 400000;
const GUTTER = 58;
const TASK_STEP = 16;
const LETTER_IN_LANE = 7.3;

/** Events in lanes, one below the other. Only those in view are drawn. */
class LanesView {
  constructor(run, lines) {
    this.run = run;
    this.lines = lines;
    this.selected = -1;
    this.part = 0;
    this.watched = [];
    this.layer = svg("svg", { class: "lanes" });
    this.head = html("div", { class: "lane-heads" });
    this.field = html("div", { class: "field", onclick: (click) => this.point(click), onpointermove: (move) => this.hover(move) }, this.layer);
    this.box = html("div", { class: "lane-box", tabindex: 0, role: "group", "aria-label": count(run.events.length, "event") }, this.head, this.field);
    this.box.addEventListener("scroll", oncePerFrame(() => this.draw()));
    this.overview = svg("svg", { class: "overview", "aria-hidden": "true", onclick: (click) => this.jumpTo(click) });
    this.detail = html("div", { class: "detail", role: "status" }, html("p", {}, "Point at an event, or press ↓: what it takes and gives stands here. n goes to the next mark."));
    this.node = html("div", { class: "events" }, this.summary(), this.tools(), this.legend(), html("div", { class: "lane-frame" }, this.box, this.overview), this.detail);
  }

  // What stands above.

  summary() {
    const tally = new Map();
    for (const event of this.run.events) {
      const word = ["delivery", "expectation"].includes(event.kind) ? `${event.kind} ${event.answer}`.trim() : event.kind === "replay" ? event.told : event.kind;
      const found = tally.get(word) ?? { number: 0, first: event };
      found.number += 1;
      tally.set(word, found);
    }
    const chips = [...tally].map(([word, { number, first }]) => {
      const told = first.kind === "replay" ? word : `${number.toLocaleString("en")} ${TALLIES[first.kind]?.(first, number) ?? word}`;
      const kind = classes("chip", isMark(first) && `is-${markOf(first)}`, first.kind === "replay" && `is-${first.answer}`);
      return isMark(first)
        ? html("button", { class: kind, type: "button", title: "go to the next one", onclick: () => this.goToNext((it) => isMark(it) && markOf(it) === markOf(first)) }, told)
        : html("span", { class: kind }, told);
    });
    return html("div", { class: "chips" }, chips);
  }

  tools() {
    const tools = html("div", { class: "tools" });
    const names = [...this.run.variables.keys()];
    if (names.length) {
      const list = html("select", { "aria-label": "a variable's line in its lane", onchange: () => this.watch(list.value) },
        html("option", { value: "" }, "show a variable in its lane"), names.map((name) => html("option", { value: name }, name)));
      this.watchList = html("span", { class: "watched" });
      tools.append(list, this.watchList);
    }
    if (this.run.events.length > MOST_EVENTS) tools.append(this.partList());
    return tools;
  }

  /** What the signs mean that stand here. */
  legend() {
    const { run } = this;
    const has = (kind, answer) => run.events.some((it) => it.kind === kind && (!answer || it.answer === answer));
    const sample = (...parts) => svg("svg", { class: "lanes sample", width: 34, height: 16, "aria-hidden": "true" }, parts);
    const entry = (told, ...parts) => html("span", {}, sample(...parts), told);
    return html("div", { class: "legend" },
      has("evaluation") && entry("evaluation, in its task's colour", path("M17 1A7 7 0 1 0 17 15A7 7 0 1 0 17 1Z", "point task-0")),
      run.arrows.length > 0 && entry("taken by", svg("g", { class: "arrow task-0" }, path("M1 8H25", "shaft"), path(headAt(33, 8, 1, 8), "head"))),
      run.arrows.some((it) => it.take.isOther) && entry("taken from an incarnation that is over", svg("g", { class: "arrow other task-0" }, path("M1 8H25", "shaft"), path(headAt(33, 8, 1, 8), "head"))),
      has("delivery") && entry("delivery", path("M1 8H24", "delivery-line"), svg("circle", { cx: 28, cy: 8, r: 3.5, class: "arrival" })),
      ["old", "stray", "unused"].filter((it) => has("delivery", it)).map((it) => entry(`${it}: ${ANSWER_MEANINGS[it]}`, svg("g", { class: `is-${it}` }, markSigns(it, 17, 8, 7)))));
  }

  partList() {
    const parts = Math.ceil(this.run.events.length / MOST_EVENTS);
    return html("select", { "aria-label": "which events", onchange: (change) => this.choosePart(Number(change.target.value)) },
      Array.from({ length: parts }, (_, k) => html("option", { value: k }, `events ${(k * MOST_EVENTS + 1).toLocaleString("en")} to ${Math.min(this.run.events.length, (k + 1) * MOST_EVENTS).toLocaleString("en")}`)));
  }

  choosePart(part) {
    this.part = part;
    this.box.scrollTop = 0;
    this.layOut();
  }

  watch(name) {
    if (!name) return;
    this.watched = this.watched.includes(name) ? this.watched.filter((it) => it !== name) : [...this.watched, name];
    this.watchList.replaceChildren(...this.watched.map((it) => html("button", { type: "button", class: "chip", title: "take it away", onclick: () => this.watch(it) }, `${it} ✕`)));
    const list = this.node.querySelector("select");
    if (list) list.value = "";
    this.layOut();
  }

  // Where things are.

  get first() {
    return this.printing ? this.printing.first : this.part * MOST_EVENTS;
  }

  get shownCount() {
    return Math.min(this.printing ? MOST_PRINTED : MOST_EVENTS, this.run.events.length - this.first);
  }

  /** For paper: all events, or of many those from the first one in view. */
  print() {
    const isMany = this.run.events.length > MOST_PRINTED;
    const first = isMany ? this.first + Math.floor(this.box.scrollTop / EVENT) : 0;
    this.printing = { first };
    if (isMany) {
      this.printing.note = html("p", {}, `events ${(first + 1).toLocaleString("en")} to ${(first + this.shownCount).toLocaleString("en")} of ${this.run.events.length.toLocaleString("en")}`);
      this.node.prepend(this.printing.note);
    }
    this.drawsAll = true;
    this.layOut();
    this.box.style.zoom = Math.min(1, PAPER / this.width);
  }

  printed() {
    this.printing?.note?.remove();
    this.printing = undefined;
    this.drawsAll = false;
    this.box.style.zoom = "";
    this.layOut();
  }

  layOut() {
    const { run } = this;
    const lanes = Math.max(1, run.lanes.length);
    const room = this.box.clientWidth - GUTTER - 20;
    this.restarts ??= new Set(run.events.filter((it) => it.kind === "restart").map((it) => it.column));
    this.tracks = run.lanes.map((_, column) => this.watched.map((name) => run.variables.get(name)).filter((it) => it.column === column));
    const least = run.lanes.map((name, column) => this.leastWidth(name, column));
    const wanted = least.reduce((sum, it) => sum + it, 0);
    const share = clamp((room - wanted) / lanes, 0, 190);
    let x = GUTTER;
    this.lefts = [];
    for (const column of laneOrder(run.lanes)) {
      this.lefts[column] = x;
      x += least[column] + share;
    }
    this.widths = least.map((width) => width + share);
    this.width = Math.max(x, GUTTER + 200);
    this.field.style.width = `${this.width}px`;
    this.field.style.height = `${this.shownCount * EVENT + 8}px`;
    this.head.style.width = `${this.width}px`;
    this.head.classList.toggle("tall", this.watched.length > 0);
    this.head.replaceChildren(...run.lanes.map((name, column) => this.laneHead(name, column)));
    this.drawOverview();
    this.draw();
  }

  /** A lane has room for its name, for its longest label and for the variables that stand in it. */
  leastWidth(name, column) {
    const tasks = [...this.run.tasks.values()].filter((it) => it.lane === column);
    const label = greatest(tasks.map((it) => it.name.length - name.length + 6), this.restarts.has(column) ? 14 : 9);
    return Math.max(name.length * 9 + 24, 40 + this.run.perLane[column] * TASK_STEP + label * LETTER_IN_LANE) + this.trackWidth(column);
  }

  trackWidth(column) {
    return this.tracks[column].reduce((sum, it) => sum + widthOfTrack(it), 0);
  }

  laneHead(name, column) {
    const x = this.lefts[column];
    const node = html("div", { class: "lane-head" }, html("b", {}, name));
    node.style.left = `${x}px`;
    node.style.width = `${this.widths[column] - 6}px`;
    for (const { variable, left } of this.placedTracks(column)) {
      const label = html("span", { class: "track-name" }, variable.name.slice(name.length + 1));
      label.style.left = `${left - x + 4}px`;
      node.append(label);
    }
    return node;
  }

  /** The variables that stand in a lane, each with where it does: on the right of all else. */
  placedTracks(column) {
    let left = this.lefts[column] + this.widths[column] - 6 - this.trackWidth(column);
    return this.tracks[column].map((variable) => {
      const placed = { variable, left };
      left += widthOfTrack(variable);
      return placed;
    });
  }

  /** Where a lane's line stands, and the points of one of its tasks. */
  x(column, task) {
    const steps = Math.max(1, this.run.perLane[column] ?? 1);
    const place = task ? Math.min(task.inLane, steps - 1) : (steps - 1) / 2;
    return this.lefts[column] + 22 + place * TASK_STEP;
  }

  y(at) {
    return (at - this.first) * EVENT + EVENT / 2 + 4;
  }

  // What is in view.

  draw() {
    if (!this.lefts) return;
    const top = this.drawsAll ? 0 : this.box.scrollTop;
    const height = this.drawsAll ? this.shownCount * EVENT : this.box.clientHeight;
    const first = clamp(Math.floor(top / EVENT) - 3, 0, this.shownCount) + this.first;
    const end = clamp(Math.ceil((top + height) / EVENT) + 3, 0, this.shownCount) + this.first;
    const above = (first - this.first) * EVENT;
    const size = (end - first) * EVENT + 8;
    this.layer.style.top = `${above}px`;
    this.layer.setAttribute("width", this.width);
    this.layer.setAttribute("height", size);
    this.layer.setAttribute("viewBox", `0 ${above} ${this.width} ${size}`);
    const seen = this.run.events.slice(first, end);
    this.layer.replaceChildren(
      svg("g", { class: "bands" }, this.selection(first, end), seen.map((event) => this.band(event))),
      svg("g", { class: "lines" }, this.run.lanes.map((_, column) => this.laneLine(column, seen, above, above + size))),
      svg("g", { class: "tracks" }, this.tracks.flatMap((_, column) => this.placedTracks(column).map((it) => this.laneTrack(it, first, end)))),
      svg("g", { class: "deliveries" }, this.deliveries(seen)),
      svg("g", { class: "arrows" }, this.arrows(seen, first, end)),
      svg("g", { class: "points" }, seen.map((event) => this.event(event))));
  }

  selection(first, end) {
    if (this.selected < first || this.selected >= end) return undefined;
    return svg("rect", { x: 0, y: this.y(this.selected) - EVENT / 2, width: this.width, height: EVENT, class: "selected" });
  }

  /** What has no lane, or says something of all lanes, has a band across. */
  band(event) {
    if (event.column !== undefined && !["fault", "unshown"].includes(event.kind)) return undefined;
    if (["hearing", "sending", "input", "expectation"].includes(event.kind)) return undefined;
    return svg("rect", { x: GUTTER - 6, y: this.y(event.at) - EVENT / 2 + 2, width: this.width - GUTTER, height: EVENT - 4, class: `band is-${event.kind} is-${event.answer ?? ""}` });
  }

  /** A lane's line, broken where it restarts. */
  laneLine(column, seen, top, bottom) {
    const x = this.x(column);
    let d = `M${x} ${top}`;
    for (const event of seen) {
      if (event.column !== column) continue;
      if (event.kind === "restart") d += `V${this.y(event.at) - 11}M${x} ${this.y(event.at) + 11}`;
      if (event.hasRisen) d += `V${this.y(event.at) - 19}M${x} ${this.y(event.at) - 10}`;
    }
    return path(`${d}V${bottom}`, "lane");
  }

  event(event) {
    const y = this.y(event.at);
    const parts = [svg("text", { x: 6, y: y + 4, class: "number" }, event.line + 1)];
    parts.push(...(this[event.kind]?.(event, y) ?? [this.told(GUTTER, y, LABELS[event.kind](event), "strong")]));
    return svg("g", { class: classes("event", event.kind, isMark(event) && "mark", isMark(event) && `is-${markOf(event)}`), "data-line": event.line + 1 },
      svg("title", {}, this.lines[event.line]), parts);
  }

  told(x, y, text, kind) {
    return svg("text", { x, y: y + 4.5, class: classes("label", kind) }, text);
  }

  evaluation(event, y) {
    const x = this.x(event.column);
    const risen = event.hasRisen && path(`M${x - 8} ${y - 17}L${x + 8} ${y - 21}M${x - 8} ${y - 8}L${x + 8} ${y - 12}`, "break risen");
    return [risen, pointOf(event.of, this.x(event.column, event.of), y), this.told(this.labelAt(event), y, this.labelOf(event))];
  }

  labelOf(event) {
    if (event.kind === "evaluation") return `${event.of.name.slice(event.of.name.indexOf(".") + 1)} ${event.pair ?? event.message}`;
    return `${event.pair ? `${event.of.name} ${event.pair}` : event.message} ${event.answer}`.trim();
  }

  labelAt(event) {
    return event.kind === "evaluation" ? this.x(event.column, { inLane: 99 }) + 13 : this.x(event.column) + 15;
  }

  /** Where lines meet an event from the left and from the right: behind its label. */
  sides(event) {
    const x = event.kind === "evaluation" ? this.x(event.column, event.of) : this.x(event.column ?? 0);
    return { lane: event.column, left: x - (isMark(event) ? 10 : event.kind === "evaluation" ? 8 : 5), middle: x, right: this.labelAt(event) + this.labelOf(event).length * LETTER_IN_LANE + 5, y: this.y(event.at) };
  }

  delivery(event, y) {
    const x = this.x(event.column);
    const parts = isMark(event) ? markSigns(event.answer, x, y, 9) : [svg("circle", { cx: x, cy: y, r: 3.5, class: "arrival" })];
    parts.push(this.told(this.labelAt(event), y, this.labelOf(event), isMark(event) ? "strong" : "faint"));
    return parts;
  }

  restart(event, y) {
    const x = this.x(event.column);
    const word = event.isStart ? "start" : "restart";
    return [path(`M${x - 8} ${y - 6}L${x + 8} ${y - 10}M${x - 8} ${y + 10}L${x + 8} ${y + 6}`, "break"),
      this.told(x + 15, y, this.widths[event.column] < 215 ? `${word}: ${event.incarnation ?? ""}` : `${word}: incarnation ${event.incarnation ?? "one more"}`, "strong")];
  }

  hearing(event, y) {
    if (event.column === undefined) return [this.told(GUTTER, y, this.lines[event.line], "faint")];
    const x = this.x(event.column);
    return [path(`M${x - 4} ${y - 4}L${x + 3} ${y}L${x - 4} ${y + 4}`, "heard"), this.told(x + 15, y, `hears ${event.other} ${event.incarnation}${event.answer === "old" ? ", old" : ""}`, "faint")];
  }

  sending(event, y) {
    if (event.column === undefined) return [this.told(GUTTER, y, this.lines[event.line], "faint")];
    const [from, to] = [this.x(event.column), this.x(event.toColumn)];
    const side = Math.sign(to - from);
    return [path(`M${from} ${y}H${to - side * 4}`, "sent"), path(`M${to - side * 10} ${y - 4}L${to - side * 3} ${y}L${to - side * 10} ${y + 4}`, "sent"),
      this.told(Math.min(from, to) + 15, y - 8, event.sent.replace(/^MESSAGE (\S+ \S+) .*/, "$1"), "faint")];
  }

  fault(event, y) {
    const x = event.column === undefined ? GUTTER : this.x(event.column);
    return [path(`M${x} ${y - 9}L${x + 9} ${y + 7}H${x - 9}Z`, "fault-sign"), this.told(x + 15, y, LABELS[event.kind](event), "strong")];
  }

  unshown(event, y) {
    return [this.inLane(event, y, "strong")];
  }

  input(event, y) {
    return [this.inLane(event, y, "faint")];
  }

  expectation(event, y) {
    if (isMark(event)) return this.fault(event, y);
    const x = this.x(event.column ?? 0);
    return [event.answer !== "" && path(`M${x - 5} ${y}L${x - 1} ${y + 4}L${x + 5} ${y - 5}`, "heard"), this.inLane(event, y, "faint")];
  }

  overrun(event, y) {
    return this.fault(event, y);
  }

  ended(event, y) {
    return this.fault(event, y);
  }

  unnoted(event, y) {
    return this.fault(event, y);
  }

  /** What an event tells, beside its lane if it has one. */
  inLane(event, y, kind) {
    return this.told(event.column === undefined ? GUTTER : this.x(event.column) + 15, y, LABELS[event.kind](event), kind);
  }

  // Lines between events.

  deliveries(seen) {
    return seen.filter((event) => event.kind === "delivery" && event.source && event.column !== undefined).map((event) => {
      const { d } = between(this.sides(event.source), this.sides(event), 0);
      return svg("path", { d, class: classes("delivery-line", isMark(event) && `is-${event.answer}`), "data-from": event.source.line + 1, "data-to": event.line + 1 });
    });
  }

  /** Arrows of which an end is in view. */
  arrows(seen, first, end) {
    const parts = [];
    for (const event of seen) {
      for (const take of event.taken ?? []) if (take.pair) parts.push(this.arrow(take, event));
      for (const taker of event.takers ?? []) if (taker.at < first || taker.at >= end) {
        for (const take of taker.taken) if (take.source === event) parts.push(this.arrow(take, taker));
      }
    }
    return parts;
  }

  arrow(take, event) {
    const to = this.sides(event);
    const from = take.source ? this.sides(take.source) : this.outside(take.producer, to.y);
    const { d, head } = between(from, to, 8);
    const isHeld = event.at === this.selected || take.source?.at === this.selected;
    return svg("g", { class: classes("arrow", `task-${take.producer.place % 12}`, take.isOther && "other", !take.source && "unseen", isHeld && "held"), "data-from": take.source ? take.source.line + 1 : "", "data-to": event.line + 1 },
      svg("title", {}, `${take.producer.name} ${take.pair}`), path(d, "shaft"), path(head, "head"));
  }

  /** Where an arrow comes from whose evaluation isn't in this text. */
  outside(producer, y) {
    const x = this.x(producer.lane, producer);
    return { lane: producer.lane, left: x, middle: x, right: x, y: y - EVENT * 0.9 };
  }

  /** A variable's line, from above to below: to the right is more. */
  laneTrack({ variable, left }, first, end) {
    const { isBit, least, most } = shapeOf(variable);
    const parts = [];
    let d = "";
    for (let k = Math.max(0, upTo(variable.at, first) - 1); k < variable.at.length && variable.at[k] < end; k += 1) {
      const top = this.y(Math.max(variable.at[k], first));
      const bottom = this.y(Math.min(variable.at[k + 1] ?? end, end));
      const value = variable.values[k];
      const x = left + 8 + ((numberOf(value) - least) / (most - least)) * SWING;
      parts.push(svg("rect", { x: left + 8, y: top, width: Math.max(0, x - left - 8), height: bottom - top, class: isBit ? "high" : "band-track" }));
      d += `${d ? "H" : "M"}${x}${d ? "" : ` ${top}`}V${bottom}`;
      parts.push(svg("text", { x: left + 13 + SWING, y: top + 11, class: "value" }, value));
    }
    return svg("g", { class: "lane-track", "data-name": variable.name }, parts, path(d, classes("wave", isBit && "bit")),
      svg("title", {}, variable.name));
  }

  drawOverview() {
    const height = this.box.clientHeight;
    this.overview.setAttribute("height", height);
    const taken = new Set();
    const parts = [];
    for (const at of this.run.marks) {
      if (at < this.first || at >= this.first + this.shownCount) continue;
      const event = this.run.events[at];
      const y = Math.round(((at - this.first) / this.shownCount) * (height - 6));
      const key = `${markOf(event)} ${y}`;
      if (taken.has(key)) continue;
      taken.add(key);
      parts.push(svg("rect", { x: 1, y, width: 10, height: 4, class: `is-${markOf(event)}` }));
    }
    this.overview.replaceChildren(...parts);
  }

  // What one does.

  jumpTo(click) {
    const part = (click.clientY - this.overview.getBoundingClientRect().top) / this.overview.clientHeight;
    const near = this.first + part * this.shownCount;
    const mark = this.run.marks.reduce((best, it) => (Math.abs(it - near) < Math.abs(best - near) ? it : best), Infinity);
    this.selectEvent(Number.isFinite(mark) && Math.abs(mark - near) < this.shownCount / 40 ? mark : Math.floor(near));
  }

  eventAt(pointer) {
    const y = pointer.clientY - this.field.getBoundingClientRect().top - 4;
    return clamp(Math.floor(y / EVENT), 0, this.shownCount - 1) + this.first;
  }

  point(click) {
    this.selectEvent(this.eventAt(click));
  }

  hover(move) {
    if (move.pointerType === "mouse") this.tell(this.eventAt(move));
  }

  /** Selects the next event that is wanted, or the one before; behind the last comes the first. */
  goToNext(isWanted, step = 1) {
    const { events } = this.run;
    const begun = step > 0 ? this.selected : Math.max(0, this.selected);
    for (let k = 1; k <= events.length; k += 1) {
      const at = (begun + step * k + events.length) % events.length;
      if (isWanted(events[at])) return this.selectEvent(at);
    }
    return undefined;
  }

  selectEvent(at) {
    this.selected = clamp(at, 0, this.run.events.length - 1);
    const part = Math.floor(this.selected / MOST_EVENTS);
    if (part !== this.part) this.choosePart(part);
    const y = this.y(this.selected);
    if (y - EVENT < this.box.scrollTop || y + EVENT + this.head.offsetHeight > this.box.scrollTop + this.box.clientHeight) {
      this.box.scrollTop = Math.max(0, y - this.box.clientHeight / 2);
    }
    this.draw();
    this.tell(this.selected);
  }

  /** All that is told of one event. */
  tell(at) {
    const event = this.run.events[at];
    const parts = [html("code", { class: "whole" }, this.lines[event.line])];
    const list = html("dl");
    const add = (term, ...told) => list.append(html("dt", {}, term), html("dd", {}, ...told));
    add("line", `${event.line + 1}`);
    if (event.kind === "evaluation") {
      if (event.hasRisen) add("restarted", `its resource is in incarnation ${incarnationOf(event.pair)} now`);
      if (event.inputs) add("inputs", event.inputs);
      for (const take of event.taken) if (take.pair) add("takes", `${take.producer.name} ${take.pair}${take.isOther ? ", of another incarnation" : ""}${take.source ? "" : ", which isn't in this text"}`);
      const empty = event.taken.filter((it) => !it.pair).map((it) => it.producer.name);
      if (empty.length) add("takes", `initial values of ${empty.join(", ")}`);
      const gives = (event.gives ?? "-").split(" ").filter((it) => it !== "-");
      if (gives.length) add("gives", ...gives.map((word) => this.valueButton(event, word)));
    }
    if (event.kind === "delivery") {
      add("message", event.source ? `made in line ${event.source.line + 1}: ${this.lines[event.source.line]}` : "not made in this text");
      if (event.answer) add(event.answer, ANSWER_MEANINGS[event.answer]);
    }
    this.detail.replaceChildren(...parts, list);
  }

  valueButton(event, word) {
    const name = `${event.lane}.${word.slice(0, word.indexOf("="))}`;
    return html("button", { type: "button", class: "value-button", title: "its line in the lane", onclick: () => this.watch(name) }, word);
  }

  press(key) {
    const page = Math.max(1, Math.floor(this.box.clientHeight / EVENT) - 2);
    const steps = { ArrowDown: 1, ArrowUp: -1, j: 1, k: -1, PageDown: page, PageUp: -page };
    if (key in steps) this.selectEvent(this.selected + steps[key]);
    else if (key === "Home") this.selectEvent(0);
    else if (key === "End") this.selectEvent(this.run.events.length - 1);
    else if (key === "n") this.goToNext(isMark);
    else if (key === "p") this.goToNext(isMark, -1);
    else return false;
    return true;
  }

  counts() {
    const { events, arrows, marks } = this.run;
    return {
      events: events.length, points: events.filter((it) => it.kind === "evaluation").length, arrows: arrows.length,
      marks: marks.length, lanes: this.run.lanes.length,
    };
  }
}

const TALLIES = {
  evaluation: (_, number) => (number === 1 ? "evaluation" : "evaluations"),
  delivery: (event, number) => `${number === 1 ? "delivery" : "deliveries"} ${event.answer}`.trim(),
  restart: (event, number) => `${event.isStart ? "start" : "restart"}${number === 1 ? "" : "s"}`,
  hearing: (_, number) => (number === 1 ? "hearing" : "hearings"),
  sending: (_, number) => (number === 1 ? "line sent" : "lines sent"),
  input: (_, number) => (number === 1 ? "input told" : "inputs told"),
  expectation: (event, number) => `${number === 1 ? "expectation" : "expectations"} ${event.answer}`.trim(),
  overrun: () => "OVERRUN",
  ended: () => "FIELD ended",
  unnoted: () => "UNNOTED",
  refused: () => "REFUSED",
  fault: () => "FAULT",
  unanswered: () => "UNANSWERED",
  unshown: () => "UNSHOWN",
};

const LABELS = {
  input: () => "INPUT taken",
  expectation: (event) => event.told,
  overrun: (event) => `OVERRUN ${event.late} ${event.skipped}`,
  ended: () => "FIELD ended",
  unnoted: () => "UNNOTED",
  refused: (event) => `REFUSED ${event.event ?? ""} ${event.cause}`.replace(/ +/g, " "),
  unanswered: (event) => `UNANSWERED ${event.ticket}`,
  fault: (event) => `FAULT ${event.ticket} ${event.cause}`,
  unshown: (event) => (event.lane ? `NOJOURNAL ${event.lane}` : `UNSHOWN ${event.told}`),
  replay: (event) => event.told,
};

const ANSWER_MEANINGS = {
  taken: "it is now the latest of its task there",
  old: "it, or a later one of its task, was there before",
  unused: "it was made there, or nobody there takes from its task",
  stray: "it is addressed to another incarnation",
};

/** Lanes in their order: by number where they are numbered, as R1 and R2, else as they come. */
function laneOrder(names) {
  const columns = names.map((_, k) => k);
  const numbered = names.map((name) => /^(.*?)(\d+)$/.exec(name));
  if (!numbered.every((it) => it && it[1] === numbered[0][1])) return columns;
  return columns.sort((one, two) => numbered[one][2] - numbered[two][2]);
}

/** How many of the rising numbers are at most this one. */
function upTo(numbers, most) {
  let [low, high] = [0, numbers.length];
  while (low < high) {
    const middle = (low + high) >> 1;
    if (numbers[middle] <= most) low = middle + 1;
    else high = middle;
  }
  return low;
}

const SWING = 16;
const numberOf = (value) => parseInt(value.replace("T#", ""), 10);

/** What is needed of a variable to draw its line, found once. */
function shapeOf(variable) {
  if (!variable.shape) {
    const numbers = variable.values.map(numberOf);
    const least = numbers.reduce((one, two) => Math.min(one, two), 0);
    variable.shape = {
      isBit: variable.values.every((it) => it === "0" || it === "1"), least, most: numbers.reduce((one, two) => Math.max(one, two), least + 1),
      longest: variable.values.reduce((most, it) => Math.max(most, it.length), 1),
    };
  }
  return variable.shape;
}

const widthOfTrack = (variable) => Math.max(30 + SWING + shapeOf(variable).longest * LETTER_IN_LANE, (variable.name.length - variable.name.indexOf(".")) * LETTER_IN_LANE + 6);

/** The mark of a delivery that wasn't taken: a cross for an old one, a stroke for a stray one, a ring for an unused one. */
function markSigns(answer, x, y, r) {
  const [a, b] = [r * 0.45, r * 0.55];
  const sign = {
    old: () => path(`M${x - a} ${y - a}L${x + a} ${y + a}M${x - a} ${y + a}L${x + a} ${y - a}`, "mark-sign"),
    stray: () => path(`M${x - b} ${y + b}L${x + b} ${y - b}`, "mark-sign"),
    unused: () => svg("circle", { cx: x, cy: y, r: r * 0.4, class: "mark-hollow" }),
  }[answer]();
  return [svg("circle", { cx: x, cy: y, r, class: "mark-ring" }), sign];
}

/** A point of a task: its colour and its shape are its own. */
function pointOf(task, x, y) {
  const shape = Math.floor(task.place / 12) % 4;
  const shapes = [`M${x - 7} ${y}A7 7 0 1 0 ${x + 7} ${y}A7 7 0 1 0 ${x - 7} ${y}Z`, `M${x - 6} ${y - 6}H${x + 6}V${y + 6}H${x - 6}Z`, `M${x} ${y - 8}L${x + 8} ${y}L${x} ${y + 8}L${x - 8} ${y}Z`, `M${x} ${y - 8}L${x + 8} ${y + 6}H${x - 8}Z`];
  return svg("path", { d: shapes[shape], class: `point task-${task.place % 12}`, "data-task": task.name });
}

/** A curve from one event to another, and the head of its arrow, which is so long. */
function between(from, to, length) {
  if (from.lane === to.lane) {
    const [x, tip] = [from.left, to.left];
    const left = Math.min(x, tip) - 14 - Math.min(22, Math.abs(to.y - from.y) / 12);
    return { d: `M${x} ${from.y}C${left} ${from.y} ${left} ${to.y} ${tip - length} ${to.y}`, head: headAt(tip, to.y, 1, length) };
  }
  const side = Math.sign(to.middle - from.middle);
  const [x, tip] = side > 0 ? [from.right, to.left] : [from.left, to.right];
  const end = tip - side * length;
  const reach = side * clamp(Math.abs(end - x) / 2, 20, 90);
  return { d: `M${x} ${from.y}C${x + reach} ${from.y} ${end - reach} ${to.y} ${end} ${to.y}`, head: headAt(tip, to.y, side, length) };
}

const headAt = (tip, y, side, length) => `M${tip - side * length} ${y - 5}L${tip} ${y}L${tip - side * length} ${y + 5}Z`;

/** Scans: the ladder, if it is shown, the timing diagram, and what steps through them. */
class ScansView {
  constructor(section) {
    this.count = section.rows.length;
    this.scan = 0;
    const choose = (name) => this.light(baseOf(name));
    this.ladder = section.ladder && new LadderView(section, choose);
    this.timing = this.count ? new TimingView(section.rows, (scan) => this.show(scan), choose) : undefined;
    if (this.ladder && this.timing) {
      const { timing } = this;
      this.ladder.valueOf = (name) => timing.told[timing.places.get(name.toUpperCase())];
      this.ladder.isBit = (name) => timing.tracks[timing.places.get(name.toUpperCase())]?.kind === "BOOL";
    }
    this.node = html("div", { class: "scans" }, this.ladder?.node, this.count > 1 && this.tools(), this.ladder && this.count > 0 && this.legend(), this.timing?.node);
  }

  legend() {
    const sample = (kind) => svg("svg", { class: "ladder shown sample", width: 34, height: 16, "aria-hidden": "true" }, path("M0 8H34", kind));
    return html("div", { class: "legend" }, html("span", {}, sample("wire live"), "has power in this scan"), html("span", {}, sample("wire"), "has none"), html("span", {}, html("b", { class: "on" }, "NAME"), "is 1 after it"));
  }

  tools() {
    this.slider = html("input", { type: "range", min: 1, max: this.count, value: 1, "aria-label": "scan", oninput: () => this.show(Number(this.slider.value) - 1) });
    this.told = html("output", { class: "scan-number" });
    this.player = html("button", { type: "button", "aria-label": "play", title: "play (blank)", onclick: () => this.play() }, icon("play"));
    const button = (sign, label, call) => html("button", { type: "button", "aria-label": label, title: label, onclick: call }, icon(sign));
    return html("div", { class: "player" }, button("first", "first scan (Home)", () => this.show(0)), button("before", "scan before (←)", () => this.step(-1)), this.player,
      button("next", "next scan (→)", () => this.step(1)), button("last", "last scan (End)", () => this.show(this.count - 1)), this.slider, this.told);
  }

  layOut(scale) {
    this.ladder?.fit(scale);
    this.timing?.fit();
    this.show(this.scan);
  }

  show(scan) {
    this.scan = clamp(scan, 0, Math.max(0, this.count - 1));
    if (this.slider) {
      this.slider.value = this.scan + 1;
      this.told.textContent = `scan ${(this.scan + 1).toLocaleString("en")} of ${this.count.toLocaleString("en")}${this.dt ? ` · dt ${this.dt} ms` : ""}`;
    }
    this.timing?.show(this.scan);
    this.ladder?.show(this.scan);
  }

  step(by) {
    this.show(this.scan + by);
  }

  play() {
    if (this.timer) this.stop();
    else {
      if (this.scan === this.count - 1) this.show(0);
      this.player.replaceChildren(icon("stop"));
      this.timer = setInterval(() => (this.scan < this.count - 1 ? this.step(1) : this.stop()), 500);
    }
  }

  stop() {
    clearInterval(this.timer);
    this.timer = undefined;
    this.player.replaceChildren(icon("play"));
  }

  /** A run that breaks a claim shows its last scan, and what the claim names. */
  breaks(name) {
    this.scan = this.count - 1;
    if (name) this.light(baseOf(name));
  }

  light(name) {
    this.lit = this.lit === name ? undefined : name;
    this.ladder?.light(this.lit);
    this.timing?.light(this.lit);
  }

  draw() {
    this.ladder?.draw();
    this.timing?.draw();
  }

  print() {
    if (this.ladder) this.ladder.drawsAll = true;
    this.ladder?.draw();
    this.timing?.print();
  }

  printed() {
    if (this.ladder) this.ladder.drawsAll = false;
    this.timing?.printed();
    this.draw();
  }

  press(key) {
    const steps = { ArrowLeft: -1, ArrowRight: 1, PageUp: -10, PageDown: 10 };
    if (this.count < 2 && key !== "Escape") return false;
    if (key in steps) this.step(steps[key]);
    else if (key === "Home") this.show(0);
    else if (key === "End") this.show(this.count - 1);
    else if (key === " ") this.play();
    else if (key === "+") this.timing.zoom(1.25);
    else if (key === "-") this.timing.zoom(0.8);
    else if (key === "Escape" && this.lit) this.light(this.lit);
    else return false;
    return true;
  }

  counts() {
    return { ...this.ladder?.counts(), ...this.timing?.counts(), lit: this.lit };
  }
}

/** A claim: the verdict, large. */
class VerdictView {
  constructor(section) {
    const sign = { HOLDS: "✓", FAILS: "✕", UNDECIDED: "?" }[section.verdict];
    this.node = html("div", { class: `verdict is-${section.verdict.toLowerCase()}` },
      html("div", { class: "big" }, html("span", { class: "sign", "aria-hidden": "true" }, sign), section.verdict),
      html("p", { class: "told" }, section.told), section.command && html("code", { class: "command" }, section.command));
  }

  counts() {
    return { verdicts: 1 };
  }
}

const CHUNK = 400;

/** A text as it is, in parts of some lines, so that the browser lays out only those in view. */
class TextView {
  constructor(lines) {
    this.node = html("div", { class: "lines", tabindex: 0 });
    for (let at = 0; at < lines.length; at += CHUNK) {
      const part = lines.slice(at, at + CHUNK);
      const node = html("div", {}, part.join("\n") + (at + CHUNK < lines.length ? "\n" : ""));
      node.style.containIntrinsicHeight = `auto ${part.length * 1.4}em`;
      this.node.append(node);
    }
  }

  counts() {
    return {};
  }
}

// ---- 7. The page ----

const KEYS = [
  ["t", "as text, as drawn"], ["← →", "scan before, next scan"], ["blank", "play, stop"], ["Home End", "first, last"], ["+ −", "wider, narrower scans"],
  ["↑ ↓", "event before, next event"], ["n p", "next mark, mark before"], ["Tab Enter", "choose a contact: where its name stands lights up"], ["Esc", "nothing is lit"], ["?", "these keys"],
];

class Page {
  constructor(pre) {
    this.pre = pre;
    this.text = textOf(pre);
    this.lines = linesOf(this.text);
    this.sections = sectionsOf(this.lines);
    this.isDrawn = this.sections.some((it) => it.form !== "text");
    this.views = [];
    if (this.isDrawn) this.build();
    this.head();
    if (!this.isDrawn) this.showText();
  }

  build() {
    this.main = html("main");
    for (const section of this.sections) {
      const view = this.viewOf(section);
      this.views.push(view);
      const node = html("section", { "data-form": section.form, "data-lines": `${section.first + 1}-${section.end}` }, view.node);
      node.addEventListener("focusin", () => (this.active = view));
      node.addEventListener("pointerdown", () => (this.active = view));
      this.main.append(node);
    }
    this.tellRuns();
    this.active = this.views.find((it) => it.press);
    this.pre.after(this.main);
    const layOut = oncePerFrame(() => this.layOut());
    addEventListener("resize", layOut);
    addEventListener("scroll", oncePerFrame(() => this.views.forEach((it) => it.draw?.())), { passive: true });
    addEventListener("beforeprint", () => this.views.forEach((it) => it.print?.()));
    addEventListener("afterprint", () => this.views.forEach((it) => it.printed?.()));
  }

  viewOf(section) {
    if (section.form === "events") return new LanesView(section.run, this.lines);
    if (section.form === "verdict") return new VerdictView(section);
    if (section.form === "text") return new TextView(this.lines.slice(section.first, section.end));
    return new ScansView(section);
  }

  /** A claim tells the run below it where it breaks, and the words that made it the time from scan to scan. */
  tellRuns() {
    this.sections.forEach((section, k) => {
      const found = /--dt (\d+)/.exec(section.command ?? "");
      const run = this.views[k + 1];
      if (!(run instanceof ScansView)) return;
      if (found) run.dt = found[1];
      if (section.verdict === "FAILS") run.breaks(/^\w+/.exec(section.told)?.[0]);
    });
  }

  /** All ladders are drawn in one size. */
  layOut() {
    const scale = this.views.reduce((least, it) => Math.min(least, it.ladder?.room() ?? least), Infinity);
    for (const view of this.views) view.layOut?.(scale);
  }

  head() {
    const told = this.isDrawn ? titleOf(this.sections, this.views) : count(this.lines.length, "line");
    document.title = `plc: ${told}`;
    this.switch = html("button", { type: "button", "aria-pressed": "false", onclick: () => this.turn() }, html("kbd", {}, "t"), " as text");
    this.help = html("dialog", { class: "keys" }, html("h2", {}, "Keys"), html("dl", {}, KEYS.map(([key, what]) => [html("dt", {}, html("kbd", {}, key)), html("dd", {}, what)])), html("button", { type: "button", onclick: () => this.help.close() }, "close"));
    const buttons = this.isDrawn ? [this.switch, html("button", { type: "button", onclick: () => this.help.showModal() }, html("kbd", {}, "?"), " keys")] : [];
    document.body.prepend(html("header", {}, html("h1", {}, told), html("div", { class: "buttons" }, buttons)));
    document.body.append(this.help);
    addEventListener("keydown", (press) => this.press(press));
  }

  showText() {
    this.whole ??= new TextView(this.text.split("\n"));
    this.whole.node.id = "whole";
    this.pre.after(this.whole.node);
  }

  /** From what is drawn to the text, and back. */
  turn() {
    this.isText = !this.isText;
    this.main.hidden = this.isText;
    this.switch.setAttribute("aria-pressed", String(this.isText));
    if (this.isText) return this.showText();
    this.whole.node.remove();
    return this.layOut();
  }

  press(press) {
    const isField = press.target.matches?.("select, textarea, input:not([type=range])");
    if (press.ctrlKey || press.metaKey || press.altKey || isField || this.help.open) return;
    const isButton = press.target.matches?.("button, [role=button]") && (press.key === " " || press.key === "Enter");
    if (isButton) return;
    if (press.key === "t" && this.isDrawn) this.turn();
    else if (press.key === "?" && this.isDrawn) this.help.showModal();
    else if (this.isText || !this.active?.press(press.key)) return;
    press.preventDefault();
  }
}

/** What is drawn, in a few words. */
function titleOf(sections, views) {
  const tally = new Map();
  sections.forEach((section, k) => {
    const told = TITLES[section.form]?.(views[k].counts(), section);
    if (told) tally.set(told, (tally.get(told) ?? 0) + 1);
  });
  const parts = [...tally].map(([told, number]) => (number === 1 ? told : told === "a ladder" ? `${number} ladders` : `${number} × ${told}`));
  return parts.length > 4 ? `${parts.slice(0, 4).join(", ")}, and more` : parts.join(", ");
}

const TITLES = {
  events: (counts) => `${count(counts.events, "event")} of ${count(counts.lanes, "resource")}`,
  scans: (counts) => `${count(counts.scans, "scan")} of a ladder`,
  rows: (counts) => count(counts.scans, "scan"),
  verdict: (_, section) => section.verdict,
  drawing: () => "a ladder",
};

const page = new Page(document.getElementById("text"));
page.layOut();
/** What is drawn, for tests; that it is there tells that all went well. */
window.plcPage = page;
})();
