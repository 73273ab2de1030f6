"use strict";

// The calls in the order of their numbers, each with a letter for each number that follows in a row: i an item, q a
// queue, c a CPU, k the number of an entry, and n any other number.
const CALLS = [
  ["queue", "iqc"], ["delay", "iqcn"], ["modify", "iqcn"], ["cancel", "i"], ["tick", "n"], ["fire", ""], ["flush", "q"],
  ["drain", "q"], ["flush_item", "i"], ["flush_delayed", "i"], ["cancel_sync", "i"], ["end", "k"], ["take", ""],
  ["finish", ""], ["sleep", ""], ["wake", ""], ["retire", ""], ["set_max", "qn"], ["freeze", ""], ["thaw", ""],
  ["destroy", "q"],
];

// The replies in the order of their numbers, with # for each number that follows in a row, and what the entry did.
const REPLIES = [
  ["yes #", "queued"], ["booked #", "delayed"], ["again #", "queued"], ["rebooked #", "delayed"], ["no", "refused"],
  ["foreign", "refused"], ["draining", "refused"], ["misuse", "refused"], ["cancelled #", "cancelled"],
  ["unbooked", "cancelled"], ["now #", "tick"], ["fired # #", "fired"], ["nothing", "refused"], ["ticket #", "waits"],
  ["ticket # queued", "queued"], ["ticket # cancelled #", "cancelled"], ["ticket # unbooked", "cancelled"],
  ["ticket # no", "waits"], ["idle", "refused"], ["crowded", "refused"], ["done", "done"], ["waiting #", "waiting"],
  ["started #", "started"], ["started # enlist #", "started"], ["held", "refused"], ["finished #", "finished"],
  ["slept", "slept"], ["woke", "woke"], ["retired", "changed"], ["kept", "refused"], ["width #", "changed"],
  ["frozen", "changed"], ["thawed", "changed"], ["gone", "refused"], ["timers", "refused"],
];

const numbersIn = (text) => text.split("#").length - 1;
const replyNumbers = REPLIES.map(([text]) => numbersIn(text));
const replySigns = REPLIES.map(([, sign]) => sign);
const replyNamed = (name) => REPLIES.findIndex(([other]) => other === name);

const REPLY = {
  yes: replyNamed("yes #"), again: replyNamed("again #"), booked: replyNamed("booked #"),
  rebooked: replyNamed("rebooked #"), now: replyNamed("now #"), fired: replyNamed("fired # #"),
  ticket: replyNamed("ticket #"), queued: replyNamed("ticket # queued"), lastTicket: replyNamed("ticket # no"),
  done: replyNamed("done"), waiting: replyNamed("waiting #"), cancelled: replyNamed("cancelled #"),
  started: replyNamed("started #"), enlisted: replyNamed("started # enlist #"), finished: replyNamed("finished #"),
};

// Whether a reply tells of a queueing or a ticket that its entry opened.
function opensOne(reply) {
  return reply === REPLY.yes || reply === REPLY.again || (reply >= REPLY.ticket && reply <= REPLY.lastTicket);
}

// Workers have the numbers from here on, those of a pool of 64 after one another; callers have those below.
const FIRST_WORKER = 256;

const NONE = -1;

// The row of a place is as high as the most that are ever open there, or as so many.
const LEAST_SCALE = 4;

function nameOf(who) {
  if (who < FIRST_WORKER) {
    return `c${who}`;
  }
  const pool = Math.floor((who - FIRST_WORKER) / 64);
  return `w${Math.floor(pool / 2)}${pool % 2 ? "h" : "n"}${(who - FIRST_WORKER) % 64}`;
}

// The names that a script gives to items, queues and callers. What has none goes by its number.
class Names {
  constructor(script) {
    this.script = script;
  }

  of(list, number) {
    const name = this.script?.[list]?.[number]?.name;
    return typeof name === "string" ? name : undefined;
  }

  item(number) {
    return this.of("items", number) ?? String(number);
  }

  queue(number) {
    return this.of("queues", number) ?? String(number);
  }

  who(number) {
    const name = number < FIRST_WORKER ? this.of("callers", number) : undefined;
    return name === undefined ? nameOf(number) : `${nameOf(number)} (${name})`;
  }

  place(queue, cpu) {
    return `${this.of("queues", queue) ?? `q${queue}`} CPU ${cpu}`;
  }
}

// Reads numbers, each of which one space or line feed ends.
class Rows {
  constructor(bytes) {
    this.bytes = bytes;
    this.at = 0;
  }

  number() {
    const bytes = this.bytes;
    let number = 0;
    let byte = bytes[this.at++];
    while (byte >= 48) {
      number = number * 10 + (byte - 48);
      byte = bytes[this.at++];
    }
    return number;
  }
}

// Puts what has a key into the order of the keys, and keeps the order of those with the same key. `starts[k]` is where
// those with the key k begin.
function grouped(keys, count) {
  const starts = new Uint32Array(count + 1);
  for (let at = 0; at < keys.length; at++) {
    starts[keys[at] + 1]++;
  }
  for (let key = 0; key < count; key++) {
    starts[key + 1] += starts[key];
  }
  const next = starts.slice();
  const order = new Uint32Array(keys.length);
  for (let at = 0; at < keys.length; at++) {
    order[next[keys[at]]++] = at;
  }
  return { starts, order };
}

// The first index from `low` on, below `high`, at which a test that stays true becomes true, or `high`.
function firstIndex(low, high, test) {
  while (low < high) {
    const middle = (low + high) >>> 1;
    if (test(middle)) {
      high = middle;
    } else {
      low = middle + 1;
    }
  }
  return low;
}

// What goes on from one entry up to and with another, as a run, a sleep or a wait. One that goes on at the end of the
// history has the last entry as `to`.
class Spans {
  constructor(count) {
    this.lane = new Uint32Array(count);
    this.about = new Uint32Array(count);
    this.from = new Uint32Array(count);
    this.to = new Uint32Array(count);
    this.goesOn = new Uint8Array(count);
  }

  get length() {
    return this.from.length;
  }

  set(at, lane, about, from, to, last) {
    this.lane[at] = lane;
    this.about[at] = about;
    this.from[at] = from;
    this.goesOn[at] = to === 0 ? 1 : 0;
    this.to[at] = to === 0 ? last : to;
  }

  group(lanes) {
    Object.assign(this, grouped(this.lane, lanes));
  }

  // The positions in `order` of those of a lane that overlap the entries from one up to another.
  within(lane, from, to) {
    const { starts, order } = this;
    const first = firstIndex(starts[lane], starts[lane + 1], (at) => this.to[order[at]] >= from);
    return [first, firstIndex(first, starts[lane + 1], (at) => this.from[order[at]] >= to)];
  }

  // The one of a lane in which an entry is, or none.
  at(lane, entry) {
    const [first, end] = this.within(lane, entry, entry + 1);
    return first < end ? this.order[first] : NONE;
  }
}

// A history as it stands in the rows: first how much there is of everything and which entries to show first, and then a
// row for each queue, entry, wait, run, sleep and level.
class History {
  constructor(bytes, names) {
    const rows = new Rows(bytes);
    this.bytes = bytes;
    this.names = names;
    for (const name of ["cpus", "workers", "callers", "items", "queues", "length"]) {
      this[name] = rows.number();
    }
    const [waits, runs, sleeps, levels] = [rows.number(), rows.number(), rows.number(), rows.number()];
    this.window = [rows.number(), rows.number()];
    for (let queue = 0; queue < this.queues; queue++) {
      for (let part = 0; part < 4; part++) {
        rows.number();
      }
    }
    this.readEntries(rows);
    this.readWaits(rows, waits);
    this.readRuns(rows, runs);
    this.readSleeps(rows, sleeps);
    this.readLevels(rows, levels);
  }

  readEntries(rows) {
    const length = this.length;
    this.start = new Uint32Array(length);
    this.who = new Uint16Array(length);
    this.call = new Uint8Array(length);
    this.reply = new Uint8Array(length);
    this.item = new Int32Array(length).fill(NONE);
    this.queue = new Int16Array(length).fill(NONE);
    // The entry that opened what this one is about: a queueing or a ticket.
    this.about = new Int32Array(length).fill(NONE);
    // The entries that let ticks go by.
    this.ticks = [];
    // The last entry that booked each item, and the queueing that each worker runs.
    this.bookings = new Int32Array(65536).fill(NONE);
    this.running = new Int32Array(65536).fill(NONE);
    for (let entry = 0; entry < length; entry++) {
      this.start[entry] = rows.at;
      this.who[entry] = rows.number();
      this.call[entry] = rows.number();
      const letters = CALLS[this.call[entry]][1];
      for (let at = 0; at < letters.length; at++) {
        const number = rows.number();
        if (letters[at] === "i") {
          this.item[entry] = number;
        } else if (letters[at] === "q") {
          this.queue[entry] = number;
        } else if (letters[at] === "k" && number < entry) {
          // (an end that is refused may name any number)
          this.about[entry] = number;
        }
      }
      this.reply[entry] = rows.number();
      const count = replyNumbers[this.reply[entry]];
      const first = count > 0 ? rows.number() : 0;
      if (count > 1) {
        rows.number();
      }
      this.follow(entry, first);
    }
    this.groupEntries();
  }

  // Finds what an entry is about, whose row was read. The first number of its reply is given.
  follow(entry, first) {
    const { who, reply, item, queue, about, bookings, running } = this;
    switch (reply[entry]) {
      case REPLY.now:
        this.ticks.push(entry);
        break;
      case REPLY.booked:
      case REPLY.rebooked:
        bookings[item[entry]] = entry;
        break;
      case REPLY.fired:
        item[entry] = first;
        about[entry] = entry;
        break;
      case REPLY.cancelled:
        about[entry] = first;
        break;
      case REPLY.started:
      case REPLY.enlisted:
        about[entry] = first;
        running[who[entry]] = first;
        break;
      case REPLY.finished:
        about[entry] = first;
        running[who[entry]] = NONE;
        break;
      default:
        if (opensOne(reply[entry])) {
          about[entry] = entry;
        }
    }
    // What else a worker does belongs to its run.
    if (about[entry] === NONE && who[entry] >= FIRST_WORKER) {
      about[entry] = running[who[entry]];
    }
    // What is fired was booked for a queue; what is about another entry is about its item and queue.
    if (reply[entry] === REPLY.fired || reply[entry] === REPLY.queued) {
      queue[entry] = queue[bookings[item[entry]]];
    } else if (about[entry] !== NONE) {
      item[entry] = item[entry] === NONE ? item[about[entry]] : item[entry];
      queue[entry] = queue[entry] === NONE ? queue[about[entry]] : queue[entry];
    }
  }

  // Gives each caller and worker that has entries a lane, callers first.
  groupEntries() {
    const used = new Uint8Array(65536);
    for (let entry = 0; entry < this.length; entry++) {
      used[this.who[entry]] = 1;
    }
    this.laneOf = new Int32Array(65536).fill(NONE);
    this.lanes = [];
    used.forEach((isUsed, who) => {
      if (isUsed) {
        this.laneOf[who] = this.lanes.length;
        this.lanes.push({ who, name: nameOf(who), label: this.names.who(who), waitRows: 0, firstWaitRow: 0 });
      }
    });
    const lanes = new Uint16Array(this.length);
    for (let entry = 0; entry < this.length; entry++) {
      lanes[entry] = this.laneOf[this.who[entry]];
    }
    Object.assign(this, grouped(lanes, this.lanes.length));
  }

  // The lane of a wait is a row of its caller's waits. The rows of all callers are numbered one after the other.
  readWaits(rows, count) {
    this.waits = new Spans(count);
    const rowsOf = new Uint32Array(count);
    for (let at = 0; at < count; at++) {
      const lane = this.laneOf[rows.number()];
      rowsOf[at] = rows.number();
      const from = rows.number();
      this.waits.set(at, lane, from, from, rows.number(), this.length - 1);
      this.lanes[lane].waitRows = Math.max(this.lanes[lane].waitRows, rowsOf[at] + 1);
    }
    let waitRows = 0;
    for (const lane of this.lanes) {
      lane.firstWaitRow = waitRows;
      waitRows += lane.waitRows;
    }
    this.waitOf = new Int32Array(this.length).fill(NONE);
    for (let at = 0; at < count; at++) {
      this.waits.lane[at] = this.lanes[this.waits.lane[at]].firstWaitRow + rowsOf[at];
      this.waitOf[this.waits.from[at]] = at;
    }
    this.waits.group(waitRows);
  }

  readRuns(rows, count) {
    this.runs = new Spans(count);
    this.runOf = new Int32Array(this.length).fill(NONE);
    for (let at = 0; at < count; at++) {
      const lane = this.laneOf[rows.number()];
      const queueing = rows.number();
      const from = rows.number();
      this.runs.set(at, lane, queueing, from, rows.number(), this.length - 1);
      this.runOf[queueing] = at;
    }
    this.runs.group(this.lanes.length);
  }

  // A sleep is about the queueing whose run sleeps.
  readSleeps(rows, count) {
    this.sleeps = new Spans(count);
    for (let at = 0; at < count; at++) {
      const lane = this.laneOf[rows.number()];
      const from = rows.number();
      this.sleeps.set(at, lane, Math.max(this.about[from], 0), from, rows.number(), this.length - 1);
    }
    this.sleeps.group(this.lanes.length);
  }

  readLevels(rows, count) {
    const names = ["queue", "cpu", "from", "open", "active", "width"];
    const levels = { length: count };
    names.forEach((name) => {
      levels[name] = new Uint32Array(count);
    });
    const places = new Map();
    const keys = new Uint32Array(count);
    for (let at = 0; at < count; at++) {
      for (let part = 0; part < names.length; part++) {
        levels[names[part]][at] = rows.number();
      }
      keys[at] = levels.queue[at] * 64 + levels.cpu[at];
      places.set(keys[at], Math.max(places.get(keys[at]) ?? LEAST_SCALE, levels.open[at]));
    }
    const sorted = [...places.keys()].sort((one, other) => one - other);
    const indexes = new Map(sorted.map((key, index) => [key, index]));
    this.places = sorted.map((key) => {
      const [queue, cpu] = [Math.floor(key / 64), key % 64];
      return { queue, cpu, label: this.names.place(queue, cpu), scale: places.get(key) };
    });
    for (let at = 0; at < count; at++) {
      keys[at] = indexes.get(keys[at]);
    }
    this.levels = Object.assign(levels, grouped(keys, sorted.length));
  }

  // The positions in `levels.order` of the levels of a place while the entries from one up to another stand.
  levelsWithin(place, from, to) {
    const { starts, order } = this.levels;
    const after = firstIndex(starts[place], starts[place + 1], (at) => this.levels.from[order[at]] > from);
    const end = firstIndex(after, starts[place + 1], (at) => this.levels.from[order[at]] >= to);
    return [Math.max(starts[place], after - 1), end];
  }

  // The positions in `order` of a lane's entries from one up to another.
  entriesWithin(lane, from, to) {
    const { starts, order } = this;
    const first = firstIndex(starts[lane], starts[lane + 1], (at) => order[at] >= from);
    return [first, firstIndex(first, starts[lane + 1], (at) => order[at] >= to)];
  }

  // The row of an entry, in texts.
  rowOf(entry) {
    const end = this.bytes.indexOf(10, this.start[entry]);
    return String.fromCharCode(...this.bytes.subarray(this.start[entry], end)).split(" ");
  }

  serialOf(entry) {
    const lane = this.laneOf[this.who[entry]];
    return this.entriesWithin(lane, entry, entry + 1)[0] - this.starts[lane];
  }

  nameAt(entry) {
    return this.lanes[this.laneOf[this.who[entry]]].name;
  }

  callText(entry) {
    const [name, letters] = CALLS[this.call[entry]];
    return [name, ...this.rowOf(entry).slice(2, 2 + letters.length)].join(" ");
  }

  replyText(entry) {
    const [text] = REPLIES[this.reply[entry]];
    const numbers = this.rowOf(entry).slice(3 + CALLS[this.call[entry]][1].length);
    return text.replaceAll("#", () => numbers.shift());
  }

  // The line of an entry in the history.
  textOf(entry) {
    return `${this.nameAt(entry)} ${this.serialOf(entry)} ${this.callText(entry)} = ${this.replyText(entry)}`;
  }

  // How many ticks have gone by after an entry, as a text.
  tickAt(entry) {
    const after = firstIndex(0, this.ticks.length, (at) => this.ticks[at] > entry);
    return after === 0 ? "0" : this.rowOf(this.ticks[after - 1]).at(-1);
  }
}
