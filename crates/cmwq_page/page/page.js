"use strict";

// At most so many rows in a table.
const MOST_ROWS = 300;

const byId = (id) => document.getElementById(id);

function element(name, text, attributes = {}) {
  const made = document.createElement(name);
  made.textContent = text;
  Object.assign(made, attributes);
  return made;
}

const counted = (count, one, many = `${one}s`) => `${count.toLocaleString("en")} ${count === 1 ? one : many}`;

// The entries that the filters let through, as a byte for each, or null if they let all through. An entry is of an item
// or a queue if it is about one of its queueings or waits, and of a caller if it made it or what it is about.
function matching(history, { item, queue, caller }) {
  if (item === undefined && queue === undefined && caller === undefined) {
    return null;
  }
  const matches = new Uint8Array(history.length);
  for (let entry = 0; entry < history.length; entry++) {
    const about = history.about[entry];
    const isOfCaller = history.who[entry] === caller || (about !== NONE && history.who[about] === caller);
    matches[entry] = (item === undefined || history.item[entry] === item)
      && (queue === undefined || history.queue[entry] === queue)
      && (caller === undefined || isOfCaller) ? 1 : 0;
  }
  return matches;
}

// The window as tables of at most MOST_ROWS rows.
class Tables {
  constructor(history) {
    this.history = history;
  }

  show(view, matches) {
    const [from, to] = view.entries;
    this.from = from;
    this.to = to;
    this.isShown = matches === null ? () => true : (entry) => matches[entry] === 1;
    this.fill("entries", "entry", "entries", this.entries());
    this.fill("spans", "run, sleep or wait", "runs, sleeps and waits", this.spans());
    this.fill("levels", "level of a queue", "levels of queues", this.levels());
  }

  // Shows the first rows. There are too many to make all of them, so a list of lists says how many there are, and makes
  // the cells of each when asked.
  fill(id, one, many, lists) {
    const body = document.createDocumentFragment();
    let count = 0;
    for (const { first, end, isShown, cells } of lists) {
      for (let at = first; at < end; at++) {
        if (isShown(at)) {
          count++;
          if (count <= MOST_ROWS) {
            const row = document.createElement("tr");
            row.append(...cells(at).map((cell) => element("td", cell)));
            body.append(row);
          }
        }
      }
    }
    const table = byId(id);
    const shown = count > MOST_ROWS ? `the first ${MOST_ROWS} of ` : "";
    table.caption.textContent = `Entries ${this.from} up to ${this.to}: ${shown}${counted(count, one, many)}`;
    table.tBodies[0].replaceChildren(body);
  }

  entries() {
    const { history } = this;
    const cells = (entry) => [
      entry, history.tickAt(entry), history.nameAt(entry), history.serialOf(entry), history.callText(entry),
      history.replyText(entry),
    ];
    return [{ first: this.from, end: this.to, isShown: this.isShown, cells }];
  }

  spans() {
    const { waits, runs, sleeps, lanes, item, names } = this.history;
    const runOf = (queueing) => `runs item ${names.item(item[queueing])}, queueing ${queueing}`;
    return lanes.flatMap((lane, index) => {
      const rows = Array.from({ length: lane.waitRows }, (_, row) => lane.firstWaitRow + row);
      return [
        ...rows.map((row) => this.within(waits, row, lane.label, (ticket) => `waits, ticket ${ticket}`)),
        this.within(runs, index, lane.label, runOf),
        this.within(sleeps, index, lane.label, (queueing) => `sleeps, queueing ${queueing}`),
      ];
    });
  }

  within(spans, lane, name, what) {
    const [first, end] = spans.within(lane, this.from, this.to);
    const isShown = (at) => this.isShown(spans.about[spans.order[at]]);
    const cells = (at) => {
      const span = spans.order[at];
      return [name, what(spans.about[span]), spans.from[span], spans.to[span], spans.goesOn[span] ? "no" : "yes"];
    };
    return { first, end, isShown, cells };
  }

  levels() {
    const { levels, places } = this.history;
    return places.map((place, index) => {
      const [first, end] = this.history.levelsWithin(index, this.from, this.to);
      const cells = (at) => {
        const level = levels.order[at];
        const [from, open, active, width] = ["from", "open", "active", "width"].map((name) => levels[name][level]);
        return [this.history.names.queue(place.queue), place.cpu, from, open, active, width];
      };
      return { first, end, isShown: () => true, cells };
    });
  }
}

// The names of the caller, item and queue of an entry, as far as they have some.
function namedIn(history, entry) {
  const { names, who, item, queue } = history;
  const named = [
    ["caller", names.of("callers", who[entry] < FIRST_WORKER ? who[entry] : NONE)],
    ["item", names.of("items", item[entry])],
    ["queue", names.of("queues", queue[entry])],
  ];
  return named.filter(([, name]) => name !== undefined).map(([kind, name]) => `, ${kind} ${name}`).join("");
}

// What is told of the chosen entry: its line, and the entries that belong to the same queueing or wait.
function detailsOf(history, entry, choose) {
  const about = history.about[entry];
  const to = (text, other) => {
    const line = document.createElement("li");
    const onclick = () => choose(other);
    const button = element("button", `entry ${other}`, { className: "to", type: "button", onclick });
    line.append(`${text} at `, button, `: ${history.textOf(other)}`);
    return line;
  };
  const lines = [];
  if (about !== NONE) {
    const run = history.runOf[about];
    const wait = history.waitOf[about];
    lines.push(to(wait === NONE ? "queued" : "began to wait", about));
    if (run !== NONE) {
      lines.push(to("started", history.runs.from[run]));
      lines.push(history.runs.goesOn[run] ? element("li", "has not finished") : to("finished", history.runs.to[run]));
    }
    if (wait !== NONE) {
      lines.push(history.waits.goesOn[wait] ? element("li", "still waits") : to("has waited", history.waits.to[wait]));
    }
  }
  const list = document.createElement("ul");
  list.append(...lines);
  const line = document.createElement("p");
  line.append(`Entry ${entry}, tick ${history.tickAt(entry)}: `, element("code", history.textOf(entry)));
  line.append(namedIn(history, entry));
  return [line, list];
}

class Page {
  constructor(history) {
    this.history = history;
    this.view = new View(history.length, ...history.window);
    this.chart = new Chart(byId("canvas"), history, this.view);
    this.tables = new Tables(history);
    this.filters = {};
    this.matches = null;
    this.listen();
    this.resize();
    this.readPlace();
  }

  listen() {
    const { chart } = this;
    const scroller = byId("chart");
    new ResizeObserver(() => this.resize()).observe(scroller);
    scroller.addEventListener("scroll", () => this.draw());
    scroller.addEventListener("wheel", (event) => this.wheel(event), { passive: false });
    scroller.addEventListener("pointerdown", (event) => this.drag(event));
    scroller.addEventListener("pointermove", (event) => this.hover(event));
    scroller.addEventListener("keydown", (event) => this.key(event));
    byId("overview").addEventListener("pointerdown", (event) => this.dragOverview(event));
    byId("closer").onclick = () => this.zoom(0.5);
    byId("wider").onclick = () => this.zoom(2);
    byId("whole").onclick = () => this.show(0, this.history.length);
    byId("search").addEventListener("submit", (event) => {
      event.preventDefault();
      this.search();
    });
    byId("filters").addEventListener("input", () => this.filter());
    byId("filters").addEventListener("submit", (event) => event.preventDefault());
    byId("filters").addEventListener("reset", () => setTimeout(() => this.filter()));
    window.addEventListener("hashchange", () => this.readPlace());
    document.addEventListener("themed", () => {
      chart.takeColours();
      this.draw();
    });
  }

  resize() {
    byId("rows").style.height = `${this.chart.height + AXIS}px`;
    byId("canvas").style.height = `${Math.min(this.chart.height + AXIS, Math.round(window.innerHeight * 0.65))}px`;
    this.chart.resize();
    this.draw();
  }

  // Draws before the next picture of the screen, and tells of the window once it rests.
  draw() {
    clearTimeout(this.timer);
    this.timer = setTimeout(() => this.tell(), 150);
    if (this.isDue) {
      return;
    }
    this.isDue = true;
    requestAnimationFrame(() => {
      this.isDue = false;
      this.chart.top = byId("chart").scrollTop;
      this.chart.draw();
      this.drawOverview();
    });
  }

  tell() {
    const [from, to] = this.view.entries;
    const all = this.history.length.toLocaleString("en");
    let text = `Entries ${from.toLocaleString("en")} up to ${to.toLocaleString("en")} of ${all}`;
    if (this.matches !== null) {
      let count = 0;
      for (let entry = 0; entry < this.matches.length; entry++) {
        count += this.matches[entry];
      }
      text += `; the filters let ${counted(count, "entry", "entries")} of all through`;
    }
    byId("window").textContent = text;
    this.tables.show(this.view, this.matches);
    this.writePlace();
  }

  // The address of the page says the window and the chosen entry, so that a link leads there.
  writePlace() {
    const [from, to] = this.view.entries;
    const chosen = this.chart.chosen === NONE ? "" : `&entry=${this.chart.chosen}`;
    this.place = `#from=${from}&to=${to}${chosen}`;
    try {
      window.history.replaceState(null, "", this.place);
    } catch {
      // Where a page may not do this, it goes on without.
    }
  }

  readPlace() {
    if (location.hash === this.place) {
      return;
    }
    const place = new URLSearchParams(location.hash.slice(1));
    const number = (name) => (/^\d+$/.test(place.get(name) ?? "") ? Number(place.get(name)) : undefined);
    const [from, to, entry] = [number("from"), number("to"), number("entry")];
    if (from !== undefined && to !== undefined && from < to) {
      this.show(from, to);
    }
    if (entry !== undefined && entry < this.history.length) {
      this.choose(entry);
    }
  }

  show(from, to) {
    this.view.show(from, to);
    this.draw();
  }

  zoom(factor, x = GUTTER + (this.chart.wide - GUTTER) / 2) {
    this.view.zoom(factor, this.chart.entryAt(x), this.chart.leastSpan);
    this.draw();
  }

  move(entries) {
    this.show(this.view.from + entries, this.view.to + entries);
  }

  scroll(pixels) {
    byId("chart").scrollBy(0, pixels);
  }

  pointOf(event) {
    const box = this.chart.canvas.getBoundingClientRect();
    return [event.clientX - box.left, event.clientY - box.top];
  }

  wheel(event) {
    const [x] = this.pointOf(event);
    const unit = event.deltaMode === WheelEvent.DOM_DELTA_PIXEL ? 1 : 30;
    const along = event.shiftKey && event.deltaX === 0 ? event.deltaY : event.deltaX;
    if (x < GUTTER && along === 0) {
      return;
    }
    event.preventDefault();
    if (along !== 0) {
      this.move((along * unit) / this.chart.scale);
    } else {
      this.zoom(2 ** ((event.deltaY * unit) / 200), x);
    }
  }

  // Moves as far as the pointer is dragged. One that comes up where it went down has chosen.
  drag(event) {
    if (event.button !== 0) {
      return;
    }
    const scroller = byId("chart");
    const [x, y] = [event.clientX, event.clientY];
    const { from, to } = this.view;
    const top = scroller.scrollTop;
    let hasMoved = false;
    const moved = (next) => {
      hasMoved = hasMoved || Math.hypot(next.clientX - x, next.clientY - y) > 3;
      if (hasMoved) {
        const entries = (x - next.clientX) / this.chart.scale;
        this.show(from + entries, to + entries);
        scroller.scrollTop = top + y - next.clientY;
      }
    };
    const ended = (last) => {
      scroller.removeEventListener("pointermove", moved);
      scroller.removeEventListener("pointerup", ended);
      scroller.removeEventListener("pointercancel", ended);
      if (!hasMoved && last.type === "pointerup") {
        const entry = this.chart.pick(...this.pointOf(last));
        if (entry !== null) {
          this.choose(entry);
        }
      }
    };
    scroller.setPointerCapture(event.pointerId);
    scroller.addEventListener("pointermove", moved);
    scroller.addEventListener("pointerup", ended);
    scroller.addEventListener("pointercancel", ended);
  }

  hover(event) {
    const entry = event.buttons === 0 ? this.chart.pick(...this.pointOf(event)) : null;
    byId("chart").title = entry === null ? "" : `${entry}: ${this.history.textOf(entry)}`;
  }

  dragOverview(event) {
    const overview = byId("overview");
    const moveTo = ({ clientX }) => {
      const box = overview.getBoundingClientRect();
      const centre = ((clientX - box.left - GUTTER) / (box.width - GUTTER)) * this.history.length;
      this.show(centre - this.view.span / 2, centre + this.view.span / 2);
    };
    overview.setPointerCapture(event.pointerId);
    overview.onpointermove = (next) => next.buttons !== 0 && moveTo(next);
    moveTo(event);
  }

  // The whole history as a strip: where entries match, and which of them the window shows.
  drawOverview() {
    const { history, matches, view } = this;
    const { colours } = this.chart;
    const canvas = byId("overview");
    const ratio = window.devicePixelRatio || 1;
    const [wide, high] = [canvas.clientWidth, canvas.clientHeight];
    canvas.width = Math.round(wide * ratio);
    canvas.height = Math.round(high * ratio);
    const context = canvas.getContext("2d");
    context.setTransform(ratio, 0, 0, ratio, 0, 0);
    const scale = (wide - GUTTER) / Math.max(history.length, 1);
    context.fillStyle = colours.open;
    if (matches === null) {
      context.fillRect(GUTTER, 8, wide - GUTTER, 12);
    } else {
      this.shares ??= sharesOf(matches, Math.max(Math.floor(wide - GUTTER), 1));
      this.shares.forEach((share, at) => {
        const height = share === 0 ? 0 : Math.max(share * 12, 2);
        context.fillRect(GUTTER + at, 20 - height, 1, height);
      });
    }
    context.strokeStyle = colours.text;
    context.lineWidth = 1.5;
    context.strokeRect(GUTTER + view.from * scale, 4, Math.max(view.span * scale - 1, 3), 20);
    context.fillStyle = colours.faint;
    context.font = "11px sans-serif";
    context.textAlign = "right";
    context.textBaseline = "middle";
    context.fillText("all", GUTTER - 8, 14);
  }

  key(event) {
    if (event.ctrlKey || event.metaKey || event.altKey) {
      return;
    }
    const { history, view } = this;
    const actions = {
      ArrowLeft: () => this.move(-view.span / 8),
      ArrowRight: () => this.move(view.span / 8),
      ArrowUp: () => this.scroll(-40),
      ArrowDown: () => this.scroll(40),
      Home: () => this.show(0, view.span),
      End: () => this.show(history.length - view.span, history.length),
      "+": () => this.zoom(0.5),
      "=": () => this.zoom(0.5),
      "-": () => this.zoom(2),
      0: () => this.show(0, history.length),
      n: () => this.step(1),
      p: () => this.step(-1),
      "/": () => byId("entry").focus(),
    };
    const action = actions[event.key.length === 1 ? event.key.toLowerCase() : event.key];
    if (action !== undefined) {
      event.preventDefault();
      action();
    }
  }

  // Chooses the next entry that the filters let through, in this direction.
  step(by) {
    const { chosen } = this.chart;
    let entry = chosen === NONE ? (by > 0 ? this.view.entries[0] : this.view.entries[1] - 1) : chosen + by;
    while (entry >= 0 && entry < this.history.length && this.chart.isFaint(entry)) {
      entry += by;
    }
    if (entry >= 0 && entry < this.history.length) {
      this.choose(entry);
    }
  }

  choose(entry) {
    this.chart.chosen = entry;
    byId("chosen").replaceChildren(...detailsOf(this.history, entry, (other) => this.choose(other)));
    const { view } = this;
    if (entry < view.from || entry + 1 > view.to) {
      this.show(entry - view.span / 2, entry + view.span / 2);
    }
    this.draw();
  }

  // Chooses the entry with the number that was asked for, so near that it can be seen apart.
  search() {
    const input = byId("entry");
    const entry = Number(input.value);
    const isOne = /^\s*\d+\s*$/.test(input.value) && entry < this.history.length;
    input.setCustomValidity(isOne ? "" : `There are ${counted(this.history.length, "entry", "entries")}, from 0.`);
    if (!isOne) {
      input.reportValidity();
      return;
    }
    const span = Math.min(this.view.span, 120);
    this.view.show(entry + 0.5 - span / 2, entry + 0.5 + span / 2);
    this.choose(entry);
  }

  filter() {
    this.filters = {};
    for (const name of ["item", "queue", "caller"]) {
      const input = byId(name);
      const digits = input.value.trim().replace(/^[a-z](?=\d)/, "");
      const isNumber = /^\d+$/.test(digits);
      input.setCustomValidity(isNumber || digits === "" ? "" : `The number of one ${name}`);
      if (isNumber) {
        this.filters[name] = Number(digits);
      }
    }
    this.matches = matching(this.history, this.filters);
    this.shares = undefined;
    this.chart.matches = this.matches;
    this.chart.filterQueue = this.filters.queue;
    this.draw();
  }
}

// Which share of the entries matches in each of so many parts of the history.
function sharesOf(matches, parts) {
  const shares = new Float64Array(parts);
  for (let entry = 0; entry < matches.length; entry++) {
    shares[Math.floor((entry * parts) / matches.length)] += (matches[entry] * parts) / matches.length;
  }
  return shares;
}

// Light or dark, as the system has it unless the reader chose.
function followTheme() {
  const system = matchMedia("(prefers-color-scheme: dark)");
  const select = byId("theme");
  const apply = () => {
    document.documentElement.dataset.theme = select.value || (system.matches ? "dark" : "light");
    document.dispatchEvent(new Event("themed"));
  };
  system.addEventListener("change", apply);
  select.addEventListener("change", apply);
  apply();
}

document.addEventListener("DOMContentLoaded", () => {
  followTheme();
  if (byId("end") === null) {
    byId("summary").textContent = "This file is cut off: it does not have the whole history.";
    return;
  }
  const source = byId("history");
  const script = byId("names");
  const names = new Names(script === null ? null : JSON.parse(script.textContent));
  const made = new History(new TextEncoder().encode(source.textContent.trimStart()), names);
  source.remove();
  const ticks = made.length === 0 ? "0" : made.tickAt(made.length - 1);
  const unit = ticks === "1" ? "tick" : "ticks";
  byId("summary").textContent = `${counted(made.length, "entry", "entries")}, ${ticks} ${unit}`;
  window.page = new Page(made);
});
