"use strict";

const GUTTER = 92;
const AXIS = 26;
const WAIT_ROW = 9;
const MARK_ROW = 18;
const BAR = 16;
const PLACE_ROW = 34;
const LEVEL_HEIGHT = 26;
const GAP = 8;

// From how many pixels an entry on there are marks of several forms, and numbers of items beside them.
const MARKS_FROM = 5;
const LABELS_FROM = 22;

// At most so many pixels an entry.
const WIDEST = 48;

const COLOURS = ["text", "page", "faint", "line", "open", "active", "width", "chosen", "hatch"];

// The signs of entries that have no mark of their own: runs, sleeps and waits show them.
const UNMARKED = new Set(["started", "finished", "slept", "woke", "done", "waiting"]);

// The window: the entries from one up to another, which may begin and end inside of an entry.
class View {
  constructor(length, from, to) {
    this.length = length;
    this.show(from, to);
  }

  show(from, to) {
    const span = Math.min(Math.max(to - from, 1), Math.max(this.length, 1));
    this.from = Math.min(Math.max(from, 0), Math.max(this.length - span, 0));
    this.to = this.from + span;
  }

  get span() {
    return this.to - this.from;
  }

  zoom(factor, centre, least) {
    const span = Math.max(this.span * factor, least);
    const share = (centre - this.from) / this.span;
    this.show(centre - share * span, centre + (1 - share) * span);
  }

  // The whole entries: from the first that is shown, up to the first that is not.
  get entries() {
    return [Math.floor(this.from), Math.min(Math.ceil(this.to), this.length)];
  }
}

// Draws what a window shows of a history on a canvas, and finds what stands at a point of it.
class Chart {
  constructor(canvas, history, view) {
    this.canvas = canvas;
    this.context = canvas.getContext("2d");
    this.history = history;
    this.view = view;
    this.matches = null;
    this.chosen = NONE;
    this.top = 0;
    this.lay();
    this.takeColours();
  }

  // Stacks the rows: callers with their waits, workers, and queues on CPUs.
  lay() {
    const { lanes, places } = this.history;
    let top = 4;
    const next = (row, height) => {
      const placed = { ...row, top, height };
      top += height + GAP;
      return placed;
    };
    this.rows = lanes.map((lane, index) => {
      const isWorker = lane.who >= FIRST_WORKER;
      const height = isWorker ? BAR + MARK_ROW : MARK_ROW + lane.waitRows * WAIT_ROW;
      return next({ kind: isWorker ? "worker" : "caller", label: lane.label, index, lane }, height);
    });
    const rowOf = (place, index) => ({ kind: "place", label: place.label, index, place });
    this.rows.push(...places.map((place, index) => next(rowOf(place, index), PLACE_ROW)));
    this.height = top;
  }

  takeColours() {
    const style = getComputedStyle(document.documentElement);
    const colour = (name) => style.getPropertyValue(`--${name}`).trim();
    this.colours = Object.fromEntries(COLOURS.map((name) => [name, colour(name)]));
    this.itemColours = Array.from({ length: 10 }, (_, digit) => colour(`item-${digit}`));
    this.hatch = this.hatching();
  }

  hatching() {
    const tile = document.createElement("canvas");
    tile.width = tile.height = 6;
    const context = tile.getContext("2d");
    context.strokeStyle = this.colours.hatch;
    context.lineWidth = 1.5;
    context.beginPath();
    context.moveTo(-1, 7);
    context.lineTo(7, -1);
    context.moveTo(-1, 1);
    context.lineTo(1, -1);
    context.moveTo(5, 7);
    context.lineTo(7, 5);
    context.stroke();
    return this.context.createPattern(tile, "repeat");
  }

  // Fits the canvas to its place on the page, on screens of any resolution.
  resize() {
    const ratio = window.devicePixelRatio || 1;
    this.wide = this.canvas.clientWidth;
    this.high = this.canvas.clientHeight;
    this.canvas.width = Math.round(this.wide * ratio);
    this.canvas.height = Math.round(this.high * ratio);
    this.context.setTransform(ratio, 0, 0, ratio, 0, 0);
  }

  // How many pixels wide an entry is.
  get scale() {
    return (this.wide - GUTTER) / this.view.span;
  }

  get leastSpan() {
    return Math.min((this.wide - GUTTER) / WIDEST, Math.max(this.history.length, 1));
  }

  xOf(entry) {
    return GUTTER + (entry - this.view.from) * this.scale;
  }

  entryAt(x) {
    return this.view.from + (x - GUTTER) / this.scale;
  }

  isFaint(entry) {
    return this.matches !== null && entry !== NONE && this.matches[entry] === 0;
  }

  colourOf(item) {
    return item === NONE ? this.colours.text : this.itemColours[item % 10];
  }

  draw() {
    const { context, colours } = this;
    context.fillStyle = colours.page;
    context.fillRect(0, 0, this.wide, this.high);
    context.font = "11px sans-serif";
    context.textBaseline = "middle";
    const shown = this.rows.filter((row) => row.top + row.height >= this.top && row.top <= this.top + this.high);
    this.drawGrid();
    context.save();
    context.beginPath();
    context.rect(GUTTER, AXIS, this.wide - GUTTER, this.high - AXIS);
    context.clip();
    this.drawChosen();
    for (const row of shown) {
      const y = AXIS + row.top - this.top;
      if (row.kind === "place") {
        this.drawLevels(row, y);
      } else if (row.kind === "worker") {
        this.drawSpans(this.history.runs, row.index, y, BAR, (run) => this.runColour(run));
        this.drawSpans(this.history.sleeps, row.index, y, BAR, () => this.hatch);
        this.drawRunItems(row.index, y);
        this.drawMarks(row, y + BAR + MARK_ROW / 2);
      } else {
        this.drawMarks(row, y + MARK_ROW / 2);
        this.drawWaits(row, y + MARK_ROW);
      }
    }
    context.restore();
    this.drawNames(shown);
  }

  // The step between numbers of entries: 1, 2 or 5, or one of these with zeros, so that they stand apart.
  get step() {
    const least = 70 / this.scale;
    const power = 10 ** Math.max(Math.floor(Math.log10(least)), 0);
    return [1, 2, 5, 10].map((times) => times * power).find((step) => step >= least) ?? 10 * power;
  }

  drawGrid() {
    const { context, colours, step } = this;
    const [from, to] = this.view.entries;
    context.textAlign = "center";
    for (let entry = Math.ceil(from / step) * step; entry < to; entry += step) {
      const x = this.xOf(entry + 0.5);
      if (x < GUTTER) {
        continue;
      }
      context.fillStyle = colours.line;
      context.fillRect(x - 0.5, AXIS - 6, 1, this.high);
      context.fillStyle = colours.text;
      context.fillText(entry.toLocaleString("en"), Math.min(x, this.wide - 30), 10);
    }
  }

  drawChosen() {
    if (this.chosen !== NONE) {
      this.context.fillStyle = this.colours.chosen;
      this.context.fillRect(this.xOf(this.chosen), 0, Math.max(this.scale, 2), this.high);
    }
  }

  drawNames(shown) {
    const { context, colours } = this;
    context.save();
    context.beginPath();
    context.rect(0, AXIS, GUTTER, this.high - AXIS);
    context.clip();
    context.textAlign = "right";
    for (const row of shown) {
      const y = AXIS + row.top - this.top;
      context.fillStyle = colours.text;
      const label = this.cutTo(row.label, GUTTER - 12);
      context.fillText(label, GUTTER - 8, y + (row.kind === "caller" ? MARK_ROW / 2 : BAR / 2));
      if (row.kind === "place") {
        context.fillStyle = colours.faint;
        context.fillText(`0 to ${row.place.scale}`, GUTTER - 8, y + BAR / 2 + 13);
      }
    }
    context.restore();
  }

  runColour(run) {
    return this.colourOf(this.history.item[this.history.runs.about[run]]);
  }

  // Draws spans as bars. What would be narrower than a pixel is as wide as one, and of several in a pixel the first is
  // drawn.
  drawSpans(spans, lane, y, high, colour) {
    const { context, colours } = this;
    const [from, to] = this.view.entries;
    const [first, end] = spans.within(lane, from, to);
    const hasEdges = this.scale > 3;
    let drawnTo = 0;
    for (let at = first; at < end; at++) {
      const span = spans.order[at];
      const left = Math.max(Math.round(this.xOf(spans.from[span])), drawnTo, GUTTER - 2);
      const right = Math.min(Math.round(this.xOf(spans.to[span] + 1)), this.wide + 2);
      if (right <= left && drawnTo > left - 1) {
        continue;
      }
      const wide = Math.max(right - left, 1);
      context.globalAlpha = this.isFaint(spans.about[span]) ? 0.2 : 1;
      context.fillStyle = colour(span);
      context.fillRect(left, y, wide, high);
      if (hasEdges) {
        context.strokeStyle = colours.text;
        context.lineWidth = 0.7;
        context.strokeRect(left + 0.5, y + 0.5, wide - 1, high - 1);
      }
      drawnTo = left + wide;
    }
    context.globalAlpha = 1;
  }

  // A text, or as much of it as there is room for.
  cutTo(text, room) {
    const fits = (shown) => this.context.measureText(shown).width <= room;
    if (text.length <= 64 && fits(text)) {
      return text;
    }
    const letters = [...text.slice(0, 64)];
    while (letters.length > 1 && !fits(`${letters.join("")}\u2026`)) {
      letters.pop();
    }
    return `${letters.join("")}\u2026`;
  }

  // The item of each run: its name, or its number, if the bar is wide enough for one of them.
  drawRunItems(lane, y) {
    const { context, colours, history } = this;
    const { runs } = history;
    const [from, to] = this.view.entries;
    const [first, end] = runs.within(lane, from, to);
    if ((end - first) * 16 > this.wide) {
      return;
    }
    context.textAlign = "center";
    context.lineWidth = 3;
    for (let at = first; at < end; at++) {
      const run = runs.order[at];
      const left = Math.max(this.xOf(runs.from[run]), GUTTER);
      const right = Math.min(this.xOf(runs.to[run] + 1), this.wide);
      const item = history.item[runs.about[run]];
      const room = right - left - 6;
      const name = this.cutTo(history.names.item(item), room);
      const text = name.endsWith("\u2026") && name.length < 5 ? String(item) : name;
      if (room > context.measureText(text).width) {
        context.globalAlpha = this.isFaint(runs.about[run]) ? 0.3 : 1;
        context.strokeStyle = colours.page;
        context.strokeText(text, (left + right) / 2, y + BAR / 2 + 0.5);
        context.fillStyle = colours.text;
        context.fillText(text, (left + right) / 2, y + BAR / 2 + 0.5);
      }
    }
    context.globalAlpha = 1;
  }

  // The marks of a caller or a worker. Where entries are narrow, a mark is a line.
  drawMarks(row, y) {
    const { context, history, scale } = this;
    const [from, to] = this.view.entries;
    const [first, end] = history.entriesWithin(row.index, from, to);
    const hasLabels = scale >= LABELS_FROM;
    let drawn = NONE;
    for (let at = first; at < end; at++) {
      const entry = history.order[at];
      const sign = replySigns[history.reply[entry]];
      if (UNMARKED.has(sign)) {
        continue;
      }
      const x = this.xOf(entry + 0.5);
      if (scale < MARKS_FROM) {
        const left = Math.floor(x);
        if (left === drawn) {
          continue;
        }
        drawn = left;
        context.globalAlpha = this.isFaint(entry) ? 0.15 : 1;
        context.fillStyle = this.colourOf(sign === "refused" ? NONE : history.item[entry]);
        context.fillRect(left, y - 5, 1, 10);
        continue;
      }
      context.globalAlpha = this.isFaint(entry) ? 0.2 : 1;
      this.drawMark(sign, x, y, history.item[entry]);
      if (hasLabels && history.item[entry] !== NONE) {
        context.textAlign = "left";
        context.fillStyle = this.colours.text;
        context.fillText(history.item[entry], x + 6, y);
      }
    }
    context.globalAlpha = 1;
  }

  drawMark(sign, x, y, item) {
    const { context, colours } = this;
    const size = Math.min(4, this.scale / 2);
    const path = (...points) => {
      context.beginPath();
      points.forEach(([dx, dy], at) => {
        context[at === 0 ? "moveTo" : "lineTo"](x + dx * size, y + dy * size);
      });
      context.closePath();
    };
    context.strokeStyle = colours.text;
    context.lineWidth = 1;
    context.fillStyle = this.colourOf(item);
    switch (sign) {
      case "queued":
        path([-1, -1], [1, -1], [0, 1.2]);
        break;
      case "delayed":
      case "fired":
        path([0, -1.2], [1, 0], [0, 1.2], [-1, 0]);
        break;
      case "waits":
        path([-1, -1], [1, 0], [-1, 1]);
        context.fillStyle = colours.text;
        break;
      case "changed":
        path([-1, -1], [1, -1], [1, 1], [-1, 1]);
        break;
      case "cancelled":
        context.lineWidth = 2;
        path([-1, -1], [0, 0], [1, -1], [0, 0], [1, 1], [0, 0], [-1, 1], [0, 0]);
        context.stroke();
        return;
      case "tick":
        path([0, -2], [0, 2]);
        context.lineWidth = 1.5;
        context.stroke();
        return;
      case "done":
      case "waiting":
        context.beginPath();
        context.arc(x, y, size * 0.8, 0, 2 * Math.PI);
        context.fillStyle = colours.text;
        break;
      default:
        context.beginPath();
        context.arc(x, y, Math.min(1.6, size), 0, 2 * Math.PI);
        context.fillStyle = colours.faint;
        context.fill();
        return;
    }
    if (sign !== "delayed" && sign !== "changed" && sign !== "waiting") {
      context.fill();
    }
    context.stroke();
  }

  // The waits of a caller in their rows, and a ring or a dot for each entry that asked for the end of one.
  drawWaits(row, y) {
    const { history, colours, scale } = this;
    const { waits, reply, about, waitOf } = history;
    for (let at = 0; at < row.lane.waitRows; at++) {
      const top = y + at * WAIT_ROW + 1;
      this.drawSpans(waits, row.lane.firstWaitRow + at, top, WAIT_ROW - 3, () => colours.line);
    }
    if (scale < MARKS_FROM || row.lane.waitRows === 0) {
      return;
    }
    const [first, end] = history.entriesWithin(row.index, ...this.view.entries);
    for (let at = first; at < end; at++) {
      const entry = history.order[at];
      if (reply[entry] === REPLY.done || reply[entry] === REPLY.waiting) {
        const waitRow = waits.lane[waitOf[about[entry]]] - row.lane.firstWaitRow;
        this.context.globalAlpha = this.isFaint(entry) ? 0.2 : 1;
        const middle = y + (waitRow + 0.5) * WAIT_ROW - 0.5;
        this.drawMark(replySigns[reply[entry]], this.xOf(entry + 0.5), middle, NONE);
      }
    }
    this.context.globalAlpha = 1;
  }

  // How many are open and active on a place, and the width. Of several levels in a pixel the greatest numbers are
  // drawn.
  drawLevels(row, y) {
    const { context, colours, history } = this;
    const { levels } = history;
    const [from, to] = this.view.entries;
    const [first, end] = history.levelsWithin(row.index, from, to);
    const { scale } = row.place;
    const base = y + LEVEL_HEIGHT;
    const heightOf = (count) => Math.min(count / scale, 1) * LEVEL_HEIGHT;
    const draw = (left, right, open, active, width) => {
      const wide = right - left;
      context.fillStyle = colours.open;
      context.fillRect(left, base - heightOf(open), wide, heightOf(open));
      context.fillStyle = colours.active;
      context.fillRect(left, base - heightOf(active), wide, heightOf(active));
      context.fillStyle = colours.width;
      // A width beyond the scale is drawn as a dotted line above it.
      const isBeyond = width > scale;
      const line = isBeyond ? y - 2 : base - heightOf(width) - 0.5;
      for (let x = left; x < right; x += isBeyond ? 6 : 4) {
        context.fillRect(x, line, Math.min(isBeyond ? 1.5 : 2.5, right - x), 1.5);
      }
    };
    context.globalAlpha = this.filterQueue !== undefined && this.filterQueue !== row.place.queue ? 0.2 : 1;
    let [open, active, width, left] = [0, 0, 0, GUTTER];
    for (let at = first; at < end; at++) {
      const level = levels.order[at];
      const next = at + 1 < end ? levels.from[levels.order[at + 1]] : to;
      const right = Math.min(Math.round(this.xOf(next)), this.wide);
      open = Math.max(open, levels.open[level]);
      active = Math.max(active, levels.active[level]);
      width = levels.width[level];
      if (right > left) {
        draw(left, right, open, active, width);
        [open, active, left] = [0, 0, right];
      }
    }
    context.fillStyle = colours.line;
    context.fillRect(GUTTER, base, this.wide - GUTTER, 1);
    context.globalAlpha = 1;
  }

  // The entry that stands at a point, and the run, sleep or wait there.
  pick(x, y) {
    if (x < GUTTER || this.history.length === 0) {
      return null;
    }
    const column = Math.min(Math.max(Math.floor(this.entryAt(x)), 0), this.history.length - 1);
    const below = y - AXIS + this.top;
    const row = this.rows.find((it) => below >= it.top && below < it.top + it.height);
    if (row === undefined || row.kind === "place") {
      return column;
    }
    const { history } = this;
    const near = this.nearest(row.index, x);
    if (row.kind === "worker" && below < row.top + BAR) {
      const run = history.runs.at(row.index, column);
      return near ?? (run === NONE ? column : history.runs.from[run]);
    }
    if (row.kind === "caller" && below >= row.top + MARK_ROW) {
      const waitRow = row.lane.firstWaitRow + Math.floor((below - row.top - MARK_ROW) / WAIT_ROW);
      const wait = history.waits.at(waitRow, column);
      return wait === NONE ? column : history.waits.from[wait];
    }
    return near ?? column;
  }

  // The entry of a lane that is nearest to a place, if it is within some pixels.
  nearest(lane, x) {
    const reach = 7 / this.scale;
    const centre = this.entryAt(x) - 0.5;
    const [first, end] = this.history.entriesWithin(lane, centre - reach, centre + reach);
    let nearest = null;
    for (let at = first; at < end; at++) {
      const entry = this.history.order[at];
      if (nearest === null || Math.abs(entry - centre) < Math.abs(nearest - centre)) {
        nearest = entry;
      }
    }
    return nearest;
  }
}
