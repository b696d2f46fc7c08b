"use strict";
// Time from left to right: a lane for each machine, and below a strip for each word that is followed. lanes.py draws the same without
// a browser: check/test_pictures.py compares the two, text by text.

const PAUSE_UNITS = 12, LANE = 50, STRIP = 26, AXIS = 34;
const PHASES = ["idle", "marking", "evacuating", "updating"];
const SMALL = new Set(["unit-text", "pause-text", "band-text"]);
const TICKS_FROM = 5, CODES_FROM = 16;

// The first place in a sorted list from which on a test holds.
function first(count, holds) {
  let from = 0, to = count;
  while (from < to) {
    const middle = (from + to) >> 1;
    if (holds(middle)) to = middle;
    else from = middle + 1;
  }
  return from;
}

class Lanes {
  constructor(run, words) {
    Object.assign(this, { run, words, writes: run.writes(), zoom: 10, left: 0, width: 1000, label: 84, cursor: 0 });
    const pauses = new Uint8Array(run.count);
    for (const [row] of run.pauses) pauses[row] = 1;
    this.units = new Float64Array(run.count + 1);
    for (let row = 0; row < run.count; row += 1) this.units[row + 1] = this.units[row] + (pauses[row] ? PAUSE_UNITS : 1);
    this.byMachine = (list) => run.machines.map((_, machine) => list.filter((it) => it[0] === machine));
    this.calls = this.byMachine(run.calls);
    this.waits = this.byMachine(run.waits);
    this.unitsOf = this.byMachine(run.units);
  }

  get total() {
    return this.units[this.run.count];
  }

  get room() {
    return this.width - this.label;
  }

  // The lowest zoom, with which all can be seen.
  get lowest() {
    return this.room / this.total;
  }

  x(row) {
    return Math.round((this.label + (this.units[row] - this.left) * this.zoom) * 10) / 10;
  }

  middle(row) {
    return (this.x(row) + this.x(row + 1)) / 2;
  }

  // The row at a place of the picture.
  rowAt(x) {
    const unit = this.left + (x - this.label) / this.zoom;
    return Math.max(0, Math.min(this.run.count - 1, first(this.run.count, (row) => this.units[row + 1] > unit)));
  }

  // Moves the part that is seen so that it lies within the run.
  bound() {
    this.zoom = Math.min(Math.max(this.zoom, this.lowest), 60);
    this.left = Math.max(0, Math.min(this.left, this.total - this.room / this.zoom));
  }

  // Moves the part that is seen so that it has a row, with some rows round it.
  show(row) {
    const at = this.units[row], seen = this.room / this.zoom, margin = Math.min(seen / 8, 40);
    if (at < this.left + margin) this.left = at - margin;
    if (at > this.left + seen - margin) this.left = at - seen + margin;
    this.bound();
  }

  lane(machine) {
    return AXIS + machine * LANE;
  }

  strip(number) {
    return AXIS + this.run.machines.length * LANE + 18 + number * STRIP;
  }

  get height() {
    return this.strip(this.words.length) + 4;
  }

  // The spans of a list, sorted by their begin, that are seen; where they lie closer than they can be seen, some stand for all.
  *seen(list, begin, end) {
    let at = first(list.length, (it) => end(list[it]) >= this.from);
    while (at < list.length && begin(list[at]) <= this.to) {
      yield list[at];
      const edge = this.x(begin(list[at])) + 2;
      at += 1;
      if (at < list.length && this.x(begin(list[at])) < edge) {
        const here = at;
        at += first(list.length - here, (it) => this.x(begin(list[here + it])) >= edge);
      }
    }
  }

  text(kind, x, y, text, wide, row) {
    const most = Math.floor((wide - 4) / (SMALL.has(kind) ? 6.1 : 6.7));
    if (most < 2 || (most < 4 && text.length > most)) return;
    const shown = text.length > most ? `${text.slice(0, most - 1)}…` : text;
    this.parts.push(`<text class="${kind}" x="${x}" y="${y}"${row === undefined ? "" : ` data-row="${row}"`}>${escaped(shown)}</text>`);
  }

  rect(kind, row, from, to, y, height, title) {
    const x = Math.max(from, this.label), wide = Math.min(to, this.width) - x;
    if (wide <= 0) return 0;
    this.parts.push(
      `<rect class="${kind}" data-row="${row}" x="${x}" y="${y}" width="${Math.max(Math.round(wide * 10) / 10 - 1, 1)}" height="${height}" rx="3">` +
        `<title>${escaped(title)}</title></rect>`,
    );
    return wide;
  }

  draw() {
    this.bound();
    this.parts = [];
    this.from = this.rowAt(this.label);
    this.to = this.rowAt(this.width);
    this.bands();
    this.axis();
    this.run.machines.forEach((_, machine) => this.machine(machine));
    this.links();
    this.words.forEach((word, number) => this.word(word, number));
    this.labels();
    this.mark();
    return this.parts.join("");
  }

  // The phases, as bands behind all.
  bands() {
    const { phases, count } = this.run;
    phases.forEach(([row, phase], number) => {
      const last = number + 1 < phases.length ? phases[number + 1][0] : count;
      if (last < this.from || row > this.to) return;
      const from = Math.max(this.x(row), this.label), to = Math.min(this.x(last), this.width);
      if (to <= from) return;
      this.parts.push(`<rect class="band phase${phase}" data-row="${row}" x="${from}" y="0" width="${to - from}" height="${this.height}"/>`);
      const text = [`phase ${phase}, ${PHASES[phase] || ""}`, `phase ${phase}`].find((it) => it.length * 6.1 + 4 <= to - from);
      if (text) this.text("band-text", from + 4, 11, text, to - from);
    });
  }

  // The items of the schedule, and numbers of events.
  axis() {
    const { items, columns } = this.run;
    let free = this.label;
    for (const [row, text] of this.seen(items, (it) => it[0], (it) => it[0])) {
      const x = this.x(Math.min(row, this.run.count - 1));
      if (x < this.label) continue;
      this.parts.push(`<path class="item" d="M${x},14V${this.lane(this.run.machines.length)}"/>`);
      const wide = text.length * 6.7 + 8;
      if (x >= free) {
        this.parts.push(`<text class="item-text" x="${x + 3}" y="22">${escaped(text)}</text>`);
        free = x + wide;
      }
    }
    free = this.label;
    for (let x = this.label; x < this.width - 40; x += 90) {
      const row = this.rowAt(x), at = this.x(row);
      if (at < free) continue;
      const text = String(columns.number[row]);
      this.parts.push(`<text class="number" x="${at + 1}" y="33">${text}</text>`);
      free = at + text.length * 7 + 10;
    }
  }

  machine(machine) {
    const y = this.lane(machine), { kind } = this.run.machines[machine];
    this.parts.push(`<g class="lane ${kind}">`, `<path class="rule" d="M${this.label},${y + LANE - 2}H${this.width}"/>`);
    if (machine === this.run.machines.length - 1) this.pauses(y);
    for (const it of this.seen(this.calls[machine], (call) => call[1], (call) => this.end(call))) this.call(it, y);
    for (const it of this.seen(this.unitsOf[machine], (unit) => unit[1], (unit) => unit[2])) this.unit(it, y);
    for (const it of this.seen(this.waits[machine], (wait) => wait[1], (wait) => wait[2])) this.wait(it, y);
    this.ticks(machine, y);
    this.parts.push("</g>");
  }

  end(call) {
    return call[3] === NOTHING ? this.run.count - 1 : call[3];
  }

  call(call, y) {
    const { texts, columns } = this.run, [, row, settled, replies, command, reply] = call;
    const from = this.x(row), to = this.x(this.end(call) + 1), replied = reply ? ` → ${texts[reply]}` : "";
    const title = `${texts[command]}${replied}: begins at ${columns.number[row]}` +
      (settled === NOTHING ? "" : `, is settled at ${columns.number[settled]}`) + (replies === NOTHING ? ", has not ended" : `, replies at ${columns.number[replies]}`);
    const wide = this.rect(`call${replies === NOTHING ? " open" : ""}`, row, from, to, y + 4, 22, title);
    this.text("call-text", Math.max(from, this.label) + 5, y + 16, texts[command] + replied, wide - 8, row);
    if (settled !== NOTHING && wide > 4) {
      const x = this.middle(settled);
      if (x > this.label && x < this.width) {
        this.parts.push(`<path class="settles" data-row="${settled}" d="M${x - 5},${y + 26}l5,-6 5,6 -5,6z"><title>settles ${escaped(texts[reply])}</title></path>`);
      }
    }
  }

  unit([, row, last, text], y) {
    const from = this.x(row), wide = this.rect("unit", row, from, this.x(last + 1), y + 6, 18, this.run.texts[text]);
    const told = this.run.texts[text], short = told.length * 6.1 + 6 <= wide ? told : told.split(" ").pop();
    this.text("unit-text", Math.max(from, this.label) + 3, y + 19, short, wide, row);
  }

  wait([, row, last, place], y) {
    this.rect("wait", row, this.x(row), this.x(last + 1), y + 18, 8, `waits at ${this.run.places[place]}`);
  }

  pauses(y) {
    for (const [row, line, short] of this.seen(this.run.pauses, (it) => it[0], (it) => it[0])) {
      const from = this.x(row), to = this.x(row + 1);
      if (from < this.width && to > this.label) {
        const x = Math.max(from, this.label);
        this.parts.push(`<rect class="pausing" data-row="${row}" x="${x}" y="${AXIS}" width="${Math.max(Math.min(to, this.width) - x, 1)}" height="${y - AXIS + LANE - 2}"/>`);
      }
      const wide = this.rect("pause", row, from, to, y + 2, LANE - 8, this.run.texts[line]);
      const [number0, ...rest] = this.run.texts[short].split(" "), words = wide < 70 ? [number0.slice(0, -1)] : [number0, ...rest];
      let line1 = "", number = 0;
      for (const word of [...words, null]) {
        if (word !== null && (line1 + word).length * 6.4 < wide - 8) line1 += `${line1 ? " " : ""}${word}`;
        else {
          if (number < 3 && line1) this.text("pause-text", Math.max(from, this.label) + 5, y + 14 + 12 * number, line1, wide, row);
          number += 1;
          line1 = word || "";
        }
      }
    }
  }

  // A tick for each event, where there is room.
  ticks(machine, y) {
    if (this.zoom < TICKS_FROM) return;
    const { columns, places } = this.run;
    for (let row = this.from; row <= this.to; row += 1) {
      const flags = columns.flags[row];
      if (columns.machine[row] !== machine || flags & PAUSE) continue;
      const x = this.middle(row);
      if (x < this.label) continue;
      const shape = this.tick(columns.operation[row], flags, x, y + 33);
      this.parts.push(`<path class="event ${shape[0]}" data-row="${row}" d="${shape[1]}"/>`);
      if (this.zoom >= CODES_FROM) this.parts.push(`<text class="code" data-row="${row}" x="${x}" y="${y + 46}">${escaped(places[columns.place[row]])}</text>`);
    }
  }

  tick(operation, flags, x, y) {
    if (flags & WON) return ["won", `M${x - 4},${y + 3}l4,-8 4,8z`];
    if (flags & LOST) return ["lost", `M${x - 4},${y - 4}l8,8M${x - 4},${y + 4}l8,-8`];
    return operation === 0 ? ["load", `M${x - 2},${y}a2,2 0 1 0 4,0a2,2 0 1 0 -4,0`] : ["store", `M${x - 2},${y - 4}h4v8h-4z`];
  }

  // From each exchange that was lost a line to the event that wrote the word before.
  links() {
    const { lost, columns } = this.run;
    for (const [row, winner] of this.seen(lost, (it) => it[0], (it) => it[0])) {
      if (winner < 0) continue;
      const x = this.middle(row), to = this.middle(winner), y = this.lane(columns.machine[row]) + 33, end = this.lane(columns.machine[winner]) + 33;
      if (x < this.label || x > this.width) continue;
      const stop = Math.max(to, this.label), bend = (y + end) / 2 - (y === end ? 24 : 0);
      this.parts.push(
        `<path class="link" data-row="${row}" d="M${x},${y}C${x - 12},${bend} ${stop + 12},${bend} ${stop},${end}">` +
          `<title>lost to event ${columns.number[winner]}</title></path>`,
      );
      if (to >= this.label) this.parts.push(`<circle class="link-end" cx="${to}" cy="${end}" r="6"/>`);
    }
  }

  // The values of a word, coloured by who wrote them.
  word([index, label, before], number) {
    const { starts, rows, texts } = this.writes, { run } = this, y = this.strip(number), start = starts[index], count = starts[index + 1] - start;
    this.parts.push(`<g class="strip" data-word="${index}">`);
    let at = first(count, (it) => rows[start + it] > this.from) - 1;
    while (at < count && (at < 0 || rows[start + at] <= this.to)) {
      const row = at < 0 ? 0 : rows[start + at], next = at + 1 < count ? rows[start + at + 1] : run.count;
      const text = at < 0 ? run.texts[before] : run.texts[texts[start + at]], kind = at < 0 ? "before" : run.machine(row).kind;
      const from = at < 0 ? this.x(0) : this.middle(row), to = next < run.count ? this.middle(next) : this.x(run.count);
      const wide = this.rect(`value ${kind}`, row, from, to, y, STRIP - 6, `${run.texts[label]}: ${text}${at < 0 ? "" : `, by ${run.machine(row).name}`}`);
      this.text(`value-text ${kind}`, Math.max(from, this.label) + 4, y + 14, text, wide - 4, row);
      at += 1;
      if (at < count && this.middle(rows[start + at]) < from + 1.5) at = Math.max(at, first(count, (it) => this.middle(rows[start + it]) >= from + 1.5) - 1);
    }
    this.parts.push("</g>");
  }

  // What stands at the left.
  labels() {
    const { machines, texts } = this.run;
    this.parts.push(`<rect class="gutter" x="0" y="0" width="${this.label - 2}" height="${this.height}"/>`);
    machines.forEach(({ name, kind }, machine) => this.parts.push(`<text class="machine ${kind}" x="4" y="${this.lane(machine) + 20}">${escaped(name)}</text>`));
    if (this.words.length) this.parts.push(`<text class="number" x="4" y="${this.strip(0) - 6}">words</text>`);
    this.words.forEach(([, label], number) => {
      const most = Math.floor((this.label - 6) / 6.7), text = texts[label];
      this.parts.push(`<text class="word-label" x="4" y="${this.strip(number) + 14}">${escaped(text.length > most ? `${text.slice(0, most - 1)}…` : text)}<title>${escaped(text)}</title></text>`);
    });
  }

  // The event under the slider.
  mark() {
    const x = this.x(this.cursor), to = this.x(this.cursor + 1);
    if (to < this.label || x > this.width) return;
    const from = Math.max(x, this.label);
    this.parts.push(`<rect class="cursor" x="${from}" y="${AXIS}" width="${Math.max(to - from, 1.5)}" height="${this.height - AXIS}"/>`);
  }

  // The whole run in one line.
  overview(width, height) {
    const { phases, pauses, lost, count } = this.run, parts = [], scale = width / this.total;
    const x = (row) => Math.round(this.units[row] * scale * 10) / 10;
    phases.forEach(([row, phase], number) => {
      const to = number + 1 < phases.length ? phases[number + 1][0] : count;
      parts.push(`<rect class="band phase${phase}" x="${x(row)}" y="0" width="${x(to) - x(row)}" height="${height}"/>`);
    });
    const bars = (list, kind, y, tall, least) => {
      let edge = -1;
      for (const row of list) {
        if (x(row) < edge) continue;
        const wide = Math.max(x(row + 1) - x(row), least);
        parts.push(`<rect class="${kind}" x="${x(row)}" y="${y}" width="${wide}" height="${tall}"/>`);
        edge = x(row) + wide;
      }
    };
    bars(pauses.map((it) => it[0]), "pause", 0, height, 1);
    this.run.machines.forEach(({ kind }, machine) => bars(this.calls[machine].map((it) => it[1]), `begin ${kind}`, 3 + machine * 3, 2, 1));
    bars(lost.map((it) => it[0]), "loss", height - 6, 6, 2);
    return parts.join("");
  }

  // Which part of the whole run is seen, and where the event is.
  place(width, height) {
    const scale = width / this.total, x = Math.round(this.units[this.cursor] * scale * 10) / 10;
    const wide = Math.max(Math.min(this.room / this.zoom, this.total) * scale, 3);
    return `<rect class="window" x="${this.left * scale}" y="1" width="${wide}" height="${height - 2}"/><path class="now" d="M${x},0V${height}"/>`;
  }
}
