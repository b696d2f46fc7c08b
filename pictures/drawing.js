"use strict";
// The heap in the words of the table, and its picture. heap.py and drawing.py do the same without a browser:
// check/test_pictures.py compares the two, text by text.

const ROOTS = 16, ENTRIES = 8, PINS = 4;
const GUTTER = 70, RIGHT = 12, CHIP = 18, CHIP_ROW = 24, BAR = 32, ROW = 60, LOW_BAR = 12, LOW_ROW = 22, OWNERS = 3;

function escaped(text) {
  const signs = { "&": "&amp;", "<": "&lt;", ">": "&gt;", '"': "&quot;", "'": "&#x27;" };
  return String(text).replace(/[&<>"']/g, (it) => signs[it]);
}

function nameOf(word) {
  return `${Math.floor(word / 4294967296)}.${word % 4294967296}`;
}

function filledBy(header) {
  return header % 4 === 2 ? Math.floor(header / 4) : 0;
}

function nextOf(word) {
  return word % 4294967296;
}

function endOf(word) {
  return Math.floor(word / 4294967296);
}

function forwardee(header) {
  return header % 4 === 3 ? Math.floor(header / 4) : 0;
}

class Heap {
  constructor(run) {
    this.run = run;
    this.layout = run.layout;
    this.phase = this.word("phase");
    this.rooms = new Map();
    for (const [kind, name] of [["free", "buffer"], ["room", "room"]]) {
      run.machines.forEach((_, machine) => {
        const room = this.word(name, machine);
        if (nextOf(room) < endOf(room)) this.rooms.set(nextOf(room), [kind, endOf(room), machine + 1]);
      });
    }
    this.regions = Array.from({ length: run.layout.regions }, (_, number) => this.region(number));
    this.objects = new Map(this.regions.flatMap((region) => region.objects.map((it) => [it.address, it])));
    this.holders = Array.from({ length: run.layout.threads }, (_, thread) => this.holder(thread));
    this.markReached();
  }

  index(kind, number = 0) {
    return this.layout.first[kind] + number;
  }

  word(kind, number = 0) {
    return this.run.word(this.index(kind, number));
  }

  at(address) {
    return this.run.word(address - this.layout.region_words);
  }

  isMarked(kind, address) {
    const bit = address - this.layout.region_words;
    return this.run.bit(this.index(kind, Math.floor(bit / 64)), bit % 64) === 1;
  }

  place(address) {
    const region = Math.floor(address / this.layout.region_words) - 1;
    return region >= 0 && region < this.layout.regions ? [region, address % this.layout.region_words] : null;
  }

  region(number) {
    const { layout, run } = this;
    const base = layout.region_words * (number + 1), top = this.word("top", number), objects = [], others = [];
    let at = base;
    while (at < base + top) {
      const [kind, last, machine] = this.rooms.get(at) || ["filler", at + filledBy(this.at(at)), 0];
      const shape = this.at(at + 1), size = 3 + (Math.floor(shape / 256) % 256) + (shape % 256);
      const end = last > at ? last : at + size;
      if (end > base + top) break;
      if (last > at) others.push({ kind, machine, offset: at - base, words: end - at });
      else objects.push(this.object(number, at, size));
      at = end;
    }
    return {
      region: number, free: run.bit(this.index("free regions"), number) === 1, chosen: run.bit(this.index("collection set"), number) === 1,
      top, start: this.word("mark start", number), limit: this.word("limit", number), objects, others,
      shared: this.word("shared region") === number + 1,
      pinned: Array.from({ length: layout.threads * PINS }, (_, it) => this.word("pin slot", it)).some((it) => base <= it && it < base + layout.region_words),
      owners: run.machines.map((_, machine) => machine + 1).filter((machine) => this.regionOfBuffer(machine - 1) === number),
    };
  }

  regionOfBuffer(machine) {
    const word = this.word("buffer", machine);
    return word ? Math.floor((endOf(word) - 1) / this.layout.region_words) - 1 : null;
  }

  object(region, address, size) {
    const shape = this.at(address + 1), refs = Math.floor(shape / 256) % 256, first = address - this.layout.region_words + 3;
    return {
      address, region, offset: address - this.layout.region_words * (region + 1), words: size, name: nameOf(this.at(address + 2)),
      copy: forwardee(this.at(address)),
      fields: Array.from({ length: refs }, (_, index) => this.run.word(first + index)),
      numbers: Array.from({ length: shape % 256 }, (_, index) => this.run.decimal(first + refs + index)),
      black: this.isMarked("black", address), grey: this.isMarked("grey", address), reached: false,
    };
  }

  holder(thread) {
    const held = Array.from({ length: ROOTS }, (_, index) => [String(index), this.word("root", thread * ROOTS + index)]);
    for (let index = 0; index < PINS; index += 1) held.push([`pin ${index}`, this.word("pin slot", thread * PINS + index)]);
    const count = Math.min(this.word("buffer count", thread), ENTRIES);
    for (let index = 0; index < count; index += 1) held.push(["noted", this.word("buffer entry", thread * ENTRIES + index)]);
    const answer = this.word("answer", thread);
    if (answer > 1) held.push(["answer", answer]);
    return held.filter(([, address]) => address > 0);
  }

  markReached() {
    const left = this.holders.flatMap((held) => held.filter(([label]) => label !== "noted").map(([, address]) => address));
    while (left.length) {
      const it = this.objects.get(left.pop());
      if (it && !it.reached) {
        it.reached = true;
        left.push(...it.fields, it.copy);
      }
    }
  }
}

// The class with which a text has room in so many pixels: empty for the usual size, null where there is no room.
function sizeFor(text, width) {
  if (73 * text.length <= 10 * (width - 4)) return "";
  return 55 * text.length <= 10 * (width - 2) ? " small" : null;
}

class Drawing {
  constructor(heap, width, low) {
    Object.assign(this, { heap, layout: heap.layout, width, parts: [], arrows: [], height: 0, tops: [] });
    this.low = new Set(low.filter((number) => heap.regions[number].free));
  }

  x(offset) {
    return GUTTER + Math.floor((offset * (this.width - GUTTER - RIGHT)) / this.layout.region_words);
  }

  y(region) {
    return this.tops[region];
  }

  text(kind, x, y, text) {
    this.parts.push(`<text class="${kind}" x="${x}" y="${y}">${escaped(text)}</text>`);
  }

  draw() {
    const chips = this.holders();
    for (const region of this.heap.regions) this.region(region);
    this.height = this.tops[this.layout.regions] - 8;
    for (const [x, y, address, kind] of chips) this.rootArrow(x, y, address, kind);
    for (const it of this.heap.objects.values()) this.objectArrows(it);
    return this;
  }

  holders() {
    const chips = [];
    let x = 4, y = 4;
    this.heap.holders.forEach((held, thread) => {
      const all = GUTTER - 4 + held.reduce((sum, [text]) => sum + 14 + 7 * text.length, 0);
      if (x > 4 && x + all > this.width - RIGHT) {
        x = 4;
        y += CHIP_ROW;
      }
      this.parts.push(`<g class="holder t${thread + 1}" data-thread="${thread + 1}">`);
      this.text("label", x, y + 13, `thread ${thread + 1}`);
      x += GUTTER - 4;
      for (const [text, address] of held) {
        const wide = 10 + 7 * text.length;
        if (x + wide > this.width - RIGHT) {
          x = GUTTER;
          y += CHIP_ROW;
        }
        this.parts.push(`<rect class="chip" x="${x}" y="${y}" width="${wide}" height="${CHIP}" rx="4"/>`);
        this.text("chip-text", x + Math.floor(wide / 2), y + 13, text);
        chips.push([x + Math.floor(wide / 2), y + CHIP, address, `${text === "noted" ? "noted" : "root"} t${thread + 1}`]);
        x += wide + 4;
      }
      this.parts.push("</g>");
      x += 16;
    });
    this.tops = [y + CHIP_ROW + 20];
    for (let number = 0; number < this.layout.regions; number += 1) this.tops.push(this.tops[number] + (this.low.has(number) ? LOW_ROW : ROW));
    return chips;
  }

  region(it) {
    const x = this.x(0), y = this.y(it.region), wide = this.x(this.layout.region_words) - x, low = this.low.has(it.region);
    this.parts.push(`<g class="region${it.free ? " free" : ""}${it.chosen ? " chosen" : ""}" data-region="${it.region}">`);
    this.text("label", 4, y + 11, `region ${it.region}`);
    this.text("note", low ? x + 4 : 4, y + (low ? 9 : 23), it.free ? "free" : `${it.top} of ${this.layout.region_words}`);
    const lines = it.pinned ? [["owner", "pinned"]] : [];
    if (it.shared) lines.push(["owner", "shared"]);
    for (const machine of it.owners) {
      const { kind, name } = this.heap.run.machines[machine - 1];
      lines.push([`owner ${kind}`, name]);
    }
    lines.slice(0, OWNERS).forEach(([kind, text], line) => this.text(kind, 4, y + 35 + 11 * line, text));
    this.parts.push(`<rect class="bar" x="${x}" y="${y}" width="${wide}" height="${low ? LOW_BAR : BAR}"/>`);
    for (const each of it.objects) this.object(each, y);
    for (const each of it.others) this.other(each, y);
    if (it.chosen) {
      this.parts.push(`<rect class="frame" x="${x - 3}" y="${y - 3}" width="${wide + 6}" height="${BAR + 6}" rx="3"/>`);
      this.text("frame-text", x + wide, y - 6, "collection set");
    }
    if (this.heap.phase && !it.free) this.ticks(it, y + BAR);
    this.parts.push("</g>");
  }

  ticks(it, y) {
    let ticks = [["mark start", it.start]];
    if (this.heap.phase === 3) ticks = it.start === it.limit ? [["mark start, limit", it.start]] : [...ticks, ["limit", it.limit]];
    for (const [kind, offset] of ticks) {
      const x = this.x(Math.min(offset, this.layout.region_words)), wide = 6 * kind.length + 2;
      this.parts.push(`<path class="tick" d="M${x},${y - BAR}V${y + 4}"/>`);
      const middle = Math.max(Math.min(x, this.width - RIGHT - Math.floor(wide / 2)), GUTTER + Math.floor(wide / 2));
      this.text("tick-text", middle, y + (kind === "limit" ? 23 : 13), kind);
    }
  }

  object(it, y) {
    const x = this.x(it.offset), wide = this.x(it.offset + it.words) - x;
    const mark = it.black ? "black" : it.grey ? "grey" : "", shown = this.heap.phase ? mark : "";
    const kinds = `object${it.copy ? " old" : it.reached ? "" : " garbage"}${shown ? ` ${shown}` : ""}`;
    this.parts.push(`<g class="${kinds}" data-address="${it.address}">`);
    this.parts.push(`<title>${escaped(this.title(it, mark))}</title>`);
    this.parts.push(`<rect x="${x}" y="${y}" width="${Math.max(wide - 1, 1)}" height="${BAR}" rx="2"/>`);
    if (shown && wide >= 12) this.parts.push(`<circle class="mark" cx="${x + wide - 8}" cy="${y + BAR - 7}" r="4"/>`);
    const size = sizeFor(it.name, wide);
    if (size !== null) this.text(`name${size}`, x + Math.floor(wide / 2), y + (shown && wide < 60 ? 15 : 20), it.name);
    this.parts.push("</g>");
  }

  title(it, mark) {
    let text = `${it.name}: ${it.words} words at region ${it.region}, word ${it.offset}`;
    if (mark) text += `; ${mark}`;
    if (it.copy) text += `; an old copy, the current one lies at ${this.place(it.copy)}`;
    else if (!it.reached) text += "; garbage: no root leads here";
    it.fields.forEach((address, index) => (text += address ? `; field ${index}: ${this.place(address)}` : ""));
    it.numbers.forEach((number, index) => (text += number === "0" ? "" : `; number ${index}: ${number}`));
    return text;
  }

  place(address) {
    const spot = this.heap.place(address), it = this.heap.objects.get(address);
    const where = spot ? `@${spot[0]}+${spot[1]}` : String(address);
    return it ? it.name + where : where;
  }

  other(it, y) {
    const x = this.x(it.offset), wide = this.x(it.offset + it.words) - x;
    const whose = it.machine ? this.heap.run.machines[it.machine - 1].name : "";
    const title = { room: `room of ${whose}, no object yet`, free: `free words of the buffer of ${whose}`, filler: "words that only fill" };
    this.parts.push(`<g class="other ${it.kind}"><title>${title[it.kind]}, ${it.words} words</title>`);
    this.parts.push(`<rect x="${x + 1}" y="${y + 1}" width="${Math.max(wide - 2, 1)}" height="${BAR - 2}" rx="2"/>`);
    const size = sizeFor(it.kind, wide);
    if (size !== null) this.text(`name${size}`, x + Math.floor(wide / 2), y + 20, it.kind);
    this.parts.push("</g>");
  }

  target(address, shift) {
    const it = this.heap.objects.get(address);
    if (!it) return [null, 0];
    const x = this.x(it.offset), wide = this.x(it.offset + it.words) - x;
    return [it, x + Math.min(shift, Math.floor(wide / 2))];
  }

  arrow(kind, [fx, fy], [tx, ty], down) {
    const back = down ? -6 : 6, bend = Math.max(Math.floor(Math.abs(ty - fy) / 2), 14);
    const begin = ty === fy ? fy + 16 : down ? fy + bend : fy - bend;
    this.arrows.push(
      `<g class="arrow ${kind}"><path d="M${fx},${fy}C${fx},${begin} ${tx},${ty + Math.floor((back * bend) / 6)} ${tx},${ty + back / 2}"/>` +
        `<path class="head" d="M${tx - 3},${ty + back}L${tx},${ty}L${tx + 3},${ty + back}Z"/></g>`,
    );
  }

  rootArrow(x, y, address, kind) {
    const [it, end] = this.target(address, 5);
    if (it) this.arrow(kind, [x, y], [end, this.y(it.region)], true);
  }

  objectArrows(it) {
    it.fields.forEach((address, index) => this.fieldArrow("field", it, it.offset + 3 + index, address, 11));
    if (it.copy) this.fieldArrow("forward", it, it.offset, it.copy, 17);
  }

  fieldArrow(kind, it, offset, address, shift) {
    const [to, end] = this.target(address, shift);
    if (!to) return;
    const x = Math.floor((this.x(offset) + this.x(offset + 1)) / 2), top = this.y(it.region), other = this.y(to.region);
    if (other > top) this.arrow(kind, [x, top + BAR], [end, other], true);
    else if (other < top) this.arrow(kind, [x, top], [end, other + BAR], false);
    else this.arrow(kind, [x, top + BAR], [end, top + BAR], false);
  }

  content() {
    return `${this.parts.join("")}<g class="arrows">${this.arrows.join("")}</g>`;
  }
}
