"use strict";
// The run as the page has it: its events as columns, and the words of the heap at any of them.

const WON = 1, LOST = 2, AGAIN = 4, PAUSE = 8, NOTHING = 0xffffffff;
const OPERATIONS = ["load", "store", "swap", "add to", "subtract from", "clear in", "set in", "exchange", ""];
// How many numbers the states that are kept may have together.
const KEPT = 8e6;

// A column, from deflated bytes in base64.
async function column(text) {
  const bytes = Uint8Array.from(atob(text), (it) => it.charCodeAt(0));
  const stream = new Blob([bytes]).stream().pipeThrough(new DecompressionStream("deflate"));
  return new Uint32Array(await new Response(stream).arrayBuffer());
}

class Run {
  constructor(told, columns) {
    Object.assign(this, told);
    this.columns = columns;
    this.count = columns.number.length;
    this.table = columns.initial.slice();
    this.at = -1;
    this.keep();
  }

  // Keeps the words at intervals.
  keep() {
    const { table, count } = this;
    this.interval = Math.max(256, Math.ceil((count * table.length) / KEPT));
    this.kept = [table.slice()];
    this.further = 0;
    this.furtherAt = [0];
    for (let row = 0; row < count; row += 1) {
      this.step(row);
      if ((row + 1) % this.interval === 0) {
        this.kept.push(table.slice());
        this.furtherAt.push(this.further);
      }
    }
    this.at = count - 1;
  }

  // Does what an event has done to the words.
  step(row) {
    const { columns, table } = this;
    table[columns.word[row]] = columns.after[row];
    while (this.further < columns.furtherRow.length && columns.furtherRow[this.further] === row) {
      table[columns.furtherWord[this.further]] = columns.furtherValue[this.further];
      this.further += 1;
    }
  }

  // Makes the words those behind an event; -1 is the beginning.
  seek(row) {
    if (row < this.at || row - this.at > this.interval) {
      const kept = Math.floor((row + 1) / this.interval);
      this.table.set(this.kept[kept]);
      this.further = this.furtherAt[kept];
      this.at = kept * this.interval - 1;
    }
    while (this.at < row) {
      this.at += 1;
      this.step(this.at);
    }
  }

  // A word of the table; exact up to 53 bits.
  word(at) {
    const value = this.table[at];
    return this.columns.high[value] * 4294967296 + this.columns.low[value];
  }

  // Whether a bit of a word is set.
  bit(at, bit) {
    const value = this.table[at];
    return bit < 32 ? (this.columns.low[value] >>> bit) & 1 : (this.columns.high[value] >>> (bit - 32)) & 1;
  }

  // A word in decimal.
  decimal(at) {
    const value = this.table[at];
    return String(BigInt(this.columns.high[value]) * 4294967296n + BigInt(this.columns.low[value]));
  }

  // The machine of an event.
  machine(row) {
    return this.machines[this.columns.machine[row]];
  }

  // The access of an event, in words.
  access(row) {
    const { columns, texts } = this;
    const brings = texts[columns.brings[row]];
    return `${OPERATIONS[columns.operation[row]]} ${texts[columns.of[row]]}${brings ? `: ${brings}` : ""}`;
  }

  // The line of the listing.
  line(row) {
    const { columns, texts } = this;
    const start = `${String(columns.number[row]).padStart(6)}  ${this.machine(row).name.padEnd(9)} ${this.places[columns.place[row]]}  `;
    if (columns.flags[row] & PAUSE) return start + texts[columns.of[row]];
    const found = `${(start + this.access(row)).padEnd(67)} ${texts[columns.found[row]]}`;
    return `${found.padEnd(85)} ${texts[columns.says[row]]}`.trimEnd();
  }

  // The row of an event: the last that has this number or a lower one.
  rowOf(number) {
    let from = 0, to = this.count - 1;
    while (from < to) {
      const middle = (from + to + 1) >> 1;
      if (this.columns.number[middle] <= number) from = middle;
      else to = middle - 1;
    }
    return from;
  }

  // Of each word, where it is written: the places of its writes in one list, a row each, and what it is then in words.
  writes() {
    const { columns, table, count } = this;
    const starts = new Uint32Array(table.length + 1);
    const each = (take) => {
      let further = 0;
      for (let row = 0; row < count; row += 1) {
        if (columns.becomes[row] !== NOTHING) take(columns.word[row], row, columns.becomes[row]);
        for (; further < columns.furtherRow.length && columns.furtherRow[further] === row; further += 1) {
          take(columns.furtherWord[further], row, columns.furtherText[further]);
        }
      }
    };
    each((word) => (starts[word + 1] += 1));
    for (let word = 0; word < table.length; word += 1) starts[word + 1] += starts[word];
    const next = starts.slice(), rows = new Uint32Array(starts[table.length]), texts = new Uint32Array(rows.length);
    each((word, row, text) => {
      rows[next[word]] = row;
      texts[next[word]] = text;
      next[word] += 1;
    });
    return { starts, rows, texts };
  }
}
