"use strict";
// The page: what stands where, what is under the slider, and keys, buttons and clicks.

const OVERVIEW = 30, NARROW = 600;

class Page {
  constructor(run) {
    this.run = run;
    this.row = run.start;
    this.chosen = run.words.filter((word) => word[3]);
    this.lanes = new Lanes(run, this.chosen);
    this.parts = Object.fromEntries([...document.querySelectorAll("[id]")].map((it) => [it.id, it]));
    this.spots = {
      call: this.sorted(run.calls.map((it) => it[1])), pause: this.sorted(run.pauses.map((it) => it[0])), loss: this.sorted(run.lost.map((it) => it[0])),
    };
    this.told = null;
    this.listen();
    this.list();
    this.resize(true);
  }

  sorted(list) {
    return Uint32Array.from(list).sort();
  }

  // Measures the page, and draws all.
  resize(anew) {
    const wide = this.parts.lanes.clientWidth || 1000;
    this.lanes.width = wide;
    this.lanes.label = wide < NARROW ? 84 : 130;
    if (anew) {
      this.lanes.zoom = Math.max(this.lanes.lowest, wide < NARROW ? 9 : 12);
      this.lanes.left = this.lanes.units[this.row] - (this.lanes.room / this.lanes.zoom) * 0.6;
    } else this.lanes.show(this.row);
    this.heapWidth = Math.min(Math.max(this.parts.heap.parentElement.clientWidth - 26, 300), 1400);
    this.overview();
    this.draw();
  }

  // Draws the whole run in one line.
  overview() {
    const { lanes, parts } = this;
    this.overviewWidth = parts.overview.clientWidth || lanes.width;
    parts.overview.innerHTML = `${lanes.overview(this.overviewWidth, OVERVIEW)}<g></g>`;
    this.size(parts.overview, this.overviewWidth, OVERVIEW);
  }

  draw() {
    const { lanes, parts, run, row } = this;
    lanes.cursor = row;
    parts.lanes.innerHTML = lanes.draw();
    this.size(parts.lanes, lanes.width, lanes.height);
    parts.overview.lastChild.innerHTML = lanes.place(this.overviewWidth, OVERVIEW);
    parts.slider.value = String(row);
    parts.at.textContent = `event ${run.columns.number[row]} of ${run.events}`;
    parts.slider.setAttribute("aria-valuetext", run.line(row).trim());
    this.heap();
    if (this.told === null) this.tell(row);
    else this.tell(this.told, this.more);
  }

  size(svg, width, height) {
    svg.setAttribute("viewBox", `0 0 ${width} ${height}`);
    svg.setAttribute("height", String(height));
  }

  // Draws the heap, with the word that the event has accessed.
  heap() {
    const { run, parts, row } = this;
    run.seek(row);
    const heap = new Heap(run), drawing = new Drawing(heap, this.heapWidth, run.low).draw();
    this.shown = heap;
    parts.heap.innerHTML = drawing.content() + this.access(drawing);
    this.size(parts.heap, drawing.width, drawing.height);
    parts.heap.setAttribute("width", String(drawing.width));
    for (const it of parts.heap.querySelectorAll(".object")) it.setAttribute("tabindex", "0");
    const asked = ["nothing", "a cycle", "room", "a cycle and room"][run.word(heap.index("asked for")) % 4];
    const at = heap.index("copiers"), room = run.bit(at, 63) ? ", one found no room" : "";
    const copiers = String(BigInt(run.decimal(at)) % (1n << 63n));
    parts.phase.textContent = `phase ${heap.phase}, ${PHASES[heap.phase] || ""} · asked for: ${asked} · copiers: ${copiers}${room}`;
  }

  // A frame round the word of the heap that the event has accessed.
  access(drawing) {
    const { run, row } = this, { layout } = run, index = run.columns.word[row];
    if (index >= layout.regions * layout.region_words || run.columns.flags[row] & PAUSE) return "";
    const region = Math.floor(index / layout.region_words), offset = index % layout.region_words;
    const x = drawing.x(offset), wide = Math.max(drawing.x(offset + 1) - x, 4);
    return `<rect class="access ${run.machine(row).kind}" x="${x - 1}" y="${drawing.y(region) - 2}" width="${wide + 1}" height="${BAR + 4}" rx="2"/>`;
  }

  // Shows the line of an event.
  tell(row, more = "") {
    const { run, parts } = this, { columns, texts } = run;
    const fill = (name, text) => (parts[name].textContent = text);
    fill("line", run.line(row));
    parts.who.className = run.machine(row).kind;
    fill("who", run.machine(row).name);
    const pause = columns.flags[row] & PAUSE;
    fill("what", pause ? texts[columns.of[row]] : run.access(row));
    fill("found", pause ? "" : `finds ${texts[columns.found[row]]}`);
    fill("says", texts[columns.says[row]]);
    fill("more", more);
    parts.back.hidden = row === this.row;
    parts.back.textContent = `go to event ${columns.number[row]}`;
    parts.back.dataset.row = String(row);
  }

  // Goes to an event.
  go(row) {
    this.row = Math.max(0, Math.min(this.run.count - 1, row));
    this.told = null;
    this.lanes.show(this.row);
    this.schedule();
  }

  // Draws at the next frame, once for all that has moved until then.
  schedule() {
    if (this.waiting) return;
    this.waiting = true;
    requestAnimationFrame(() => {
      this.waiting = false;
      this.draw();
    });
  }

  // The next or the last place of a kind.
  step(kind, forward) {
    if (kind === "event") return this.go(this.row + (forward ? 1 : -1));
    const list = this.spots[kind], at = first(list.length, (it) => (forward ? list[it] > this.row : list[it] >= this.row));
    const row = list[forward ? at : at - 1];
    return row === undefined ? undefined : this.go(row);
  }

  zoom(times) {
    const { lanes } = this, middle = lanes.units[this.row];
    const share = Math.min(Math.max(((middle - lanes.left) * lanes.zoom) / lanes.room, 0), 1);
    lanes.zoom = times ? lanes.zoom * times : lanes.lowest;
    lanes.bound();
    lanes.left = middle - (share * lanes.room) / lanes.zoom;
    this.schedule();
  }

  // The last event up to the slider that has written one of these words.
  written(from, to) {
    const { columns } = this.run;
    for (let row = this.row; row >= 0; row -= 1) {
      if (columns.word[row] >= from && columns.word[row] < to && columns.becomes[row] !== NOTHING) return row;
    }
    return -1;
  }

  // Shows the line of what was clicked in the heap: the event that wrote it last.
  explain(target) {
    const { layout } = this.run, object = target.closest(".object"), holder = target.closest(".holder"), region = target.closest(".region");
    let from = -1, to = -1, more = "";
    if (object) {
      const it = this.shown.objects.get(Number(object.dataset.address));
      from = it.address - layout.region_words;
      to = from + it.words;
      more = object.querySelector("title").textContent;
    } else if (holder) {
      from = layout.first.root + (Number(holder.dataset.thread) - 1) * ROOTS;
      to = from + ROOTS;
      more = `roots of thread ${holder.dataset.thread}`;
    } else if (region) {
      from = layout.first.top + Number(region.dataset.region);
      to = from + 1;
      more = `region ${region.dataset.region}`;
    } else return;
    const row = this.written(from, to);
    this.told = row < 0 ? this.row : row;
    this.more = `${more}. ${row < 0 ? "No event up to here has written it alone." : "Written last by this event."}`;
    this.tell(this.told, this.more);
  }

  // Lists the words that can be followed.
  list() {
    const { run, parts } = this;
    run.words.forEach((word, number) => {
      const label = document.createElement("label"), box = document.createElement("input");
      box.type = "checkbox";
      box.checked = word[3];
      box.dataset.word = String(number);
      label.append(box, ` ${run.texts[word[1]]}`);
      parts.choose.append(label);
    });
    parts.choose.addEventListener("change", (event) => {
      run.words[Number(event.target.dataset.word)][3] = event.target.checked;
      this.lanes.words = run.words.filter((word) => word[3]);
      this.draw();
    });
  }

  listen() {
    const { parts } = this;
    parts.slider.max = String(this.run.count - 1);
    parts.slider.addEventListener("input", () => this.go(Number(parts.slider.value)));
    for (const button of document.querySelectorAll("[data-key]")) button.addEventListener("click", () => this.key(button.dataset.key));
    const pick = (event) => {
      const row = event.target.dataset.row;
      if (row !== undefined) this.go(Number(row));
      else this.go(this.lanes.rowAt((event.offsetX * this.lanes.width) / parts.lanes.clientWidth));
    };
    parts.lanes.addEventListener("click", pick);
    parts.lanes.addEventListener("wheel", (event) => this.wheel(event), { passive: false });
    const jump = (event) => event.buttons && this.go(this.overviewRow(event));
    parts.overview.addEventListener("pointerdown", jump);
    parts.overview.addEventListener("pointermove", jump);
    parts.heap.addEventListener("click", (event) => this.explain(event.target));
    parts.back.addEventListener("click", () => this.go(Number(parts.back.dataset.row)));
    document.addEventListener("keydown", (event) => this.pressed(event));
    window.addEventListener("resize", () => this.resize(false));
    window.addEventListener("beforeprint", () => this.print(true));
    window.addEventListener("afterprint", () => this.print(false));
  }

  overviewRow(event) {
    const unit = (event.offsetX / this.overviewWidth) * this.lanes.total;
    return first(this.run.count, (row) => this.lanes.units[row + 1] > unit);
  }

  wheel(event) {
    if (event.ctrlKey) {
      event.preventDefault();
      this.zoom(event.deltaY < 0 ? 1.2 : 1 / 1.2);
    } else if (event.deltaX || event.shiftKey) {
      event.preventDefault();
      this.lanes.left += (event.deltaX || event.deltaY) / this.lanes.zoom;
      this.schedule();
    }
  }

  pressed(event) {
    if (event.target === this.parts.slider && event.key.startsWith("Arrow")) event.preventDefault();
    if (event.altKey || event.ctrlKey || event.metaKey || event.target.type === "checkbox") return;
    if ((event.key === "Enter" || event.key === " ") && event.target.closest(".object")) {
      event.preventDefault();
      this.explain(event.target);
    } else if (this.key((event.shiftKey ? "Shift+" : "") + event.key)) event.preventDefault();
  }

  key(name) {
    const page = this, keys = {
      ArrowRight: () => page.step("event", true), ArrowLeft: () => page.step("event", false),
      "Shift+ArrowRight": () => page.step("call", true), "Shift+ArrowLeft": () => page.step("call", false),
      PageDown: () => page.step("pause", true), PageUp: () => page.step("pause", false),
      n: () => page.step("loss", true), p: () => page.step("loss", false),
      Home: () => page.go(0), End: () => page.go(page.run.count - 1),
      "+": () => page.zoom(1.5), "Shift++": () => page.zoom(1.5), "-": () => page.zoom(1 / 1.5), 0: () => page.zoom(0), t: () => page.theme(),
    };
    if (!keys[name]) return false;
    keys[name]();
    return true;
  }

  // Takes the other of light and dark.
  theme() {
    const now = getComputedStyle(document.documentElement).colorScheme;
    document.documentElement.dataset.theme = now === "dark" ? "light" : "dark";
  }

  // Sets the page for paper, or back.
  print(begins) {
    if (begins) {
      this.screen = document.documentElement.dataset.theme;
      document.documentElement.dataset.theme = "light";
      this.lanes.width = 1000;
      this.heapWidth = 1000;
      this.lanes.show(this.row);
      this.draw();
    } else {
      if (this.screen) document.documentElement.dataset.theme = this.screen;
      else delete document.documentElement.dataset.theme;
      this.resize(false);
    }
  }
}

async function open() {
  const told = JSON.parse(document.getElementById("run").textContent), columns = {};
  for (const [name, text] of Object.entries(told.columns)) columns[name] = await column(text);
  if (!columns.number.length) throw new Error("there is no event");
  window.page = new Page(new Run(told, columns));
  document.documentElement.dataset.ready = "yes";
}

open().catch((fault) => {
  const said = document.getElementById("fault");
  said.hidden = false;
  said.textContent = `This page cannot be shown: ${fault.message}`;
});
