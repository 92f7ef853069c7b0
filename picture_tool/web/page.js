// What is told of a step, and what keys and pointers do.

const el = name => document.getElementById(name);

class Step {
  constructor(run, go) { this.run = run; this.go = go; }

  cell(row, text, kind) {
    const cell = document.createElement(kind || "td");
    cell.textContent = text;
    row.append(cell);
    return cell;
  }

  show(at) {
    const {run} = this, m = run.messageOf(at);
    el("number").textContent = `Step ${(at + 1).toLocaleString("en")} of ${run.count.toLocaleString("en")}`;
    el("words").textContent = run.words(at);
    el("status").textContent = `Step ${at + 1}. ${run.words(at)}`;
    const fields = m ? [["id", m.id], ["red number", m.red || "blue"], ["counts", m.deps.join(":")], ["shadow", m.shadow.join(",")], ["record", run.record(m)]] : run.texts[at] ? [["said", run.texts[at]]] : [];
    fields.push([`${run.placed} number`, run.numbers[at]]);
    el("fields").replaceChildren(...fields.map(([name, text]) => {
      const row = document.createElement("tr");
      this.cell(row, name, "th"); this.cell(row, text);
      return row;
    }));
    this.follows(m);
    this.grid(run.stateAt(at + 1));
  }

  follows(m) {
    const before = m ? this.run.followed(m) : [];
    el("follows-head").hidden = el("follows").hidden = !m;
    el("follows").replaceChildren(...before.map(one => {
      const button = document.createElement("button");
      button.textContent = `${one.id} ${this.run.caption(one)}`;
      button.onclick = () => this.go(this.run.home[one.at]);
      button.disabled = this.run.home[one.at] < 0;
      return button;
    }));
    if (m && !before.length) el("follows").textContent = "nothing";
  }

  waiting(state, lane, m) {
    const awaited = this.run.awaited(state, lane, m);
    return awaited.length ? `${m.id} waits for ${awaited.join(", ")}` : `${m.id} is ready`;
  }

  grid(state) {
    const {run} = this, sent = new Int32Array(run.sites), waits = [];
    state.counts.forEach(row => row.forEach((count, site) => { sent[site] = Math.max(sent[site], count); }));
    const sites = [...sent.keys()].filter(site => run.final.counts.some(row => row[site]));
    const head = document.createElement("tr");
    ["", ...sites.map(site => "of " + site)].forEach(name => this.cell(head, name, "th"));
    const rows = run.lanes.map(([, name], lane) => {
      const row = document.createElement("tr");
      if (state.holder === lane) row.className = "holds";
      this.cell(row, name + (state.holder === lane ? " (token)" : ""), "th");
      for (const site of sites) if (state.counts[lane][site] < sent[site]) this.cell(row, `${state.counts[lane][site]}/${sent[site]}`).className = "lacks"; else this.cell(row, state.counts[lane][site]);
      for (const at of state.waiting[lane]) if (waits.length < 6) waits.push(`${name}: ${this.waiting(state, lane, run.messages[at])}`);
      return row;
    });
    el("grid").replaceChildren(head, ...rows);
    const all = state.waiting.reduce((sum, set) => sum + set.size, 0);
    el("waits").textContent = all ? waits.join("; ") + (all > waits.length ? `; and ${all - waits.length} more` : "") : "Nothing waits.";
  }
}

// What keys and pointers do.

class Page {
  constructor(run) {
    this.run = run;
    this.filter = new Filter(run);
    this.picture = new Picture(run, this.filter, el("canvas"), el("map"));
    this.step = new Step(run, at => this.go(at));
    const longest = Math.max(...[...run.byId.keys()].slice(-400).map(id => id.length), 0);
    this.picture.step = Math.max(this.picture.narrowest(), run.columns * CAPTIONS <= this.picture.room * 3 ? CAPTIONS : Math.max(IDS + 6, 7 * longest + 3));
    this.buttons(); this.keys(); this.pointers(); this.names(); this.fault(); this.prints(); this.scheme();
    new ResizeObserver(() => { if (!this.printing) { this.picture.resize(); this.redraw(); } }).observe(el("picture"));
    this.go(Math.min(run.begin, run.count - 1));
  }

  redraw() {
    if (this.waiting) return;
    this.waiting = requestAnimationFrame(() => { this.waiting = 0; this.picture.draw(); });
  }

  go(at) {
    if (at < 0 || at >= this.run.count) return;
    this.picture.at = at;
    this.picture.show(at);
    this.step.show(at);
    el("first").disabled = el("back").disabled = at === 0;
    el("next").disabled = el("last").disabled = at === this.run.count - 1;
    this.redraw();
  }

  // So many steps on or back, only such as the filter has.
  walk(steps) {
    let at = this.picture.at, found = at;
    for (const way = Math.sign(steps); steps; steps -= way) {
      do at += way; while (at >= 0 && at < this.run.count && !this.filter.has(at));
      if (at < 0 || at >= this.run.count) break;
      found = at;
    }
    this.go(found);
  }

  edge(way) {
    let at = way < 0 ? 0 : this.run.count - 1;
    while (at >= 0 && at < this.run.count && !this.filter.has(at)) at -= way;
    this.go(at);
  }

  along(way) {
    const {run} = this, at = this.picture.at, row = run.rows[run.lane[at]];
    let place = run.rowOf[at];
    do place += way; while (row[place] !== undefined && !this.filter.has(row[place]));
    if (row[place] !== undefined) this.go(row[place]);
  }

  zoom(factor) { this.picture.zoom(factor, Math.max(NAMES, Math.min(this.picture.width, this.picture.x(this.run.column[this.picture.at])))); this.redraw(); }

  all() { this.picture.step = this.picture.narrowest(); this.picture.move(0); this.redraw(); }

  buttons() {
    el("first").onclick = () => this.edge(-1);
    el("last").onclick = () => this.edge(1);
    el("back").onclick = () => this.walk(-1);
    el("next").onclick = () => this.walk(1);
    el("in").onclick = () => this.zoom(1.5);
    el("out").onclick = () => this.zoom(1 / 1.5);
    el("all").onclick = () => this.all();
    el("filter").oninput = () => this.choose(el("filter").value);
  }

  choose(term) {
    this.filter.set(term);
    el("matches").textContent = this.filter.is ? `${this.filter.count.toLocaleString("en")} of ${this.run.messages.length.toLocaleString("en")} messages` : "";
    this.redraw();
  }

  keys() {
    const does = {
      ArrowRight: event => this.walk(event.shiftKey ? 10 : 1), ArrowLeft: event => this.walk(event.shiftKey ? -10 : -1),
      ArrowDown: () => this.along(1), ArrowUp: () => this.along(-1), Home: () => this.edge(-1), End: () => this.edge(1),
      "+": () => this.zoom(1.5), "=": () => this.zoom(1.5), "-": () => this.zoom(1 / 1.5), "0": () => this.all(),
      f: () => el("filter").focus(), F: () => el("filter").focus(),
      p: () => this.go(this.run.from[this.picture.at]), P: () => this.go(this.run.from[this.picture.at]),
    };
    document.addEventListener("keydown", event => {
      if (event.key === "Escape") { el("filter").value = ""; this.choose(""); el("canvas").focus(); return; }
      if (event.ctrlKey || event.metaKey || event.altKey || event.target.tagName === "INPUT") return;
      if (!does[event.key]) return;
      event.preventDefault();
      does[event.key](event);
    });
  }

  pointers() {
    const canvas = el("canvas"), point = event => [event.offsetX, event.offsetY];
    let from = null;
    canvas.addEventListener("pointerdown", event => { from = {x: event.clientX, left: this.picture.left, moved: false}; canvas.setPointerCapture(event.pointerId); });
    canvas.addEventListener("pointermove", event => {
      if (!from) { this.hover(...point(event)); return; }
      const moved = event.clientX - from.x;
      from.moved = from.moved || Math.abs(moved) > 4;
      if (!from.moved) return;
      canvas.classList.add("dragged");
      this.picture.move(from.left - moved / this.picture.step);
      this.redraw();
    });
    canvas.addEventListener("pointerup", event => {
      const at = this.picture.hit(...point(event));
      if (from && !from.moved && at >= 0) this.go(at);
      from = null;
      canvas.classList.remove("dragged");
    });
    canvas.addEventListener("pointerleave", () => this.hover(-1, -1));
    canvas.addEventListener("wheel", event => {
      if (!event.ctrlKey && !event.deltaX && !event.shiftKey && !event.deltaY) return;
      event.preventDefault();
      if (event.ctrlKey) this.picture.zoom(Math.exp(-event.deltaY / 300), event.offsetX);
      else this.picture.move(this.picture.left + (event.deltaX || event.deltaY) / this.picture.step);
      this.redraw();
    }, {passive: false});
    el("map").addEventListener("pointerdown", event => this.jump(event));
    el("map").addEventListener("pointermove", event => { if (event.buttons) this.jump(event); });
  }

  jump(event) {
    const {picture, run} = this;
    picture.move((event.offsetX - NAMES) / (picture.width - NAMES - EDGE) * (run.columns + 1) - picture.room / picture.step / 2);
    this.redraw();
  }

  hover(x, y) {
    const at = this.picture.hit(x, y), tip = el("tip");
    if (at === this.picture.hovered) return;
    this.picture.hovered = at;
    tip.hidden = at < 0;
    el("canvas").style.cursor = at >= 0 ? "pointer" : "";
    if (at >= 0) this.tell(at);
    this.redraw();
  }

  tell(at) {
    const {run, picture} = this, tip = el("tip"), m = run.messageOf(at);
    const lines = [run.words(at)];
    if (m) {
      lines.push(run.record(m), `${m.red ? `red number ${m.red}` : "blue"}, counts ${m.deps.join(":")}`);
      lines.push(`follows ${run.followed(m).map(one => one.id).join(", ") || "nothing"}`);
    }
    lines.push(`${run.placed} number ${run.numbers[at]}`);
    tip.replaceChildren(...lines.map((line, place) => {
      const part = document.createElement("p");
      if (m && place === 1) { const code = document.createElement("code"); code.textContent = line; part.append(code); } else part.textContent = line;
      return part;
    }));
    const x = picture.x(run.column[at]), y = picture.y(run.lane[at]);
    tip.style.left = Math.max(0, Math.min(x + 16, picture.width - tip.offsetWidth - 4)) + "px";
    tip.style.top = (y > picture.height / 2 ? Math.max(-40, y - 22 - tip.offsetHeight) : y + 22) + "px";
  }

  names() {
    const options = [...this.filter.names].slice(0, 400).map(([name, ids]) => { const option = document.createElement("option"); option.value = name; option.label = [...ids].slice(0, 3).join(" "); return option; });
    el("names").replaceChildren(...options);
  }

  fault() {
    const found = this.run.divergence;
    if (!found) return;
    el("fault").hidden = false;
    el("fault").textContent = `${found.kind}: ${found.why}. `;
    for (const [name, at] of [["the entry", found.at], ["its other version", found.other], ["the last in common", found.common]]) {
      if (at < 0) continue;
      const button = document.createElement("button");
      button.textContent = name;
      button.onclick = () => { this.go(at); el("canvas").focus(); };
      el("fault").append(button, " ");
    }
    if (["Clash", "Order", "RedGap"].includes(found.kind) && found.at >= 0 && found.other >= 0) this.versions(found);
  }

  // Both versions, side by side.
  versions(found) {
    const {run} = this, sides = [found.at, found.other], messages = sides.map(at => run.messageOf(at));
    const rows = [["", ...sides.map(at => `${run.lanes[run.lane[at]][1]}, ${run.placed} ${run.numbers[at]}`)],
      ["id", ...messages.map(m => m.id)], ["red number", ...messages.map(m => m.red || "blue")],
      ["counts", ...messages.map(m => m.deps.join(":"))], ["shadow", ...messages.map(m => m.shadow.join(","))]];
    el("versions").hidden = false;
    el("versions").replaceChildren(...rows.map((texts, place) => {
      const row = document.createElement("tr");
      texts.forEach((text, column) => this.step.cell(row, text, column && place ? "td" : "th"));
      if (place && texts[1] !== texts[2]) row.className = "differs";
      return row;
    }));
  }

  // On paper: the part that is seen, sharper, with its messages as a table.
  prints() {
    window.addEventListener("beforeprint", () => { this.printing = true; this.colour(); this.picture.resize(1020, 3); this.picture.draw(); this.list(); });
    window.addEventListener("afterprint", () => { this.printing = false; this.colour(); this.picture.resize(); this.picture.draw(); el("listed").replaceChildren(); });
  }

  // Dark where the reader's system asks for it, and never on paper.
  scheme() {
    this.dark = matchMedia("(prefers-color-scheme: dark)");
    this.dark.addEventListener("change", () => { this.colour(); this.redraw(); });
    this.colour();
  }

  colour() {
    this.run.colours = this.run.palettes[this.dark.matches && !this.printing ? "dark" : "light"];
    this.picture.base = null;
  }

  list() {
    const {run} = this, table = document.createElement("table"), made = [...this.picture.seen(0)].filter(at => run.is(at, "made") && this.filter.has(at)).sort((one, other) => one - other);
    const rows = [["message", "red", "counts", "shadow"], ...made.slice(0, 300).map(at => { const m = run.messageOf(at); return [m.id, m.red || "", m.deps.join(":"), m.shadow.join(",")]; })];
    rows.forEach((cells, place) => {
      const row = document.createElement("tr");
      cells.forEach(text => this.step.cell(row, text, place ? "td" : "th"));
      table.append(row);
    });
    const head = document.createElement("h3");
    head.textContent = `The messages of this picture${made.length > 300 ? `: the first 300 of ${made.length.toLocaleString("en")}` : ""}`;
    el("listed").replaceChildren(head, table);
  }
}

unpacked(el("data").textContent)
  .then(data => { window.page = new Page(new Run(data)); document.documentElement.dataset.ready = "yes"; })
  .catch(fault => { el("status").className = ""; el("status").textContent = `This browser can't show the run: ${fault}`; });
