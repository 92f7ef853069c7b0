// The drawing of the part that is seen, and of the whole run below it.

const FONT = '"DejaVu Sans", Verdana, Helvetica, Arial, sans-serif';
const NAMES = 92, RULER = 22, EDGE = 14;                    // px: lane names at the left, columns' numbers above, the right edge
const WIDEST = 110, MARKS = 5, LINES = 7, IDS = 30, CAPTIONS = 74;  // px a column: the widest, and from when on these are drawn

class Picture {
  constructor(run, filter, canvas, map) {
    Object.assign(this, {run, filter, canvas, map});
    this.lane = run.lanes.length > 8 ? 56 : 66;
    this.left = 0;                                          // the column at the left edge
    this.step = 60;                                         // px a column
    this.at = 0;                                            // the event that is shown
    this.hovered = -1;
    this.resize();
  }

  get height() { return RULER + this.lane * this.run.lanes.length + 10; }
  get room() { return this.width - NAMES - EDGE; }
  x(column) { return NAMES + (column - this.left - 0.5) * this.step; }
  y(lane) { return RULER + (lane + 0.5) * this.lane; }
  column(x) { return (x - NAMES) / this.step + this.left + 0.5; }
  narrowest() { return Math.min(WIDEST, Math.max(this.room / (this.run.columns + 1), 1e-4)); }

  resize(width, scale) {
    this.scale = scale || window.devicePixelRatio || 1;
    this.width = width || this.canvas.parentElement.clientWidth;
    for (const [canvas, height] of [[this.canvas, this.height], [this.map, 44]]) {
      canvas.width = Math.round(this.width * this.scale);
      canvas.height = Math.round(height * this.scale);
      canvas.style.height = height + "px";
    }
    this.base = null;
    this.move(this.left);
  }

  move(left) {
    this.left = Math.max(0, Math.min(left, this.run.columns + 1 - this.room / this.step));
  }

  zoom(factor, x) {
    const column = this.column(x);
    this.step = Math.max(this.narrowest(), Math.min(WIDEST, this.step * factor));
    this.move(column - 0.5 - (x - NAMES) / this.step);
  }

  // Moves as little as shows the event.
  show(at) {
    const x = this.x(this.run.column[at]), margin = Math.min(120, this.room / 4);
    if (x < NAMES + margin) this.move(this.left - (NAMES + margin - x) / this.step);
    else if (x > this.width - EDGE - margin) this.move(this.left + (x - this.width + EDGE + margin) / this.step);
  }

  // The event under a point, or -1.
  hit(x, y) {
    const lane = Math.floor((y - RULER) / this.lane);
    if (lane < 0 || lane >= this.run.lanes.length || x < NAMES || Math.abs(y - this.y(lane)) > 24) return -1;
    const row = this.run.rows[lane], place = this.run.place(lane, this.column(x));
    let best = -1, near = Math.max(9, this.step / 2);
    for (const at of [row[place - 1], row[place]]) {
      if (at === undefined) continue;
      const away = Math.abs(this.x(this.run.column[at]) - x);
      if (away < near) [best, near] = [at, away];
    }
    return best;
  }

  draw() {
    if (!this.canvas.width || !this.map.width) return;
    const began = performance.now();
    const pen = this.pen = this.canvas.getContext("2d");
    pen.setTransform(this.scale, 0, 0, this.scale, 0, 0);
    pen.fillStyle = this.run.colours.paper;
    pen.fillRect(0, 0, this.width, this.height);
    this.boxes = [];                                        // of the words
    this.first = Math.floor(this.left);
    this.end = Math.ceil(this.column(this.width));
    this.token();
    this.lanes();
    if (this.step >= LINES) { this.deliveries(); this.redLine(); this.blueLines(); }
    if (this.step >= MARKS) this.marks(); else this.ticks();
    this.rings();
    this.names();
    this.drawMap();
    this.time = performance.now() - began;
  }

  // How strong marks, and their words, are: what comes later is paler, its words are grey, and what isn't about the filter is hardly there.
  alpha(at) { return this.filter.has(at) ? (at <= this.at ? 1 : 0.38) : 0.09; }
  strength(at) { return this.filter.has(at) ? 1 : 0.12; }

  line(x1, y1, x2, y2, colour, width, dashes) {
    const pen = this.pen;
    pen.strokeStyle = colour; pen.lineWidth = width; pen.setLineDash(dashes || []);
    pen.beginPath(); pen.moveTo(x1, y1); pen.lineTo(x2, y2); pen.stroke();
  }

  between(one, other, colour, width, dashes) {
    const run = this.run;
    this.line(this.x(run.column[one]), this.y(run.lane[one]), this.x(run.column[other]), this.y(run.lane[other]), colour, width, dashes);
  }

  token() {
    const pen = this.pen, {token, edge} = this.run.colours;
    for (const [lane, start, end] of this.run.spans) {
      const left = Math.max(NAMES - 8, this.x(start)), right = Math.min(this.width - 2, this.x(end));
      if (right < NAMES - 8 || left > this.width) continue;
      pen.fillStyle = token; pen.strokeStyle = edge; pen.lineWidth = 1; pen.setLineDash([]);
      pen.beginPath();
      if (this.step < MARKS) pen.rect(left, this.y(lane) - 15, Math.max(right - left, 1), 30); else pen.roundRect(left, this.y(lane) - 13, Math.max(right - left, 1), 26, 6);
      pen.fill();
      if (this.step >= MARKS) pen.stroke();
    }
  }

  lanes() {
    for (let lane = 0; lane < this.run.lanes.length; lane++) this.line(NAMES - 8, this.y(lane), Math.min(this.width, this.x(this.run.columns + 1)), this.y(lane), this.run.colours.lane, 2);
  }

  *seen(margin) {
    for (let lane = 0; lane < this.run.lanes.length; lane++) {
      const row = this.run.rows[lane];
      for (let place = this.run.place(lane, this.first - margin); place < row.length && this.run.column[row[place]] <= this.end + margin; place++) yield row[place];
    }
  }

  deliveries() {
    const {run, pen} = this;
    for (const at of this.seen(40)) {
      const from = run.bows.has(at) ? -1 : run.from[at];
      if (from < 0 && !run.bows.has(at)) continue;
      pen.globalAlpha = this.alpha(at);
      if (run.bows.has(at)) this.bow(run.bows.get(at), at);
      else this.between(from, at, run.is(at, "holding") ? run.colours.red : run.colours.pale, 1.2, run.is(at, "holding") ? [5, 4] : []);
    }
    pen.globalAlpha = 1;
  }

  bow(held, at) {
    const {run, pen} = this, y = this.y(run.lane[at]), x1 = this.x(run.column[held]), x2 = this.x(run.column[at]);
    pen.strokeStyle = this.colour(run.messageOf(at)); pen.lineWidth = 1.8; pen.setLineDash([1.5, 3]); pen.lineCap = "round";
    pen.beginPath(); pen.moveTo(x1, y); pen.bezierCurveTo(x1 + 6, y + 24, x2 - 6, y + 24, x2, y); pen.stroke();
    pen.lineCap = "butt";
  }

  redLine() {
    for (const step of this.run.redsWithin(this.first, this.end)) {
      this.pen.globalAlpha = Math.min(this.alpha(step.one), this.alpha(step.other));
      this.between(step.one, step.other, this.run.colours.red, this.step > 20 ? 3.5 : 2, step.next ? [] : [7, 5]);
    }
    this.pen.globalAlpha = 1;
  }

  blueLines() {
    if (this.step < IDS) return;
    const {run} = this;
    for (const at of this.seen(10)) {
      const m = run.messageOf(at);
      if (!m || m.red || !run.is(at, "made")) continue;
      this.pen.globalAlpha = this.alpha(at);
      for (const before of run.followed(m)) if (run.home[before.at] >= 0) this.between(run.home[before.at], at, run.colours.blue, 1.6);
    }
    this.pen.globalAlpha = 1;
  }

  colour(m) { return m.red ? this.run.colours.red : this.run.colours.blue; }

  marks() {
    for (const at of this.seen(1)) {
      this.pen.globalAlpha = this.alpha(at);
      this.mark(at);
      this.pen.globalAlpha = this.strength(at);
      this.number(at);
      if (this.step >= IDS) this.label(at);
    }
    this.pen.globalAlpha = 1;
  }

  mark(at) {
    const {run, pen} = this, x = this.x(run.column[at]), y = this.y(run.lane[at]), m = run.messageOf(at), kind = run.kindOf(at);
    pen.setLineDash([]);
    if (m) {
      const radius = Math.min(kind === "made" ? 10 : 5.5, Math.max(2, this.step * 0.42));
      this.dot(x, y, radius, m.red > 0, kind === "held");
    } else if (kind === "refused") {
      const half = Math.min(5, this.step / 2.4);
      this.line(x - half, y - half, x + half, y + half, run.colours.ink, 2.2);
      this.line(x - half, y + half, x + half, y - half, run.colours.ink, 2.2);
    } else {
      const half = Math.min(7, this.step / 2);
      pen.beginPath(); pen.moveTo(x, y - half); pen.lineTo(x + half, y); pen.lineTo(x, y + half); pen.lineTo(x - half, y); pen.closePath();
      pen.fillStyle = kind === "holding" ? run.colours.red : run.colours.paper; pen.strokeStyle = run.colours.red; pen.lineWidth = 1.8;
      pen.fill(); pen.stroke();
    }
  }

  // The red number, in its circle.
  number(at) {
    const {run} = this, m = run.messageOf(at);
    if (!m || !m.red || !run.is(at, "made") || this.step < IDS - 6) return;
    const size = m.red < 100 ? 11 : m.red < 10000 ? 7.5 : 6, pen = this.pen;
    pen.font = `bold ${size}px ${FONT}`; pen.textAlign = "center"; pen.fillStyle = at <= this.at ? this.run.colours.paper : run.colours.ink;
    pen.fillText(String(m.red), this.x(run.column[at]), this.y(run.lane[at]) + size / 3);
  }

  dot(x, y, radius, isRed, isHeld) {
    const pen = this.pen, colour = isRed ? this.run.colours.red : this.run.colours.blue;
    pen.fillStyle = isHeld ? this.run.colours.paper : colour; pen.strokeStyle = colour; pen.lineWidth = 1.8;
    pen.beginPath();
    if (isRed) pen.arc(x, y, radius, 0, 7); else pen.rect(x - radius * 0.9, y - radius * 0.9, radius * 1.8, radius * 1.8);
    pen.fill();
    if (isHeld) pen.stroke();
  }

  // Words with a halo, so that they can be read over lines.
  text(x, y, size, text, colour) {
    const pen = this.pen;
    pen.font = `${size}px ${FONT}`; pen.textAlign = "center"; pen.fillStyle = colour;
    pen.strokeStyle = this.run.colours.paper; pen.lineWidth = 3; pen.setLineDash([]); pen.lineJoin = "round";
    pen.strokeText(text, x, y);
    pen.fillText(text, x, y);
    const half = pen.measureText(text).width / 2;
    this.boxes.push({text, left: x - half, right: x + half, top: y - 0.78 * size, bottom: y + 0.22 * size});
  }

  // The words, or as many of their letters as are no wider.
  fitted(words, width, size) {
    this.pen.font = `${size}px ${FONT}`;
    if (this.pen.measureText(words).width <= width) return words;
    let count = words.length - 1;
    while (count > 1 && this.pen.measureText(words.slice(0, count) + "…").width > width) count--;
    return words.slice(0, count) + "…";
  }

  label(at) {
    const {run} = this, x = this.x(run.column[at]), y = this.y(run.lane[at]), m = run.messageOf(at), kind = run.kindOf(at);
    if (x < NAMES + 4) return;
    const found = run.divergence, lift = found && (at === found.at || at === found.other) ? 22 : 17;
    if (m && this.step > m.id.length * 6.4) this.text(x, y - lift, m.id.length < 5 ? 11 : 10, m.id, kind === "made" && at <= this.at ? run.colours.ink : run.colours.grey);
    if (this.step < CAPTIONS) return;
    const words = kind === "made" ? run.caption(m) : kind === "held" ? "held" : kind === "refused" ? run.texts[at].split(":")[0] : kind === "passed" ? "pass" : kind === "holding" ? "token" : "";
    if (words) this.text(x, y + 23, 10, this.fitted(words, this.step - 5, 10), at <= this.at ? run.colours.ink : run.colours.grey);
  }

  // Where columns are narrower than marks: at most one tick for each px and lane.
  ticks() {
    const {run, pen} = this;
    for (let lane = 0; lane < run.lanes.length; lane++) {
      pen.globalAlpha = this.filter.rows ? 0.15 : 1;
      this.tickLane(lane, run.rows[lane]);
      pen.globalAlpha = 1;
      if (this.filter.rows) this.tickLane(lane, this.filter.rows[lane]);
    }
  }

  tickLane(lane, row) {
    const {run, pen} = this, y = this.y(lane);
    let place = this.filter.rows && row === this.filter.rows[lane] ? row.findIndex(at => run.column[at] >= this.first) : run.place(lane, this.first);
    let last = -9;
    for (; place >= 0 && place < row.length; place++) {
      const at = row[place], x = this.x(run.column[at]);
      if (x > this.width) break;
      if (x < last + 1.5) {
        if (this.step < 0.5 && row === run.rows[lane]) place = Math.max(place, run.place(lane, this.column(last + 1.5)) - 1);
        continue;
      }
      last = x;
      const m = run.messageOf(at), half = run.is(at, "made") ? 12 : run.is(at, "held") ? 3 : 7;
      pen.fillStyle = m ? this.colour(m) : run.colours.ink;
      if (at > this.at) pen.fillStyle += "48";
      pen.fillRect(x - 0.6, y - half, 1.2, 2 * half);
    }
  }

  ringAt(at, colour, width, dashes, radius) {
    const pen = this.pen, {run} = this;
    pen.strokeStyle = colour; pen.lineWidth = width; pen.setLineDash(dashes);
    pen.beginPath(); pen.arc(this.x(run.column[at]), this.y(run.lane[at]), radius, 0, 7); pen.stroke();
  }

  rings() {
    const found = this.run.divergence, {ring, ink} = this.run.colours;
    for (const [at, dashes] of found ? [[found.at, []], [found.other, [7, 5]]] : []) if (at >= 0) { this.ringAt(at, ring, 4, dashes, 15); this.ringAt(at, ink, 1.2, dashes, 17.5); }
    if (this.hovered >= 0) this.ringAt(this.hovered, ink, 1.2, [2, 2], 13);
    this.ringAt(this.at, ink, 2.5, [], 13.5);
  }

  // Lane names stand over whatever was moved under them.
  names() {
    const {run, pen} = this, {ink, grey} = run.colours;
    pen.setLineDash([]);
    pen.fillStyle = this.run.colours.paper; pen.fillRect(0, 0, NAMES - 10, this.height); pen.fillRect(0, 0, this.width, RULER - 6);
    pen.textAlign = "right"; pen.font = `bold 13px ${FONT}`; pen.fillStyle = ink;
    run.lanes.forEach(([, name], lane) => pen.fillText(name, NAMES - 16, this.y(lane) + 4, NAMES - 20));
    pen.textAlign = "center"; pen.font = `10px ${FONT}`; pen.fillStyle = grey;
    const wide = 110 / this.step, size = 10 ** Math.floor(Math.log10(wide)), every = Math.max(1, [1, 2, 5, 10].find(n => n * size >= wide) * size);
    for (let column = Math.max(every, Math.ceil(this.column(NAMES) / every) * every); column <= Math.min(this.end, run.columns); column += every)
      if (this.x(column) > NAMES + 12) { pen.fillText(column.toLocaleString("en"), this.x(column), 12); }
  }

  // The whole run, with what is seen.
  drawMap() {
    const pen = this.map.getContext("2d"), {run} = this, wide = this.width - NAMES - EDGE, x = column => NAMES + column / (run.columns + 1) * wide;
    if (!this.base || this.based !== this.filter.about) {
      pen.setTransform(this.scale, 0, 0, this.scale, 0, 0);
      pen.fillStyle = this.run.colours.paper; pen.fillRect(0, 0, this.width, 44);
      const high = 36 / run.lanes.length, rows = this.filter.rows || run.rows;
      rows.forEach((row, lane) => {
        let last = -9;
        for (const at of row) {
          const place = x(run.column[at]);
          if (place < last + 1) continue;
          last = place;
          const m = run.messageOf(at);
          pen.fillStyle = m ? this.colour(m) : run.colours.ink;
          pen.fillRect(place, 4 + lane * high, 1, Math.max(high - 1, 1));
        }
      });
      this.base = pen.getImageData(0, 0, this.map.width, this.map.height);
      this.based = this.filter.about;
    }
    pen.putImageData(this.base, 0, 0);
    pen.fillStyle = run.colours.ink; pen.fillRect(x(run.column[this.at]) - 1, 0, 2, 44);
    pen.strokeStyle = run.colours.ink; pen.lineWidth = 1.5;
    pen.strokeRect(x(this.left), 1, Math.max(3, x(Math.min(this.left + this.room / this.step, run.columns + 1)) - x(this.left)), 42);
    pen.font = `11px ${FONT}`; pen.textAlign = "right"; pen.fillStyle = run.colours.grey; pen.fillText("whole run", NAMES - 16, 26);
  }
}
