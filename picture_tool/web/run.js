"use strict";
// What happened: events with their messages, the state of all sites at each, and what is about an item or a user.

const CHECKPOINT = 1000;    // events between two states that are kept
const TOLD = {user: 1, item: 2, bid: 3, buy: 3, comment: 4, restock: 2, rename: 3};
const REFERS = {user: [], item: [1], bid: [1, 2], buy: [1, 2], close: [1], comment: [1, 2, 3], restock: [1], rename: [1]};

async function unpacked(text) {
  const bytes = Uint8Array.from(atob(text), letter => letter.charCodeAt(0));
  const stream = new Blob([bytes]).stream().pipeThrough(new DecompressionStream("deflate"));
  return JSON.parse(await new Response(stream).text());
}

class Run {
  constructor(data) {
    Object.assign(this, data, {colours: data.colours.light, palettes: data.colours});
    this.count = this.lane.length;
    this.messages = data.messages.map((fields, at) => {
      const [origin, number, red, deps, ...shadow] = fields;
      return {at, origin, number, red, deps: deps.split(":").map(Number), shadow, id: origin + "." + number};
    });
    this.rows = this.lanes.map(() => []);                   // the events of each lane
    this.home = new Int32Array(this.messages.length).fill(-1);
    this.byId = new Map();
    this.columns = 0;
    for (let at = 0; at < this.count; at++) {
      this.rows[this.lane[at]].push(at);
      this.columns = Math.max(this.columns, this.column[at]);
      const m = this.messageOf(at);
      if (!m) continue;
      if (this.is(at, "made")) this.home[m.at] = at;
      const versions = this.byId.get(m.id);
      if (!versions) this.byId.set(m.id, [m]); else if (!versions.includes(m)) versions.push(m);
    }
    this.rowOf = new Int32Array(this.count);                // an event's place in its lane
    for (const row of this.rows) row.forEach((at, place) => { this.rowOf[at] = place; });
    this.bows = this._bows();
    this.spans = this._spans();
    this.reds = this._reds();
    this.states = this._states();
  }

  is(at, kind) { return this.kinds[this.kind[at]] === kind; }
  kindOf(at) { return this.kinds[this.kind[at]]; }
  messageOf(at) { return this.message[at] < 0 ? null : this.messages[this.message[at]]; }

  // The first place in a lane at this column or behind it.
  place(lane, column) {
    const row = this.rows[lane];
    let low = 0, high = row.length;
    while (low < high) {
      const middle = (low + high) >> 1;
      if (this.column[row[middle]] < column) low = middle + 1; else high = middle;
    }
    return low;
  }

  // From where a message was held to where it was released, by the event of the release.
  _bows() {
    const held = new Map(), bows = new Map();
    for (let at = 0; at < this.count; at++) {
      const key = this.lane[at] + " " + this.message[at];
      if (this.is(at, "held")) held.set(key, at);
      else if (this.is(at, "released") && held.has(key)) bows.set(at, held.get(key));
    }
    return bows;
  }

  // Where the token was: lane, and from which column to which.
  _spans() {
    const spans = [], since = new Map();
    if (this.holder >= 0) since.set(this.holder, 0);
    for (let at = 0; at < this.count; at++) {
      if (this.is(at, "holding")) since.set(this.lane[at], this.column[at]);
      else if (this.is(at, "passed") && since.has(this.lane[at])) {
        spans.push([this.lane[at], since.get(this.lane[at]), this.column[at]]);
        since.delete(this.lane[at]);
      }
    }
    for (const [lane, start] of since) spans.push([lane, start, this.columns + 1]);
    return spans;
  }

  // The steps of the red line: two events and whether a number is left out between; in order of their first column, with the
  // greatest last column so far, so that those that are seen are found.
  _reds() {
    const byNumber = new Map(), steps = [];
    for (let at = 0; at < this.count; at++) {
      const m = this.messageOf(at);
      if (m && m.red && this.is(at, "made")) byNumber.set(m.red, [...(byNumber.get(m.red) || []), at]);
    }
    const numbers = [...byNumber.keys()].sort((one, other) => one - other);
    for (let k = 1; k < numbers.length; k++)
      for (const one of byNumber.get(numbers[k - 1])) for (const other of byNumber.get(numbers[k]))
        steps.push({one, other, next: numbers[k - 1] + 1 === numbers[k], left: Math.min(this.column[one], this.column[other]), right: Math.max(this.column[one], this.column[other])});
    steps.sort((a, b) => a.left - b.left);
    let most = 0;
    for (const step of steps) step.most = most = Math.max(most, step.right);
    return steps;
  }

  redsWithin(left, right) {
    let low = 0, high = this.reds.length;
    while (low < high) {
      const middle = (low + high) >> 1;
      if (this.reds[middle].most < left) low = middle + 1; else high = middle;
    }
    const found = [];
    for (; low < this.reds.length && this.reds[low].left <= right; low++) if (this.reds[low].right >= left) found.push(this.reds[low]);
    return found;
  }

  // The states of all sites, one every CHECKPOINT events.

  _states() {
    const state = {at: 0, counts: this.lanes.map(() => new Int32Array(this.sites)), reds: this.lanes.map(() => 0), waiting: this.lanes.map(() => new Set()), holder: this.holder};
    const states = [this.copy(state)];
    for (let at = 0; at < this.count; at++) {
      this.advance(state);
      if (state.at % CHECKPOINT === 0) states.push(this.copy(state));
    }
    this.final = state;
    return states;
  }

  copy(state) {
    return {at: state.at, counts: state.counts.map(row => row.slice()), reds: state.reds.slice(), waiting: state.waiting.map(set => new Set(set)), holder: state.holder};
  }

  advance(state) {
    const at = state.at++, lane = this.lane[at], m = this.messageOf(at), kind = this.kindOf(at);
    if (kind === "held") state.waiting[lane].add(m.at);
    else if (kind === "made" || kind === "released") {
      state.waiting[lane].delete(m.at);
      state.counts[lane][m.origin]++;
      if (m.red) state.reds[lane]++;
    } else if (kind === "passed") state.holder = -1;
    else if (kind === "holding") state.holder = lane;
  }

  // The state after the first `events` events.
  stateAt(events) {
    const state = this.copy(this.states[Math.min(this.states.length - 1, Math.floor(events / CHECKPOINT))]);
    while (state.at < events) this.advance(state);
    return state;
  }

  // What a message waits for at a lane: the first missing message of each site, and the first missing red number.
  awaited(state, lane, m) {
    const counts = state.counts[lane];
    const found = m.deps.flatMap((need, site) => counts[site] < need ? [site + "." + (counts[site] + 1)] : []);
    if (state.reds[lane] + 1 < m.red) found.push("red " + (state.reds[lane] + 1));
    return found;
  }

  // The message with an id; of several versions, the one that the lane has.
  known(id, lane) {
    const versions = this.byId.get(id) || [];
    if (versions.length < 2) return versions;
    return versions.filter(m => this.rows[lane].some(at => this.message[at] === m.at)).slice(0, 1);
  }

  // The messages that one follows directly.
  followed(m) {
    const last = m.deps.flatMap((count, site) => this.known(site + "." + count, this.lane[this.home[m.at]]));
    return last.filter(one => !last.some(other => other !== one && one.number <= other.deps[one.origin]));
  }

  caption(m) {
    const text = TOLD[m.shadow[0]] ? m.shadow[0] + " " + m.shadow[TOLD[m.shadow[0]]] : m.shadow[0];
    return text.length <= 12 ? text : text.slice(0, 11) + "…";
  }

  record(m) {
    const quoted = text => /[",]/.test(text) ? '"' + text.replaceAll('"', '""') + '"' : text;
    const version = m.shadow[0] === "restock" || m.shadow[0] === "rename" ? 2 : 1;
    return ["msg", version, m.origin, m.number, m.red, m.deps.join(":"), ...m.shadow.map(quoted)].join(",");
  }

  // What happens at an event, in words.
  words(at) {
    const m = this.messageOf(at), where = this.lanes[this.lane[at]][1], kind = this.kindOf(at);
    if (kind === "made") return `${where} makes ${m.id}${m.red ? `, red ${m.red}` : ""}: ${m.shadow.join(",")}`;
    if (kind === "released") return `${where} releases ${m.id}: ${m.shadow.join(",")}`;
    if (kind === "held") {
      const awaited = this.awaited(this.stateAt(at), this.lane[at], m);
      return `${where} holds ${m.id}: it waits for ${awaited.join(", ")}`;
    }
    if (kind === "refused") return `${where} refuses: ${this.texts[at]}`;
    return kind === "passed" ? `${where} passes the token` : `${where} takes the token`;
  }
}

// Which messages are about an item or a user.

class Filter {
  constructor(run) { this.run = run; this.clear(); this._name(); }

  clear() { this.ids = null; this.is = null; this.count = 0; this.about = ""; this.rows = null; }

  _name() {
    this.names = new Map();
    for (const m of this.run.messages) {
      const kind = m.shadow[0];
      const name = kind === "user" ? m.shadow[1] : kind === "item" ? m.shadow[2] : kind === "rename" ? m.shadow[3] : null;
      if (name === null) continue;
      const id = kind === "rename" ? m.shadow[1] : m.id;
      this.names.set(name, (this.names.get(name) || new Set()).add(id));
    }
  }

  set(term) {
    this.clear();
    term = term.trim();
    if (!term) return;
    this.about = term;
    this.ids = new Set(this.names.get(term) || (/^\d+\.\d+$/.test(term) ? [term] : []));
    if (!this.ids.size) for (const [name, ids] of this.names) if (name.startsWith(term)) ids.forEach(id => this.ids.add(id));
    const run = this.run, about = run.messages.map(m => this.touches(m));
    this.is = new Uint8Array(run.count);
    for (let at = 0; at < run.count; at++) {
      const m = run.message[at];
      this.is[at] = m >= 0 ? about[m] : (run.texts[at] || "").split(/[,:\s]+/).some(part => this.ids.has(part));
    }
    this.rows = run.rows.map(row => row.filter(at => this.is[at]));
    this.count = about.filter(Boolean).length;
  }

  touches(m) {
    if (this.ids.has(m.id)) return true;
    return (REFERS[m.shadow[0]] || []).some(place => this.ids.has(m.shadow[place]));
  }

  has(at) { return !this.is || this.is[at] === 1; }
}
