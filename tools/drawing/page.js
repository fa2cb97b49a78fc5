"use strict";
(() => {
// ---- what stands in the page; texts of the trace come into it as text alone
const at = (id) => document.getElementById(id);
const data = JSON.parse(at("data").textContent);
const steps = data.steps, last = steps.length - 1;
const SVG = "http://www.w3.org/2000/svg";
let here = 0;

function put(to, ...items) {
  for (const it of items) to.append(it);
  return to;
}
function el(tag, of, ...items) {
  const made = document.createElement(tag);
  if (of) made.className = of;
  return put(made, ...items.filter((it) => it !== null));
}
function svg(tag, given, ...items) {
  const made = document.createElementNS(SVG, tag);
  for (const key in given) made.setAttribute(key, given[key]);
  return put(made, ...items);
}
// what can't be seen is made visible
const seen = (text) => text.replace(/[\u0000-\u001f\u007f-\u009f\u200b-\u200f\u2028-\u202e\u2060-\u2069\ufeff\ufffe\uffff]/g,
  (it) => it < " " ? String.fromCharCode(0x2400 + it.charCodeAt(0)) : "⟨" + it.charCodeAt(0).toString(16).toUpperCase().padStart(4, "0") + "⟩");
const entries = (n) => n.toLocaleString("en") + (n === 1 ? " entry" : " entries");
const count = (n, one) => n.toLocaleString("en") + " " + one + (n === 1 ? "" : "s");

// a text, cut, with a button that shows it whole
function cut(text, most, title, of = "") {
  const whole = seen(text.slice(0, most + 40));
  if (text.length <= most) return el("bdi", of, seen(text));
  const more = el("button", "more", "whole text, " + count(text.length, "letter"));
  more.type = "button";
  more.addEventListener("click", () => {
    at("whole-title").textContent = title;
    at("whole-text").textContent = text;
    at("whole").showModal();
  });
  return el("span", "", el("bdi", of, whole.slice(0, most) + "…"), more);
}

// the last of the items [step, ..] that is at or before a step
function upto(items, step, key = (it) => it[0]) {
  let low = 0, high = items.length;
  while (low < high) {
    const middle = (low + high) >> 1;
    if (key(items[middle]) <= step) low = middle + 1; else high = middle;
  }
  return low - 1;
}
const entriesAt = (step) => upto(data.entries, step, (it) => it.step) + 1;
const isHere = (lane, step) => lane.since <= step && (lane.until === null || lane.until > step);
const treeAt = (lane, step) => {
  const k = upto(lane.shows, step);
  return k < 0 ? null : lane.shows[k][1];
};

// ---- shapes and colours: each client has one of both
const SHAPES = [
  (r) => null,
  (r) => [[-1, -1], [1, -1], [1, 1], [-1, 1]].map(([x, y]) => [x * r * .88, y * r * .88]),
  (r) => [[0, -1.2], [1.2, 0], [0, 1.2], [-1.2, 0]].map(([x, y]) => [x * r, y * r]),
  (r) => [0, 1, 2, 3, 4, 5].map((k) => [Math.cos(k * Math.PI / 3) * r * 1.12, Math.sin(k * Math.PI / 3) * r * 1.12]),
  (r) => [0, 1, 2, 3, 4].map((k) => [Math.sin(k * Math.PI * .4) * r * 1.18, -Math.cos(k * Math.PI * .4) * r * 1.18]),
];
const colour = (look) => "var(--c" + look % 8 + ")";
const pointsOf = (points) => points.map((it) => it.map((k) => k.toFixed(1)).join()).join(" ");
function shape(look, r, given = {}) {
  const points = SHAPES[look % SHAPES.length](r);
  return points ? svg("polygon", { points: pointsOf(points), ...given }) : svg("circle", { r, ...given });
}
function icon(look, size = 22) {
  const half = size / 2;
  const box = { width: size, height: size, viewBox: [-half, -half, size, size].join(" "), "aria-hidden": "true" };
  return svg("svg", box, shape(look, half * .78, { fill: colour(look) }));
}

// ---- the lanes
// from which step on a commit is void where its client shows it, or where it is in the log
const voidFrom = new Map();
const voidSince = (rev, step) => voidFrom.set(rev, Math.min(step, voidFrom.has(rev) ? voidFrom.get(rev) : Infinity));
for (const lane of data.lanes) for (const [step, revs] of lane.void) for (const [rev] of revs) voidSince(rev, step);
for (const entry of data.entries) if (entry.void !== null) voidSince(entry.rev, entry.step);
// (wide enough for the numbers of lines and entries)
const COLUMN = data.entries.length > 999 ? 50 : data.entries.length > 99 || last > 998 ? 44 : 40, TOP = 30, EDGE = 26;
const GLYPHS = {
  insert: "+", remove: "−", move: "→", set: "=", clear: "−", begin: "(", commit: ")", abort: "(", need: "?", undo: "↺", upgrade: "↑",
  join: "", leave: "", drop: "", reconnect: "", ack: "a", fork: "Y", rebase: "R", merge: "M", drop_branch: "−",
};
const x = (step) => EDGE + step * COLUMN;
const rows = [];
let height = TOP;
for (const row of data.rows) {
  const high = row.log ? 76 : row.branch ? 52 : 64;
  rows.push({ ...row, top: height, high, y: height + high / 2 });
  height += high;
}
height += 8;
const logRow = rows.find((it) => it.log);
const yOf = (lane) => lane === -1 || lane === null ? logRow.y : rows[data.lanes[lane].row].y;
const lookOf = (lane) => data.clients[data.lanes[lane].client].look;
const wide = x(last) + EDGE + 8;
at("wide").style.width = wide + "px";
at("wide").style.height = height + "px";

function names() {
  const box = at("names");
  for (const row of rows) {
    row.name = el("div", row.branch ? "branch" : "");
    row.name.style.height = row.high + "px";
    box.append(row.name);
    if (row.log) put(row.name, el("bdi", "", "The log"));
  }
}
function nameRows() {
  for (const row of rows) {
    if (row.log) continue;
    const lanes = row.lanes.map((it) => data.lanes[it]);
    const lane = lanes.find((it) => isHere(it, here)) || lanes.filter((it) => it.since <= here).pop() || lanes[0];
    const is = isHere(lane, here);
    const key = data.lanes.indexOf(lane) + " " + is;
    if (row.key === key) continue;
    row.key = key;
    const client = data.clients[lane.client];
    row.name.className = (row.branch ? "branch" : "") + (is ? "" : " away");
    row.name.replaceChildren();
    if (!row.branch) row.name.append(icon(client.look));
    const name = row.branch ? "branch " + lane.branch : seen(client.name);
    row.name.append(el("bdi", "", name));
    row.name.title = name + (is ? "" : ", not there at this step");
  }
}

const strike = (w, h) => ["halo", "strike"].map((of) => svg("line", { x1: -w, y1: h, x2: w, y2: -h, class: of }));
function pill(px, py, n, step) {
  const entry = data.entries[n - 1], look = data.clients[entry.client].look;
  const width = 12 + 9 * String(n).length, isVoid = entry.void !== null;
  const rx = entry.kind === "commit" ? 5 : 12, of = "pill" + (isVoid ? " void" : "");
  const made = svg("g", { transform: `translate(${px},${py})`, class: "mark" + (step > here ? " later" : "") },
    svg("rect", { x: -width / 2, y: -12, width, height: 24, rx, class: of, stroke: colour(look) }),
    svg("text", {}, String(n)));
  if (isVoid) made.append(svg("line", { x1: -width / 2 - 4, y1: 7, x2: width / 2 + 4, y2: -7, class: "strike" }));
  return made;
}
function arrow([kind, from, lane, to, other, n]) {
  const x1 = x(from), y1 = yOf(lane), x2 = x(to), y2 = yOf(other), long = Math.hypot(x2 - x1, y2 - y1) || 1;
  const ux = (x2 - x1) / long, uy = (y2 - y1) / long, start = 13, end = 16;
  const entry = n ? data.entries[n - 1] : null;
  const look = entry ? data.clients[entry.client].look : lookOf(lane === -1 ? other : lane);
  const of = (to > here ? " later" : to === here ? " now" : "") + (entry && entry.void !== null && kind === "get" ? " cut" : "");
  const ex = x2 - ux * end, ey = y2 - uy * end;
  const tip = [[ex + ux * 5, ey + uy * 5], [ex - ux * 6 - uy * 5, ey - uy * 6 + ux * 5], [ex - ux * 6 + uy * 5, ey - uy * 6 - ux * 5]];
  return [
    svg("line", { x1: x1 + ux * start, y1: y1 + uy * start, x2: ex - ux * 4, y2: ey - uy * 4, class: "arrow" + of, stroke: colour(look) }),
    svg("polygon", { points: pointsOf(tip), class: "head" + of.replace(" cut", ""), fill: colour(look) }),
  ];
}
function mark(step) {
  const it = steps[step], px = x(step);
  if (step === 0) return [];
  if (it.refused) {
    return [svg("g", { transform: `translate(${px},${yOf(it.lane)})`, class: "mark" + (step > here ? " later" : "") },
      svg("polygon", { points: "0,-12 12,0 0,12 -12,0", class: "refused" }), svg("text", { class: "bang" }, "!"))];
  }
  if (it.do === "sequence") return [];
  const y = yOf(it.lane);
  if (it.do === "deliver") return [pill(px, y, it.n, step)];
  if (it.do === "show" || it.do === "pending") {
    return [svg("g", { transform: `translate(${px},${y})`, class: step > here ? "later" : "" }, svg("circle", { r: 6, class: "look" }))];
  }
  const look = lookOf(it.lane);
  const made = svg("g", { transform: `translate(${px},${y})`, class: "mark" + (step > here ? " later" : "") },
    shape(look, 12, it.do === "drop" || it.do === "leave" ? { class: "out", stroke: colour(look) } : { fill: colour(look) }),
    svg("text", { class: "glyph" }, it.do in GLYPHS ? GLYPHS[it.do] : "·"));
  const commit = it.rev ? data.commits[it.rev] : null;
  if (commit && commit.step === step && voidFrom.has(it.rev) && voidFrom.get(it.rev) <= here) {
    made.append(...strike(15, 9));
  }
  if (it.do === "abort") made.append(...strike(15, 9));
  return [made];
}
let from = 0, to = -1;
function drawLanes() {
  const box = at("scroll"), shown = Math.ceil(box.clientWidth / COLUMN) + 1;
  const first = Math.floor((box.scrollLeft - EDGE) / COLUMN);
  from = Math.max(0, first - 20);
  to = Math.min(last, first + shown + 20);
  const left = Math.max(0, x(from) - EDGE), right = x(to) + EDGE + 8;
  const it = at("lanes");
  it.style.left = left + "px";
  it.setAttribute("width", right - left);
  it.setAttribute("height", height);
  it.setAttribute("viewBox", [left, 0, right - left, height].join(" "));
  const all = [svg("rect", { x: x(here) - COLUMN / 2, y: 0, width: COLUMN, height, class: "band" })];
  all.push(svg("line", { x1: x(Math.max(from, 0)) - 14, x2: x(to) + 14, y1: logRow.y, y2: logRow.y, class: "lane log" }));
  for (const row of rows) {
    for (const number of row.lanes || []) {
      const lane = data.lanes[number], end = lane.until === null ? last : lane.until;
      if (lane.since > to || end < from) continue;
      const main = lane.branch === 0;
      // (a line without connection is dotted)
      let begin = lane.since, has = true;
      const part = (upto, is) => {
        const x2 = x(upto) + (lane.until === null && upto === last ? 14 : 0);
        if (upto > begin) all.push(svg("line", { x1: x(begin), x2, y1: row.y, y2: row.y, class: "lane" + (is ? "" : " gone") }));
      };
      if (main) for (const stand of lane.stands) {
        if (stand[5] !== has) { part(stand[0], has); begin = stand[0]; has = stand[5]; }
      }
      part(end, has);
    }
  }
  const crossing = data.arrows.filter((it) => it[1] <= to && it[3] >= from);
  const near = crossing.length < 600 ? crossing : crossing.filter((it) => it[3] === here || it[1] >= from && it[3] <= to).slice(0, 1500);
  for (const it of near) if (it[3] !== here) all.push(...arrow(it));
  for (const it of near) if (it[3] === here) all.push(...arrow(it));
  for (let step = from; step <= to; step++) {
    all.push(svg("text", { x: x(step), y: 15, class: "tick" + (step === here ? " here" : "") }, String(step + 1)));
    all.push(...mark(step));
  }
  for (let k = upto(data.entries, from - 1, (it) => it.step) + 1; k < data.entries.length && data.entries[k].step <= to; k++) {
    const entry = data.entries[k];
    all.push(pill(x(entry.step), logRow.y, entry.n, entry.step));
    const look = data.clients[entry.client].look;
    // (whose entry it is stands on the side of the log on which no arrow comes)
    const py = logRow.y + (yOf(data.clients[entry.client].lanes[0]) < logRow.y ? 25 : -25);
    const place = { transform: `translate(${x(entry.step)},${py})`, class: entry.step > here ? "later" : "" };
    all.push(svg("g", place, shape(look, 5, { fill: colour(look) })));
  }
  for (let step = from; step <= to; step++) {
    const title = svg("title", {}, "line " + (step + 1) + ": " + seen(steps[step].says));
    const hit = svg("rect", { x: x(step) - COLUMN / 2, y: 0, width: COLUMN, height, class: "hit" }, title);
    hit.addEventListener("click", () => go(step));
    all.push(hit);
  }
  at("drawn").replaceChildren(...all);
}
function bringIn() {
  const box = at("scroll"), px = x(here);
  if (px < box.scrollLeft + COLUMN * 1.5 || px > box.scrollLeft + box.clientWidth - COLUMN * 2.5) box.scrollLeft = px - box.clientWidth / 2;
  const all = at("all"), row = rows.find((it) => (it.lanes || []).includes(steps[here].lane)) || logRow;
  const isIn = row.top >= all.scrollTop && row.top + row.high <= all.scrollTop + all.clientHeight;
  if (all.scrollHeight > all.clientHeight && !isIn) all.scrollTop = row.y - all.clientHeight / 2;
}

// ---- trees, and what changed in them since the step before
const MOST = 300;
const table = data.trees;
const isLeaf = (it) => typeof it === "string" || "v" in it;
function leaf(it) {
  if (typeof it !== "string") return el("span", "leaf plain", it.v);
  if (it === "") return el("span", "leaf empty", "“”");
  const quoted = /^\s|\s$|^(-?\d+|true|false|null)$/.test(it);
  return cut(quoted ? "“" + it + "”" : it, 160, "The whole text of a leaf", "leaf");
}
const SIGNS = { new: ["+", "new: "], gone: ["−", "gone: "], moved: ["→", "moved here: "], changed: ["≈", "changed: "] };
function head(of, ...items) {
  if (!of) return el("span", "box", ...items);
  const [sign, word] = SIGNS[of];
  const by = el("span", "by", sign);
  by.setAttribute("aria-hidden", "true");
  return el("span", "box", by, el("span", "hidden", word), ...items);
}

// pairs of what two rows have: [old, new], with null for what is not there
function pairs(old, now) {
  let a = 0, b = 0;
  const most = Math.min(old.length, now.length);
  while (a < most && old[a] === now[a]) a++;
  while (b < most - a && old[old.length - 1 - b] === now[now.length - 1 - b]) b++;
  const p = old.slice(a, old.length - b), q = now.slice(a, now.length - b), middle = [];
  if (p.length * q.length > 250000) {
    p.forEach((it) => middle.push([it, null]));
    q.forEach((it) => middle.push([null, it]));
  } else {
    const wide = q.length + 1, best = new Uint32Array((p.length + 1) * wide);
    for (let i = p.length - 1; i >= 0; i--) for (let j = q.length - 1; j >= 0; j--) {
      best[i * wide + j] = p[i] === q[j] ? best[(i + 1) * wide + j + 1] + 1 : Math.max(best[(i + 1) * wide + j], best[i * wide + j + 1]);
    }
    let i = 0, j = 0;
    while (i < p.length || j < q.length) {
      if (i < p.length && j < q.length && p[i] === q[j]) { middle.push([p[i++], q[j++]]); continue; }
      // what differs between two that are the same: gone and new, or one that changed inside
      const olds = [], news = [];
      while (i < p.length || j < q.length) {
        if (i < p.length && j < q.length && p[i] === q[j]) break;
        if (j >= q.length || i < p.length && best[(i + 1) * wide + j] >= best[i * wide + j + 1]) olds.push(p[i++]); else news.push(q[j++]);
      }
      const same = (s, t) => !isLeaf(table[s]) && !isLeaf(table[t]) && table[s].t === table[t].t && like(s, t);
      let k = 0;
      for (const it of news) {
        const found = olds.findIndex((s, at) => at >= k && same(s, it));
        if (found >= 0) {
          for (; k < found; k++) middle.push([olds[k], null]);
          middle.push([olds[k++], it]);
        } else middle.push([null, it]);
      }
      for (; k < olds.length; k++) middle.push([olds[k], null]);
    }
  }
  const same = (it) => [it, it];
  return [...old.slice(0, a).map(same), ...middle, ...old.slice(old.length - b).map(same)];
}
// whether two nodes of a type have something in common, so that the one may be the other after a change
function like(s, t) {
  const old = table[s], now = table[t];
  if ("r" in old) return old.r.length === 0 || now.r.length === 0 || old.r.some((it) => now.r.includes(it));
  const had = new Map(old.f);
  return now.f.some(([key, it]) => had.get(key) === it) || now.f.length === 0 || old.f.length === 0;
}
function inside(number, into = new Set()) {
  const it = table[number];
  into.add(number);
  if (!isLeaf(it)) for (const inner of it.r || it.f.map((pair) => pair[1])) inside(inner, into);
  return into;
}
function lost(old, now, gone, made) {
  // collects what is gone and what is new between two trees, so that what moved can be told
  if (old === now) return;
  if (old === null) { inside(now, made); return; }
  if (now === null) { inside(old, gone); return; }
  const s = table[old], t = table[now];
  if (isLeaf(s) || isLeaf(t) || s.t !== t.t || "r" in s !== "r" in t) { inside(old, gone); inside(now, made); return; }
  if ("r" in s) for (const [a, b] of pairs(s.r, t.r)) lost(a, b, gone, made);
  else for (const [a, b] of fields(s, t)) lost(a, b, gone, made);
}
function fields(s, t) {
  const old = new Map(s.f), now = new Map(t.f);
  const of = (map, key) => map.has(key) ? map.get(key) : null;
  return [...new Set([...old.keys(), ...now.keys()])].sort().map((key) => [of(old, key), of(now, key), key]);
}
function view(old, now, most) {
  const gone = new Set(), made = new Set();
  if (old !== null && now !== null) lost(old, now, gone, made);
  let room = most, left = 0;
  function item(old, now, key) {
    const label = key === undefined ? null : el("span", "key", cut(key, 64, "The whole key"));
    if (now === null) {
      // (what stands elsewhere now is told there)
      return el("li", "gone", label, head("gone", made.has(old) && !isLeaf(table[old]) ? el("span", "", brief(old), " (moved)") : brief(old)));
    }
    const of = old === now ? "" : old === null ? (gone.has(now) ? "moved" : "new") : "";
    return el("li", of, label, ...tree(old, now, of, key));
  }
  function brief(number) {
    const it = table[number];
    if (isLeaf(it)) return leaf(it);
    let text = "";
    const walk = (k) => {
      const inner = table[k];
      if (text.length > 60) return;
      if (isLeaf(inner)) text += (text ? ", " : "") + (typeof inner === "string" ? inner.slice(0, 60) : inner.v);
      else for (const next of inner.r || inner.f.map((pair) => pair[1])) walk(next);
    };
    walk(number);
    return el("span", "", el("span", "type", cut(it.t, 64, "The whole type") , " "), seen(text.length > 60 ? text.slice(0, 60) + "…" : text));
  }
  function tree(old, now, of, key) {
    if (room-- <= 0) { left += inside(now).size; return [el("span", "empty", "…")]; }
    const t = table[now], s = old === null || of ? null : table[old];
    if (isLeaf(t)) {
      if (s && old !== now) return [el("span", "gone", head("gone", brief(old))), " ", el("span", "changed", head("changed", leaf(t)))];
      return [head(of, leaf(t))];
    }
    const both = s && !isLeaf(s) && s.t === t.t && "r" in s === "r" in t ? s : null;
    const parts = "r" in t
      ? (both ? pairs(both.r, t.r) : t.r.map((it) => [it, it]))
      : (both ? fields(both, t) : t.f.map(([key, it]) => [it, it, key]));
    const name = head(of, el("span", "type", key === t.t ? "" : el("bdi", "", seen(t.t)), parts.length ? "" : key === t.t ? "empty" : ", empty"));
    const list = el("ul", "");
    for (let k = 0; k < parts.length; k++) {
      // (of a long run of items that are as they were the middle is left out, until the whole is asked for)
      let run = k;
      while (most === MOST && run < parts.length && parts[run][0] === parts[run][1] && isLeaf(table[parts[run][1]])) run++;
      if (run - k > 14) {
        const start = k ? 4 : 8, end = run < parts.length ? 4 : 2;
        for (const [a, b, key] of parts.slice(k, k + start)) list.append(item(a, b, key));
        list.append(el("li", "empty", "… " + (run - k - start - end) + " more as before"));
        left += run - k - start - end;
        for (const [a, b, key] of parts.slice(run - end, run)) list.append(item(a, b, key));
        k = run - 1;
      } else list.append(item(...parts[k]));
    }
    const before = s && !both ? [el("span", "gone", head("gone", brief(old))), " "] : [];
    return parts.length ? [...before, name, list] : [...before, name];
  }
  const box = el("div", "tree", ...tree(old === null ? now : old, now, ""));
  return [box, left];
}

// ---- the cards
const cards = new Map(), whole = new Set();
const reason = (k) => data.reasons[k][1], shortly = (k) => data.reasons[k][0];
function stands(lane, step) {
  const k = upto(lane.stands, step), list = el("ol", "stands");
  if (k < 0) return [list, 0];
  const [, received, base, own, opened] = lane.stands[k];
  const v = upto(lane.void, step), voids = new Map(v < 0 ? [] : lane.void[v][1]);
  const line = (of, tag, rev, text, why) => {
    const commit = rev ? data.commits[rev] : null;
    const what = text + (commit ? ": " + commit.what : "");
    const told = why === null ? el("bdi", "", seen(what)) : el("s", "", seen(what));
    list.append(el("li", of + (why === null ? "" : " void"), el("span", "tag", tag), told,
      why === null ? null : el("span", "reason", "Void: " + seen(shortly(why)))));
  };
  const got = [];
  for (let n = received; n > 0 && got.length < 6; n--) if (data.entries[n - 1].kind === "commit") got.push(n);
  let earlier = 0;
  if (got.length === 6) for (let n = got[5] - 1; n > 0 && earlier < 1; n--) if (data.entries[n - 1].kind === "commit") earlier++;
  if (earlier) list.append(el("li", "got", el("span", "tag", "…"), el("span", "", "and those before")));
  for (const n of got.reverse()) {
    const entry = data.entries[n - 1], other = data.clients[entry.client];
    line("got", n, entry.rev, other.name + "’s " + entry.rev, entry.void);
  }
  const some = (revs, of, tag) => {
    revs.slice(0, 8).forEach((rev) => line(of, tag, rev, rev, voids.has(rev) ? voids.get(rev) : null));
    if (revs.length > 8) list.append(el("li", of, el("span", "tag", tag), el("span", "", "and " + (revs.length - 8) + " more")));
  };
  if (lane.branch) { some(base, "pending", "parent"); some(own, "own", "branch"); } else some(own, "pending", "pending");
  if (opened) {
    const of = data.commits[opened];
    list.append(el("li", "open", el("span", "tag", "open"), el("span", "", "the transaction " + opened + ", seen here alone")));
  }
  return [list, got.length + base.length + own.length + (opened ? 1 : 0)];
}
function part(number, step) {
  // a line's tree and what it stands on, made again only where one of them changed
  const lane = data.lanes[number], now = treeAt(lane, step), before = step > lane.since ? treeAt(lane, step - 1) : lane.branch ? now : data.opening;
  const old = before === null ? now : before;
  const key = [now, old, upto(lane.stands, step), upto(lane.void, step), whole.has(number)].join();
  const had = cards.get(number);
  if (had && had.key === key) return had.box;
  const box = el("div", lane.branch ? "branch-of" : "");
  if (lane.branch) {
    const parent = data.lanes[lane.parent].branch;
    box.append(el("h4", "", "Branch " + lane.branch + ", on " + (parent ? "branch " + parent : "the main line")));
  }
  if (now === null) box.append(el("p", "empty", "The tree can’t be told: the program refuses to show it."));
  else {
    const [tree, left] = view(old, now, whole.has(number) ? Infinity : MOST);
    box.append(tree);
    if (left) {
      const more = el("button", "more", "show the whole tree, " + count(left, "node") + " more");
      more.type = "button";
      more.addEventListener("click", () => { whole.add(number); show(); });
      box.append(more);
    }
  }
  const [list, some] = stands(lane, step);
  if (some) put(box, el("h4", "", lane.branch ? "Stands on" : "Received, then pending"), list);
  cards.set(number, { key, box });
  return box;
}
const clientBoxes = new Map();
function drawCards() {
  const box = at("cards"), size = entriesAt(here), list = [];
  data.clients.forEach((client, k) => {
    if (client.since > here || client.until !== null && client.until <= here) return;
    let made = clientBoxes.get(k);
    if (!made) {
      made = { box: el("article", "card"), state: el("p", "state"), parts: el("div", "") };
      made.box.style.setProperty("--mine", colour(client.look));
      put(made.box, el("h3", "", icon(client.look), el("bdi", "", seen(client.name))), made.state, made.parts);
      clientBoxes.set(k, made);
    }
    const lanes = client.lanes.filter((it) => isHere(data.lanes[it], here));
    const main = data.lanes[client.lanes[0]], stand = main.stands[upto(main.stands, here)];
    const away = stand && !stand[5] ? ", not connected" : "";
    made.state.textContent = "Session " + client.session + away + " · received " + (stand ? stand[1] : 0) + " of " + entries(size);
    const parts = lanes.map((it) => part(it, here));
    if (made.parts.children.length !== parts.length || parts.some((it, k) => made.parts.children[k] !== it)) made.parts.replaceChildren(...parts);
    const step = steps[here];
    made.box.classList.toggle("acts", here > 0 && step.client === k);
    // (where they are many, who acts comes first)
    if (data.clients.length > 6 && made.box.classList.contains("acts")) list.unshift(made.box); else list.push(made.box);
  });
  const kept = new Set(list);
  for (const it of [...box.children]) if (!kept.has(it)) it.remove();
  list.forEach((it, k) => { if (box.children[k] !== it) box.insertBefore(it, box.children[k] || null); });
  if (!list.length) {
    const opening = el("article", "card", el("h3", "", "At the beginning"), view(data.opening, data.opening, MOST)[0]);
    opening.style.setProperty("--mine", "var(--muted)");
    box.replaceChildren(opening);
  }
}

// ---- going through the steps
function show() {
  const step = steps[here];
  at("slider").value = here;
  at("slider").setAttribute("aria-valuetext", "line " + (here + 1) + " of " + (last + 1));
  at("count").textContent = "line " + (here + 1) + " of " + (last + 1);
  at("says").textContent = seen(step.says);
  at("why").hidden = step.why === undefined;
  at("why").textContent = step.why === undefined ? "" : seen(reason(step.why));
  at("line").replaceChildren(cut(step.line, 1200, "The whole line"));
  at("answer").replaceChildren(cut(step.answer, 1200, "The whole answer"));
  for (const id of ["first", "back"]) at(id).disabled = here === 0;
  for (const id of ["next", "last"]) at(id).disabled = here === last;
  nameRows();
  bringIn();
  drawLanes();
  drawCards();
}
function go(step) {
  here = Math.max(0, Math.min(last, step));
  show();
}
let playing = null;
function pause() {
  clearInterval(playing);
  playing = null;
  at("play").textContent = "Play";
  at("told").setAttribute("aria-live", "polite");
}
function play() {
  if (playing !== null) return pause();
  if (here === last) go(0);
  at("play").textContent = "Pause";
  at("told").setAttribute("aria-live", "off");
  playing = setInterval(() => {
    go(here + 1);
    if (here === last) pause();
  }, 1100);
}
const by = (step) => { pause(); go(step); };
at("first").addEventListener("click", () => by(0));
at("back").addEventListener("click", () => by(here - 1));
at("next").addEventListener("click", () => by(here + 1));
at("last").addEventListener("click", () => by(last));
at("play").addEventListener("click", play);
at("slider").max = last;
at("slider").addEventListener("input", () => by(Number(at("slider").value)));
document.addEventListener("keydown", (it) => {
  if (it.ctrlKey || it.altKey || it.metaKey || at("whole").open) return;
  const step = it.key === "ArrowLeft" ? -1 : it.key === "ArrowRight" ? 1 : 0;
  if (step) {
    it.preventDefault();
    by(here + step);
  } else if (it.key === " " && !(it.target instanceof HTMLButtonElement) && it.target.tagName !== "SUMMARY") {
    it.preventDefault();
    play();
  }
});
let waits = false;
at("scroll").addEventListener("scroll", () => {
  if (waits) return;
  waits = true;
  requestAnimationFrame(() => {
    waits = false;
    const box = at("scroll"), first = (box.scrollLeft - EDGE) / COLUMN;
    if (first < from + 5 && from > 0 || first + box.clientWidth / COLUMN > to - 5 && to < last) drawLanes();
  });
});
window.addEventListener("resize", () => { bringIn(); drawLanes(); });

function legend() {
  const box = at("marks"), sign = (...items) => svg("svg", { width: 34, height: 30, viewBox: "-17 -15 34 30", "aria-hidden": "true" }, ...items);
  const of = (glyph) => sign(shape(0, 12, { fill: colour(0) }), svg("text", { class: "glyph" }, glyph));
  const line = (picture, text) => box.append(el("div", "", picture, el("span", "", text)));
  const entry = (rx, ...more) => {
    const of = "pill" + (more.length ? " void" : "");
    return sign(svg("rect", { x: -13, y: -12, width: 26, height: 24, rx, class: of, stroke: colour(0) }), svg("text", {}, "3"), ...more);
  };
  const used = new Set(steps.map((it) => it.do));
  line(entry(5), "entry 3 of the log, a commit; on a client’s lane: the client receives it");
  line(entry(12), "an entry that is no commit: somebody joins, goes, comes back, or tells what arrived");
  line(entry(5, svg("line", { x1: -16, y1: 6, x2: 16, y2: -6, class: "strike" })), "void: it has no effect");
  line(sign(shape(0, 12, { fill: colour(0) })), "joins, or comes back");
  if (used.has("drop") || used.has("leave")) line(sign(shape(0, 12, { class: "out", stroke: colour(0) })), "loses the connection, or leaves");
  line(sign(svg("polygon", { points: "0,-12 12,0 0,12 -12,0", class: "refused" }), svg("text", { class: "bang" }, "!")), "a step that is refused");
  const words = {
    insert: "puts something in", remove: "takes something out, or empties a field", move: "moves something", set: "sets a field",
    begin: "begins a transaction", need: "puts a condition on it", commit: "closes it", undo: "takes a commit back",
    upgrade: "widens the schema", fork: "forks a branch", rebase: "rebases a branch", merge: "merges a branch", ack: "tells what arrived",
  };
  for (const it in words) if (used.has(it) || it === "remove" && used.has("clear")) line(of(GLYPHS[it]), words[it]);
  if (used.has("show") || used.has("pending")) line(sign(svg("circle", { r: 6, class: "look" })), "the trace looks at what is shown or pending");
  if (used.has("drop")) line(sign(svg("line", { x1: -17, x2: 17, y1: 0, y2: 0, class: "lane gone" })), "no connection");
}

at("title").textContent = seen(data.title);
at("summary").textContent = count(data.clients.length, "session") + ", " + count(last, "step") + ", and " + entries(data.entries.length)
  + " of the log. Press → to step, or Play.";
if (data.ended) {
  at("ended").hidden = false;
  put(at("ended"), el("p", "", data.ended.why));
  if (data.ended.text) put(at("ended"), put(el("div", "json"), cut(data.ended.text, 300, "The whole line")));
}
data.clients.forEach((it) => { it.lanes = []; });
data.lanes.forEach((it, k) => data.clients[it.client].lanes.push(k));
steps.forEach((it) => { if (typeof it.lane === "number" && it.lane >= 0) it.client = data.lanes[it.lane].client; });
for (const entry of data.entries) if (steps[entry.step].do === "sequence") steps[entry.step].client = entry.client;
names();
legend();
const hash = /^#line=(\d+)$/.exec(location.hash);
go(hash ? Number(hash[1]) - 1 : 0);
window.addEventListener("hashchange", () => {
  const found = /^#line=(\d+)$/.exec(location.hash);
  if (found) by(Number(found[1]) - 1);
});
})();
