"use strict";
// The page draws what it was given: bars from the log, and of each step what the desk answered. It works out nothing about queues.

// What goes wrong in a script is said in the page.
const complain = (words) => {
  const errors = document.getElementById("errors");
  errors.hidden = false;
  errors.textContent += `${words}\n`;
};
window.onerror = (message, _file, line) => complain(`script error: ${message} (line ${line})`);

const at = (id) => document.getElementById(id);
const data = JSON.parse(at("data").textContent);
const clean = (words) => String(words).replace(/[&<>"]/g, (c) => `&#${c.charCodeAt(0)};`);

// ---- lanes: where things stand

const AXIS = 46; // the steps' numbers
const BAR = 30; // a bar's height
const LABEL = 24; // the words above a bar
const RAIL = 52; // a queue's line under its owner's lane, with moments
const LANE = LABEL + BAR + RAIL;

// a lane for each process with the line of its queue; a log at fault may name others
const rows = [...new Set([...Array(data.processes).keys(), ...data.bars.flatMap(([process, queue]) => [process, queue])])].sort((a, b) => a - b);
const yOf = new Map(rows.map((id, i) => [id, AXIS + i * LANE]));
const height = AXIS + rows.length * LANE;
const barTop = (process) => yOf.get(process) + LABEL;
const railOf = (queue) => yOf.get(queue) + LABEL + BAR + 18;

const bars = data.bars.map(([process, queue, kind, effect, start, end, moment, words, marks]) =>
  ({ process, queue, kind, effect, start: Math.min(start, end), end: Math.max(start, end), moment, words, marks }));
// a bar's words may go on as far as the next bar of its lane
for (const bar of bars)
  bar.next = Math.min(Infinity, ...bars.filter((other) => other.process === bar.process && other.start > bar.start).map((other) => other.start));

const byMoment = bars.filter((bar) => bar.moment >= 0).sort((a, b) => a.moment - b.moment);
const unseen = new Set(bars.filter((bar) => bar.marks.includes("unseen")).map((bar) => bar.end)); // a reset is its pop's last step

const pencil = document.createElement("canvas").getContext("2d");
// The first of these words for which there is room, or the last of them cut.
const fit = (all, room, size) => {
  pencil.font = `600 ${size}px ${getComputedStyle(document.body).fontFamily}`;
  const whole = all.find((words) => pencil.measureText(words).width <= room);
  if (whole) return whole;
  const words = all.at(-1);
  let n = words.length;
  while (n > 0 && pencil.measureText(`${words.slice(0, n)}…`).width > room) n -= 1;
  return n > 2 ? `${words.slice(0, n).trimEnd()}…` : "";
};

// ---- lanes: the drawing of the steps from .. to, each `wide` pixels

const shape = (kind, x, y, effect) => {
  const cls = `shape ${kind}${effect ? "" : " hollow"}`;
  if (kind === "push") return `<circle class="${cls}" cx="${x}" cy="${y}" r="7"/>`;
  if (kind === "pop") return `<rect class="${cls}" x="${x - 6}" y="${y - 6}" width="12" height="12"/>`;
  return `<path class="${cls}" d="M${x} ${y - 9}l9 9l-9 9l-9 -9z"/>`;
};

const axis = (view) => {
  const every = [1, 2, 5, 10, 20, 50, 100, 200, 500, 1000, 5000].find((n) => n * view.wide >= 44);
  let drawn = "";
  for (let n = Math.ceil(view.from / every) * every; n < view.to; n += every)
    drawn += `<text class="number" x="${(n + 0.5) * view.wide}" y="34">${n}</text>`;
  return drawn;
};

const HATCH = '<pattern id="hatch" width="7" height="7" patternUnits="userSpaceOnUse" patternTransform="rotate(45)"><path d="M0 0v7"/></pattern>';

// The closing's steps are set off.
const closing = (view) => {
  if (!data.steps || data.count === data.scheduled) return "";
  const x = data.scheduled * view.wide;
  return `${HATCH}<rect class="closing" x="${x}" y="0" width="${(data.count - data.scheduled) * view.wide}" height="${height}" fill="url(#hatch)"/>` +
    `<line class="closing-edge" x1="${x}" x2="${x}" y1="0" y2="${height}"/><text class="closing-word" x="${x + 6}" y="14">closing</text>`;
};

const grounds = (view) => {
  const cursor = `<rect class="cursor" x="${view.step * view.wide}" y="0" width="${view.wide}" height="${height}"/>`;
  let drawn = (view.step >= 0 ? cursor : "") + closing(view);
  for (const id of rows) {
    const ends = `x1="${view.from * view.wide}" x2="${view.to * view.wide}"`;
    drawn += `<line class="lane" ${ends} y1="${barTop(id) + BAR / 2}" y2="${barTop(id) + BAR / 2}"/>`;
    drawn += `<line class="rail" ${ends} y1="${railOf(id)}" y2="${railOf(id)}"/>`;
  }
  return drawn;
};

const label = (bar, view) => {
  const begins = Math.max(bar.start * view.wide + 2, view.left + 6);
  const marks = bar.marks.split(" ").filter(Boolean);
  const words = (some) => [`${data.shapes[bar.kind] ?? ""} ${bar.words}`, ...some.map((mark) => data.marks[mark])].join(" · ");
  const room = Math.min(bar.next, view.last) * view.wide - begins - 4;
  if (begins >= (bar.end + 1) * view.wide) return "";
  const seen = fit([words(marks), words(marks.filter((mark) => mark !== "unseen"))], room, view.size); // a reset has its ring besides
  return seen && `<text class="words ${bar.marks}" x="${begins}" y="${barTop(bar.process) - 8}">${clean(seen)}</text>`;
};

const drawBar = (bar, view) => {
  const x = bar.start * view.wide + 1.5;
  const cls = `bar ${bar.kind} ${bar.marks}${bar.effect ? "" : " hollow"}`;
  const w = Math.max(2, (bar.end - bar.start + 1) * view.wide - 3);
  return `<g><title>${clean(`process ${bar.process}: ${bar.words}, steps ${bar.start} to ${bar.end}`)}</title>` +
    `<rect class="${cls}" x="${x}" y="${barTop(bar.process)}" width="${w}" height="${BAR}" rx="6"/></g>${label(bar, view)}`;
};

const momentX = (bar, view) => (bar.moment / 2 + 0.5) * view.wide;

const drawMoment = (bar, view) => {
  const x = momentX(bar, view);
  const [from, to] = [barTop(bar.process) + (railOf(bar.queue) > barTop(bar.process) ? BAR : 0), railOf(bar.queue)];
  return `<line class="thread ${bar.kind}" x1="${x}" x2="${x}" y1="${from}" y2="${to}"/>${shape(bar.kind, x, to, bar.effect)}`;
};

// Numbers of moments that are close to one another step aside, and where there is no room the later one is left out.
const momentNumbers = (moments, view) => {
  const last = new Map(); // of each queue, where its last number ends
  return moments.map((bar, i) => {
    const x = momentX(bar, view);
    const half = 5 + 4 * String(bar.moment).length;
    const next = moments.slice(i + 1).find((other) => other.queue === bar.queue);
    const close = next && momentX(next, view) - x < 2 * half;
    const middle = Math.max(close ? x - half / 2 : x, (last.get(bar.queue) ?? -Infinity) + half);
    if (middle - x > half) return "";
    last.set(bar.queue, middle + half);
    return `<text class="moment" x="${middle}" y="${railOf(bar.queue) + 26}">${bar.moment}</text>`;
  }).join("");
};

// An idle step is faint; a reset that a take did not see has a ring; a step of a call has its row's name where there is room for it.
const drawSteps = (view) => {
  let drawn = "";
  for (let n = Math.max(0, view.from); n < Math.min(view.to, data.count); n += 1) {
    const [process, , stage] = data.steps[n];
    const [x, y] = [n * view.wide, barTop(process) + BAR / 2];
    if (unseen.has(n)) drawn += `<ellipse class="unseen" cx="${x + view.wide / 2}" cy="${y}" rx="${Math.min(17, view.wide / 2)}" ry="13"/>`;
    if (stage === "idle") drawn += `<line class="idle" x1="${x + view.wide * 0.3}" x2="${x + view.wide * 0.7}" y1="${y}" y2="${y}"/>`;
    else if (view.wide >= 20) drawn += `<text class="row" x="${x + view.wide / 2}" y="${y + 5}">${stage.slice(0, 2)}</text>`;
    else drawn += `<line class="tick" x1="${x + view.wide / 2}" x2="${x + view.wide / 2}" y1="${y - 6}" y2="${y + 6}"/>`;
  }
  return drawn;
};

const drawing = (view) => {
  const seen = bars.filter((bar) => bar.end + 1 >= view.from && bar.start <= view.to);
  const moments = byMoment.filter((bar) => bar.moment >= 2 * view.from - 2 && bar.moment <= 2 * view.to + 2);
  return grounds(view) + axis(view) + seen.map((bar) => drawBar(bar, view)).join("") + (data.steps ? drawSteps(view) : "") +
    moments.map((bar) => drawMoment(bar, view)).join("") + momentNumbers(moments, view);
};

// ---- lanes: on the screen only what is visible is drawn

const lanes = { wide: 28, step: -1, least: 3, most: 160, waiting: false };

const MARGIN = 400; // drawn beyond what is visible, at either side
const PAST = 240; // room for the words of the last bars, where the lanes are scrolled

const allWide = () => {
  const wide = Math.max(1, data.count) * lanes.wide;
  return wide > at("scroll").clientWidth + 1 ? wide + PAST : at("scroll").clientWidth;
};

const redraw = () => {
  lanes.waiting = false;
  const scroll = at("scroll");
  const [left, room] = [scroll.scrollLeft, scroll.clientWidth];
  const from = Math.max(0, Math.floor((left - MARGIN) / lanes.wide));
  const to = Math.min(Math.max(data.count, 1), Math.ceil((left + room + MARGIN) / lanes.wide));
  const x = from * lanes.wide;
  const last = allWide() / lanes.wide; // words may go on to the right edge
  const width = Math.min(allWide() - x, room + 2 * MARGIN + lanes.wide);
  at("canvas").innerHTML = `<svg style="left:${x}px" font-size="15" width="${width}" height="${height}" viewBox="${x} 0 ${width} ${height}">` +
    `${drawing({ from, to, wide: lanes.wide, step: lanes.step, left, last, size: 15 })}</svg>`;
};

const redrawSoon = () => {
  if (lanes.waiting) return;
  lanes.waiting = true;
  requestAnimationFrame(redraw);
};

const setWide = (wide) => {
  const scroll = at("scroll");
  const middle = (scroll.scrollLeft + scroll.clientWidth / 2) / lanes.wide;
  lanes.wide = Math.min(lanes.most, Math.max(lanes.least, wide));
  at("canvas").style.width = `${allWide()}px`;
  scroll.scrollLeft = middle * lanes.wide - scroll.clientWidth / 2;
  redrawSoon();
};

const reveal = (step) => {
  const scroll = at("scroll");
  const x = step * lanes.wide;
  if (x < scroll.scrollLeft + 20 || x + lanes.wide > scroll.scrollLeft + scroll.clientWidth - 20)
    scroll.scrollLeft = x - scroll.clientWidth / 2;
};

const nameRows = () => rows.map((id) =>
  `<b style="top:${barTop(id) + 3}px">process ${id}</b><span style="top:${railOf(id) - 12}px">queue ${id}</span>`).join("");

const openLanes = () => {
  at("names").innerHTML = nameRows();
  at("names").style.height = at("canvas").style.height = `${height}px`;
  at("scroll").addEventListener("scroll", redrawSoon, { passive: true });
  window.addEventListener("resize", () => setWide(lanes.wide));
  at("narrower").addEventListener("click", () => setWide(lanes.wide / 1.4));
  at("wider").addEventListener("click", () => setWide(lanes.wide * 1.4));
  setWide(Math.max(data.steps ? 26 : 3, Math.min(64, at("scroll").clientWidth / Math.max(1, data.count))));
  redraw();
};

// ---- lanes: on paper they are broken into lines

const NAMES = 100; // room for the names at the left of a line
const LONG = 400; // a longer run is drawn smaller

const stave = (from, each, width) => {
  const wide = Math.min(40, (width - NAMES) / each);
  const to = Math.min(from + each, Math.max(1, data.count));
  const view = { from, to, wide, step: -1, left: from * wide - 4, last: from + (width - NAMES) / wide, size: width > 700 ? 19 : 13 };
  const name = (words, y) => `<text x="0" y="${y}">${words}</text>`;
  const names = rows.map((id) => name(`process ${id}`, barTop(id) + 20) + name(`queue ${id}`, railOf(id) + 5)).join("");
  const inner = `viewBox="${from * wide} 0 ${width - NAMES} ${height}"`;
  return `<svg viewBox="0 0 ${width} ${height}" font-size="${view.size}">${names}` +
    `<svg x="${NAMES}" width="${width - NAMES}" height="${height}" ${inner}>${drawing(view)}</svg></svg>`;
};

const staves = () => {
  const [width, most] = data.count > LONG ? [1400, data.steps ? 120 : 400] : [700, 28];
  const lines = Math.max(1, Math.ceil(data.count / most));
  const each = Math.max(1, Math.ceil(data.count / lines));
  at("staves").innerHTML = Array.from({ length: lines }, (_, i) => stave(i * each, each, width)).join("");
};
window.addEventListener("beforeprint", staves);
window.addEventListener("afterprint", () => { at("staves").innerHTML = ""; });

// ---- steps: the state after a step, from what each step altered

const fresh = () => ({
  step: -1,
  words: Array.from({ length: data.processes }, () => [0, 0, 0]),
  slots: Array.from({ length: data.processes }, () => Array(data.slots).fill(0)),
  stages: Array(data.processes).fill("idle"),
  returned: Array(data.processes).fill(0),
  altered: { queue: -1, word: [], slots: [] },
});

const advance = (state) => {
  state.step += 1;
  const [process, queue, stage, next, result, bottom, top, tag, ...slots] = data.steps[state.step];
  const word = [bottom, top, tag];
  state.altered = { queue: stage === "idle" ? -1 : queue, word: word.map((n, i) => n !== state.words[queue][i]), slots: [] };
  state.words[queue] = word;
  for (let i = 0; i < slots.length; i += 2) {
    state.slots[queue][slots[i]] = slots[i + 1];
    state.altered.slots.push(slots[i]);
  }
  state.stages[process] = next || "idle";
  if (result) state.returned[process] += 1;
};

let shown = null; // the state on the page

const stateAt = (step) => {
  const state = shown && shown.step < step ? shown : fresh();
  while (state.step < step) advance(state);
  return state;
};

// A slot that no step of the run reaches is not drawn.
const reached = Array(data.processes).fill(0);
for (const [, queue, , , , bottom, top, , ...slots] of data.steps ?? [])
  reached[queue] = Math.max(reached[queue], bottom, top, ...slots.filter((_, i) => i % 2 === 0).map((i) => i + 1));

// ---- steps: in words

const loaded = (stage) => {
  const [row, ...values] = stage.split(" ");
  return (data.carries[row] ?? "").split(" ").filter(Boolean).map((name, i) => `${name} = ${values[i]}`).join(", ");
};

const outcome = (row, next, result) => {
  if (row === "idle") return "";
  if (next) return `It goes on to ${next.slice(0, 2)}${loaded(next) && `, with ${loaded(next)}`}.`;
  const [name, node] = result.split(" ");
  if (name === "node") return `It returns node ${node}.`;
  if (name === "done" || name === "full") return `It returns ${name === "done" ? "done" : "FULL"}.`;
  return row === "T4" ? "It returns NIL: it lost the race." : "It returns NIL: nothing there.";
};

const marksAt = (step) => bars.filter((bar) => bar.end === step && bar.marks)
  .map((bar) => bar.marks.split(" ").map((mark) => `<b class="mark ${mark}">${data.marks[mark]}</b>`).join("")).join("");

const callAt = (process, step) => {
  const bar = bars.find((one) => one.process === process && one.start <= step && step <= one.end);
  if (!bar) return "";
  const moment = bar.moment < 0 ? "no moment" : `moment ${bar.moment}`;
  return `<span class="quiet">The call is “${clean(bar.words)}”, from step ${bar.start} to ${bar.end}, with ${moment}.</span>`;
};

const didAt = (step) => {
  if (step < 0) return `<h3>Before step 0</h3><p>${data.count ? "Every queue is empty and every number 0." : "This run has no steps."}</p>`;
  const [process, queue, stage, next, result] = data.steps[step];
  const row = stage.split(" ")[0];
  const closing = step >= data.scheduled ? '<b class="mark">▨ closing</b>' : "";
  const [access, then] = data.rows[row];
  const place = row === "idle" ? "idle" : `${row} on queue ${queue}`;
  const numbers = loaded(stage);
  return `<h3>Step ${step} of ${data.count - 1}: process ${process}, ${place} ${closing}${marksAt(step)}</h3>` +
    `<p class="access"><b>${row}</b> ${clean(access)}${then && ` <span class="then">then ${clean(then)}</span>`}</p>` +
    `<p>${numbers && `With ${numbers}. `}${outcome(row, next, result)} ${callAt(process, step)}</p>`;
};

const slotBoxes = (state, queue) => {
  const [bottom, top] = state.words[queue];
  const touched = state.altered.queue === queue;
  const pointers = (i) => (i === top ? "<em>top</em>" : "") + (i === bottom ? "<em>bottom</em>" : "");
  const drawn = data.slots - reached[queue] > 4 ? Math.max(4, reached[queue] + 1) : data.slots;
  const boxes = state.slots[queue].slice(0, drawn).map((node, i) => {
    const cls = (i >= top && i < bottom ? "between " : "") + (touched && state.altered.slots.includes(i) ? "altered" : "");
    return `<li class="${cls}"><i>${i}</i><b>${node}</b>${pointers(i)}</li>`;
  });
  const past = pointers(data.slots);
  const rest = drawn < data.slots ? `<li class="rest">${drawn} to ${data.slots - 1}: 0</li>` : "";
  return `<ol class="slots">${boxes.join("")}${rest}${past && `<li class="past"><i>${data.slots}</i><b></b>${past}</li>`}</ol>`;
};

const queueCard = (state, queue) => {
  const touched = state.altered.queue === queue;
  const word = ["bottom", "top", "tag"].map((name, i) =>
    `<div class="${touched && state.altered.word[i] ? "altered" : ""}"><dt>${name}</dt><dd>${state.words[queue][i]}</dd></div>`).join("");
  return `<h3>queue ${queue}</h3><dl>${word}</dl>${slotBoxes(state, queue)}`;
};

const processRow = (state, process) => {
  const [script, stage, returned] = [data.scripts[process], state.stages[process], state.returned[process]];
  const moved = state.step >= 0 && data.steps[state.step][0] === process;
  const next = script[returned] ? `idle; next is ${script[returned]}` : "idle; no call is left";
  const [call, row] = stage === "idle" ? [next, "–"] : [`in ${script[returned]}`, stage.split(" ")[0]];
  const cells = [`process ${process}`, clean(call), row, loaded(stage) || "–"].map((cell) => `<td>${cell}</td>`).join("");
  return `<tr class="${moved ? "moved" : ""}">${cells}</tr>`;
};

const putIf = (element, inside) => {
  if (element.given !== inside) element.innerHTML = element.given = inside;
};

const show = (step) => {
  shown = stateAt(step);
  lanes.step = step;
  at("slider").value = step;
  at("slider").setAttribute("aria-valuetext", step < 0 ? "before step 0" : `step ${step}`);
  putIf(at("did"), didAt(step));
  [...at("queues").children].forEach((card, queue) => {
    card.classList.toggle("touched", shown.altered.queue === queue);
    putIf(card, queueCard(shown, queue));
  });
  putIf(document.querySelector("#processes tbody"), data.scripts.map((_, p) => processRow(shown, p)).join(""));
  reveal(Math.max(0, step));
  redrawSoon();
};

// ---- steps: going to one

let later = 0;
const goTo = (step) => {
  const to = Math.max(-1, Math.min(data.count - 1, step));
  show(to);
  clearTimeout(later); // an address for each stop, not for each step on the way
  later = setTimeout(() => history.replaceState(null, "", to < 0 ? "#" : `#step=${to}`), 200);
};

// The step of the address; without one, that of the fault, or else the beginning.
const byAddress = () => {
  const match = /^#step=(\d+)$/.exec(location.hash);
  const step = Math.min(data.count - 1, match ? Number(match[1]) : data.opens);
  if (data.steps) return show(step);
  lanes.step = match ? step : -1;
  reveal(Math.max(0, step));
  redrawSoon();
};

const byKey = (event) => {
  if (event.altKey || event.ctrlKey || event.metaKey || event.target.closest(".strip, .wide")) return;
  const to = { ArrowLeft: shown.step - 1, ArrowRight: shown.step + 1, Home: -1, End: data.count - 1 }[event.key];
  if (to === undefined) return;
  event.preventDefault();
  goTo(to);
};

const openSteps = () => {
  at("slider").max = data.count - 1;
  at("slider").disabled = data.count === 0;
  at("queues").innerHTML = data.scripts.map(() => '<section class="queue"></section>').join("");
  at("slider").addEventListener("input", (event) => goTo(Number(event.target.value)));
  at("back").addEventListener("click", () => goTo(shown.step - 1));
  at("on").addEventListener("click", () => goTo(shown.step + 1));
  at("scroll").addEventListener("click", (event) =>
    goTo(Math.floor((at("scroll").scrollLeft + event.clientX - at("scroll").getBoundingClientRect().left) / lanes.wide)));
  document.addEventListener("keydown", byKey);
};

openLanes();
if (data.steps) openSteps();
byAddress();
window.addEventListener("hashchange", () => {
  byAddress();
  document.querySelector(".lanes").scrollIntoView({ block: "nearest" });
});
redraw();
