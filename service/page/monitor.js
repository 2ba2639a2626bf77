"use strict";
// The monitor of one flight. It shows a figure only while the last answer is a CURRENT frame, else dashes.
// Only the places of drawings are computed here; docs/ONAIR.md has the formulas.

const FIGURES = ["range_km", "speed_km_s", "latitude_deg", "longitude_deg", "moon_range_km", "moon_closing_km_s", "pull_km_s2"];
const RADII = { earth: 6378, moon: 1738 }; // km, for the discs
const NAMES = { earth: "Earth", moon: "Moon" };
const FLIGHT = decodeURIComponent(location.pathname.split("/")[1] ?? "");

let frame = null; // the last answer, null if there is none
let centre = "earth";

// ---- words, clocks, figures

const alarm = new Alarm(showSound);

function showSound() {
  const place = at("sound");
  place.setAttribute("aria-pressed", String(alarm.on));
  put(place.firstChild, `Sound ${alarm.state()} `);
  at("quiet").hidden = !(alarm.on && alarm.loud());
}

function showClock(id, date, text) {
  const [day, time] = text === null ? ["", NO_CLOCK] : clockParts(text);
  put(at(id), time);
  put(at(date), day);
}

// The refusal, unless the reason says it already.
function showRefusal(refusal, reason) {
  const said = refusal === null || reason.includes(refusal.meaning);
  put(at("refusal"), said ? "" : `Refused by ${refusal.number}: ${refusal.meaning}`);
}

function showFigures(text) {
  for (const name of FIGURES) {
    const place = at(name), shown = text?.[name] ?? DASHES;
    put(place, shown);
    place.classList.toggle("long", shown.length > 11);
  }
}

function showBook(book) {
  put(at("book"), book === null ? "no book" : `${book.name}, covers until ${clockParts(timeOf(book.until)).join(" ")}`);
}

let noticed = "";

function showNotices(notices, count) {
  const now = JSON.stringify([notices, count]);
  if (now === noticed) return;
  noticed = now;
  put(at("count"), count);
  at("notices").replaceChildren(...notices.map(text => {
    const line = document.createElement("li");
    line.textContent = text;
    return line;
  }));
}

function showWord(word, title, reason, late) {
  const raised = alarm.note(FLIGHT, word);
  put(at("word"), word);
  put(at("late"), late);
  put(at("reason"), reason);
  put(at("title"), title);
  document.body.className = kindOf(word);
  const mark = raised ? "\u25b2 " : "";
  const name = title === "" ? FLIGHT : title;
  if (document.title !== `${mark}${word} ${name}`) document.title = `${mark}${word} ${name}`;
  showSound();
}

function taken(told) {
  frame = told;
  const current = told.word === "CURRENT";
  showWord(told.word, told.title || told.flight, told.reason, lateClock(told.late_ms));
  showClock("clock", "date", told.clock === null ? null : told.clock.et);
  showClock("ut", "ut-date", told.clock === null ? null : told.clock.ut);
  showFigures(current ? told.text : null);
  for (const place of document.querySelectorAll(".centre")) put(place, NUMBERS[told.state?.centre ?? 1] ?? "centre");
  showRefusal(told.refusal, told.reason);
  showBook(told.book);
  showNotices(told.notices, told.notices.length === 0 ? "none" : String(told.notices.length));
  draw();
}

function lost(sentence) {
  frame = null;
  showWord(NO_ANSWER, at("title").textContent, sentence, "");
  showClock("clock", "date", null);
  showClock("ut", "ut-date", null);
  showFigures(null);
  showRefusal(null, "");
  put(at("book"), DASHES);
  showNotices([], DASHES);
  draw();
}

// ---- the flown path

// The answers of path.json so far: moments, and the positions of craft and Moon, in km from the Earth. The Moon is null without cover.
const flown = { moment: [], craft: [], moon: [] };
let next = 0, drawnTo = null;

const less = (a, b) => a.map((c, i) => c - b[i]);
const length = v => Math.hypot(...v);

// Whether the last point is too near to the one before it to be seen in any picture.
function tight() {
  const i = flown.craft.length - 1;
  if (i < 1) return false;
  const place = flown.craft[i], moon = flown.moon[i];
  const distance = Math.min(length(place), moon === null ? Infinity : length(less(place, moon)));
  return length(less(place, flown.craft[i - 1])) < distance / 1000;
}

// A walk of one night at steps of a second has a hundred thousand points. Those that no picture shows are left out.
function add([moment, x, y, z, mx, my, mz]) {
  if (tight()) for (const list of Object.values(flown)) list.pop();
  flown.moment.push(moment);
  flown.craft.push([x, y, z]);
  flown.moon.push(mx === null ? null : [mx, my, mz]);
}

function forget() {
  for (const list of Object.values(flown)) list.length = 0;
  next = 0;
  drawnTo = null;
}

async function morePath() {
  let pause = frame === null ? 100 : 1000;
  try {
    const told = frame === null ? null : await ask("path.json", { from: next });
    if (told !== null && told.next < next) forget();
    else if (told !== null && told.from === next) {
      told.points.forEach(add);
      next = told.next;
      if (told.points.length >= 4096) pause = 50; // there is more
    }
  } catch (problem) {
    if (problem instanceof BadStatus) forget();
    console.error(problem);
  }
  setTimeout(morePath, pause);
}

// ---- places

function floatOf(bits) {
  const view = new DataView(new ArrayBuffer(8));
  view.setBigUint64(0, BigInt(`0x${bits}`));
  return view.getFloat64(0);
}

// The Moon at a moment: on the line through the two points of the path next to it.
function moonAt(moment) {
  let i = flown.moment.length - 1;
  while (i > 1 && flown.moment[i - 1] >= moment) i--;
  const [a, b] = [flown.moon[i - 1], flown.moon[i]];
  if (!a || !b) return b ?? a ?? null;
  const s = (moment - flown.moment[i - 1]) / (flown.moment[i] - flown.moment[i - 1]);
  return a.map((c, k) => c + s * (b[k] - c));
}

// Where craft and Moon are now, from the Earth. Null unless the frame is CURRENT.
function now() {
  if (frame === null || frame.word !== "CURRENT" || frame.state === null) return { craft: null, moon: null };
  const moon = moonAt(frame.clock.moment), own = frame.state.bits.slice(0, 3).map(floatOf);
  if (frame.state.centre === 1) return { craft: own, moon };
  return { craft: frame.state.centre === 2 && moon !== null ? own.map((c, i) => c + moon[i]) : null, moon };
}

// How many points of the path are not after the clock.
function passed() {
  let n = flown.moment.length;
  if (frame !== null && frame.clock !== null) while (n > 0 && flown.moment[n - 1] > frame.clock.moment) n--;
  return n;
}

// ---- shapes

const DEGREES = 180 / Math.PI;
const shape = (name, properties, inside = "") => `<${name} ${Object.entries(properties).map(([k, v]) => `${k}="${v}"`).join(" ")}>${inside}</${name}>`;
const label = (x, y, text, more = {}) => shape("text", { x: x.toFixed(1), y: y.toFixed(1), ...more }, text);
const line = (className, x1, y1, x2, y2) => shape("line", { class: className, x1, y1, x2, y2 });
const circle = (className, [cx, cy], r) => shape("circle", { class: className, cx: cx.toFixed(2), cy: cy.toFixed(2), r: r.toFixed(2) });

// A line through places. A place that is less than half a unit from the last one drawn is left out, null begins a new line.
function curve(className, places) {
  let d = "", last = null;
  places.forEach((p, i) => {
    if (p !== null && last !== null && i < places.length - 1 && Math.hypot(p[0] - last[0], p[1] - last[1]) < 0.5) return;
    if (p !== null) d += `${last === null ? "M" : "L"}${p[0].toFixed(1)} ${p[1].toFixed(1)}`;
    last = p;
  });
  return d === "" ? "" : shape("path", { class: className, d });
}

// ---- the picture of the path

const WIDTH = 660, HEIGHT = 760, MARGIN = 50;
let zoom = "auto"; // "auto", "whole", or km for each unit of the picture
let scaleNow = 1;

// The smallest box about places: its middle in km, and the km for each unit with which it fits into the picture.
function box(places) {
  let [left, right, low, high] = [Infinity, -Infinity, Infinity, -Infinity];
  for (const p of places) {
    if (p === null) continue;
    if (p[0] < left) left = p[0];
    if (p[0] > right) right = p[0];
    if (p[1] < low) low = p[1];
    if (p[1] > high) high = p[1];
  }
  return { middle: [(left + right) / 2, (low + high) / 2], unit: Math.max((right - left) / (WIDTH - 2 * MARGIN), (high - low) / (HEIGHT - 2 * MARGIN)) };
}

function around(body, [x, y]) {
  return [[x - RADII[body], y - RADII[body]], [x + RADII[body], y + RADII[body]]];
}

// What is drawn about the centre: flown path, the other body's path, and both now.
function scene() {
  const { craft, moon } = now(), n = passed();
  const own = flown.craft.slice(0, n), moons = flown.moon.slice(0, n);
  if (centre === "earth") return { own, others: moons, craft, other: moon, otherName: "moon" };
  const minus = p => p === null ? null : p.map(c => -c);
  return {
    own: own.map((p, i) => moons[i] === null ? null : less(p, moons[i])),
    others: moons.map(minus),
    craft: craft === null || moon === null ? null : less(craft, moon),
    other: minus(moon),
    otherName: "earth",
  };
}

// Middle of the view and km for each unit. "auto" shows only the flown path while it is small compared with the whole.
function view({ own, others, craft, other, otherName }) {
  const near = box([...around(centre, [0, 0]), ...own, craft]);
  const far = box([...around(centre, [0, 0]), ...own, craft, ...others, ...(other === null ? [] : around(otherName, other))]);
  if (zoom === "whole" || (zoom === "auto" && near.unit * 5 > far.unit)) return far;
  if (zoom === "auto") return { middle: near.middle, unit: near.unit * 1.3 };
  return { middle: [0, 0], unit: zoom };
}

// The greatest length of 1, 2 or 5 and zeros that is at most that many km.
function roundLength(most) {
  const power = 10 ** Math.floor(Math.log10(most));
  return power * [5, 2, 1].find(n => n * power <= most);
}

function scaleBar(unit) {
  const km = roundLength(190 * unit), end = (18 + km / unit).toFixed(1), y = HEIGHT - 20;
  return line("bar-line", 18, y, end, y) + line("bar-line", 18, y - 6, 18, y + 6) + line("bar-line", end, y - 6, end, y + 6)
    + label(18, y - 14, `${km.toLocaleString("en")} km`, { class: "strong" });
}

const inside = ([x, y], by) => x > by && x < WIDTH - by && y > by && y < HEIGHT - by;

// A body's disc to scale, with a ring about one that is too small to see. One that is outside the picture gets an arrow at its edge.
function disc(body, place, unit) {
  const r = RADII[body] / unit, ring = Math.max(r, 9), [x, y] = place;
  if (!inside(place, -r)) return arrow(place, NAMES[body]);
  const above = y - ring - 12, below = y + ring + 26;
  const named = r > 60 ? label(x, y + 7, NAMES[body], { "text-anchor": "middle", class: "on-disc" })
    : label(x, below < HEIGHT - 60 ? below : above, NAMES[body], { "text-anchor": "middle" });
  return circle(body, place, r) + (r < 5 ? circle("ring", place, 9) : "") + named;
}

// At the edge, towards a place outside.
function arrow([x, y], name) {
  const [w, h] = [WIDTH / 2, HEIGHT / 2], [dx, dy] = [x - w, y - h];
  const k = Math.min((w - 14) / Math.abs(dx), (h - 70) / Math.abs(dy)), [ax, ay] = [w + dx * k, h + dy * k];
  const turn = (Math.atan2(dy, dx) * DEGREES).toFixed(1), end = ax > w;
  return shape("path", { class: "arrow", d: "M-16 -8L0 0L-16 8", transform: `translate(${ax.toFixed(1)} ${ay.toFixed(1)}) rotate(${turn})` })
    + label(Math.min(WIDTH - 30, Math.max(30, ax + (end ? -24 : 24))), ay + 7, name, { "text-anchor": end ? "end" : "start" });
}

function marker([x, y]) {
  const end = x > WIDTH - 100;
  return circle("craft", [x, y], 7) + label(x + (end ? -14 : 14), y - 12, "craft", { class: "strong", "text-anchor": end ? "end" : "start" });
}

function drawPath() {
  const all = scene(), { own, others, craft, other, otherName } = all;
  if (own.length === 0 && craft === null) return "";
  const { middle, unit } = view(all);
  scaleNow = unit;
  const on = p => p === null ? null : [WIDTH / 2 + (p[0] - middle[0]) / unit, HEIGHT / 2 - (p[1] - middle[1]) / unit];
  let drawn = curve("body-path", [...others, other].map(on));
  drawn += disc(centre, on([0, 0]), unit);
  if (other !== null) drawn += disc(otherName, on(other), unit);
  drawn += curve("flown", [...own, craft].map(on));
  if (craft !== null) drawn += inside(on(craft), 4) ? marker(on(craft)) : arrow(on(craft), "craft");
  return drawn + scaleBar(unit) + label(WIDTH - 14, HEIGHT - 18, "seen from the north, axes of 1950.0", { "text-anchor": "end" });
}

function choose(name) {
  centre = name;
  for (const id of ["earth", "moon"]) at(id).setAttribute("aria-pressed", String(id === name));
  draw();
}

function setZoom(to) {
  zoom = to;
  for (const id of ["whole", "auto"]) at(id).setAttribute("aria-pressed", String(id === to));
  at("path").dataset.zoom = typeof to === "number" ? "hand" : to;
  draw();
}

// One step in or out, from 1 km to 10,000 km for each unit of the picture.
function step(factor) {
  setZoom(Math.min(10000, Math.max(1, scaleNow * factor)));
}

// ---- the map

const DAY = 86400000, CENTURY = 36525 * DAY;

// Longitude and latitude of a flown position, only for the map: document 01's hour angle without its smallest term, and of the
// precession since 1950 only the terms in T.
function groundOf([x, y, z], moment, dut) {
  const days = (moment - dut) / DAY, t = moment / CENTURY;
  const m = 0.02234988 * t, n = 0.00971711 * t;
  const [px, py, pz] = [x - m * y - n * z, y + m * x, z + n * x];
  const hour = 100.0755426 + 0.985647346 * Math.floor(days) + 360.985647346 * (days - Math.floor(days));
  const longitude = (((Math.atan2(py, px) * DEGREES - hour) % 360) + 540) % 360 - 180;
  return [longitude, Math.atan2(pz, Math.hypot(px, py)) * DEGREES];
}

const onMap = ([longitude, latitude]) => [2 * (longitude + 180), 2 * (90 - latitude)];

function grid() {
  let drawn = "";
  for (let longitude = -180; longitude <= 180; longitude += 30) {
    const x = 2 * (longitude + 180), side = longitude % 180 === 0 ? "" : longitude < 0 ? "W" : "E";
    drawn += line(longitude === 0 ? "axis" : "grid", x, 0, x, 360);
    if (longitude % 60 === 0) drawn += label(x, 382, `${Math.abs(longitude)}\u00b0${side}`, { "text-anchor": longitude === 180 ? "end" : "middle" });
  }
  for (let latitude = -90; latitude <= 90; latitude += 30) {
    const y = 2 * (90 - latitude), side = latitude === 0 ? "" : latitude < 0 ? "S" : "N";
    drawn += line(latitude === 0 ? "axis" : "grid", 0, y, 720, y) + label(-5, y + 5, `${Math.abs(latitude)}\u00b0${side}`, { "text-anchor": "end" });
  }
  return drawn;
}

let lastOnMap = null;

// The track, cut where it leaves the map on one side and enters on the other.
function track() {
  const dut = Date.parse(`${frame.clock.et}Z`) - Date.parse(`${frame.clock.ut}Z`);
  const places = [];
  let last = null;
  for (let i = 0; i < passed(); i++) {
    const p = onMap(groundOf(flown.craft[i], flown.moment[i], dut));
    if (last !== null && Math.abs(p[0] - last[0]) > 360) places.push(null);
    places.push(p);
    last = p;
  }
  lastOnMap = last;
  return curve("flown", places);
}

async function coasts() {
  try {
    const { lines } = await ask("/page/coast.json");
    const d = lines.map(numbers => {
      let part = "";
      for (let i = 0; i < numbers.length; i += 2) {
        const [x, y] = onMap([numbers[i], numbers[i + 1]]);
        part += `${i === 0 ? "M" : "L"}${x.toFixed(1)} ${y.toFixed(1)}`;
      }
      return part;
    }).join("");
    at("coast").innerHTML = shape("path", { class: "coast", d });
  } catch (problem) {
    console.error(problem);
    setTimeout(coasts, 5000);
  }
}

function drawMap() {
  // The track is drawn again if there are more points, the craft at every answer.
  if (frame !== null && frame.clock !== null && frame.clock.ut !== null) {
    const last = flown.moment[passed() - 1] ?? null;
    if (last !== drawnTo) {
      drawnTo = last;
      at("track").innerHTML = track();
    }
  }
  const figures = frame !== null && frame.word === "CURRENT" ? frame.figures : null;
  let drawn = "";
  if (figures !== null && figures.latitude_deg !== null && figures.longitude_deg !== null) {
    const east = figures.longitude_deg > 180 ? figures.longitude_deg - 360 : figures.longitude_deg, [x, y] = onMap([east, figures.latitude_deg]);
    const end = x > 640;
    if (lastOnMap !== null && Math.abs(lastOnMap[0] - x) < 360) drawn += curve("flown", [lastOnMap, [x, y]]);
    drawn += circle("craft", [x, y], 6) + label(x + (end ? -12 : 12), y < 24 ? y + 20 : y - 9, "craft", { class: "strong", "text-anchor": end ? "end" : "start" });
  }
  at("craft").innerHTML = drawn;
}

// ---- the gauge

// The pull on a logarithmic scale from 0.0000001 to 0.01 km/s².
function drawGauge() {
  const place = power => 6 + 47 * Math.min(5, Math.max(0, power + 7));
  const pull = frame !== null && frame.word === "CURRENT" ? frame.figures?.pull_km_s2 ?? null : null;
  let drawn = shape("rect", { class: "bed", x: 6, y: 3, width: 235, height: 12, rx: 2 });
  if (pull !== null && pull > 0) drawn += shape("rect", { class: "bar", x: 6, y: 3, width: (place(Math.log10(pull)) - 6).toFixed(1), height: 12, rx: 2 });
  for (let power = -7; power <= -2; power++) drawn += line("axis", place(power), 3, place(power), 20);
  return drawn;
}

function draw() {
  at("path").innerHTML = drawPath();
  drawMap();
  at("gauge").innerHTML = drawGauge();
}

// ---- start

at("sea").innerHTML = shape("rect", { class: "sea", x: 0, y: 0, width: 720, height: 360 });
at("lines").innerHTML = grid();
for (const id of ["earth", "moon"]) at(id).addEventListener("click", () => choose(id));
for (const id of ["whole", "auto"]) at(id).addEventListener("click", () => setZoom(id));
const [inwards, outwards] = [() => step(1 / 1.5), () => step(1.5)];
at("in").addEventListener("click", inwards);
at("out").addEventListener("click", outwards);
at("path").addEventListener("wheel", event => {
  event.preventDefault();
  step(event.deltaY < 0 ? 1 / 1.2 : 1.2);
}, { passive: false });
at("sound").addEventListener("click", () => alarm.toggle());
at("quiet").addEventListener("click", () => alarm.quiet());
keys({
  e: () => choose("earth"), m: () => choose("moon"), "+": inwards, "=": inwards, "-": outwards, "_": outwards,
  0: () => setZoom("whole"), a: () => setZoom("auto"), s: () => alarm.toggle(), q: () => alarm.quiet(),
});
at("flights").href = address("/");
at("overlay").href = address("overlay");
setZoom("auto");
showSound();
coasts();
poll("now.json", 200, taken, lost);
morePath();
