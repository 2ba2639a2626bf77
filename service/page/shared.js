"use strict";
// Shared by the three pages: requests to the service, time limits, and the alarm.
// The pages show the texts of a frame unchanged. They format no figure.

const PATIENCE = 1500; // milliseconds without an answer, then dashes
const DASHES = "\u2013\u2013\u2013";
const NO_CLOCK = "--:--:--";
const NO_ANSWER = "NO ANSWER";
const NUMBERS = { 1: "Earth", 2: "Moon", 3: "Sun", 4: "Venus", 5: "Mars", 6: "Jupiter" };

const at = id => document.getElementById(id);

// Sets a text only if it changes, so that a screen reader reads it once.
function put(place, text) {
  if (place.textContent !== text) place.textContent = text;
}

// ---- addresses

const TOKEN = new URLSearchParams(location.search).get("token");

// An address of the service, with this page's token if it has one.
function address(path, query = {}) {
  const all = new URLSearchParams(query);
  if (TOKEN !== null) all.set("token", TOKEN);
  const text = all.toString();
  return text === "" ? path : `${path}?${text}`;
}

// ---- answers

const SILENT = "The service does not answer. No figure is shown until it does.";

// Why there is no frame, as a sentence for the operator.
function complaint(status) {
  if (status === 401) return "The service asks for a token. Open this page with ?token=.. in its address.";
  if (status === 404) return "The service does not know this flight.";
  return status === 0 ? SILENT : `The service answers with HTTP status ${status}.`;
}

// Calls lost(sentence) if no answer was noted for PATIENCE, at once and again if the sentence changes.
class Watch {
  constructor(lost) {
    this.lost = lost;
    this.last = performance.now();
    this.told = null;
    this.status = 0;
    setInterval(() => this.look(), 100);
  }

  answered() {
    this.last = performance.now();
    this.told = null;
    this.status = 0;
  }

  silent() {
    return performance.now() - this.last;
  }

  look() {
    const sentence = complaint(this.status);
    if (this.silent() <= PATIENCE || this.told === sentence) return;
    this.told = sentence;
    this.lost(sentence);
  }
}

class BadStatus extends Error {
  constructor(status) {
    super(`HTTP status ${status}`);
    this.status = status;
  }
}

async function ask(path, query) {
  const answer = await fetch(address(path, query), { cache: "no-store", signal: AbortSignal.timeout(PATIENCE) });
  if (!answer.ok) throw new BadStatus(answer.status);
  return answer.json();
}

// Sends a request every `every` milliseconds. The pages with figures for people use this and not the feed: a browser keeps at
// most six connections to one host, and each open feed holds one of them.
function poll(path, every, taken, lost) {
  const watch = new Watch(lost);
  async function turn() {
    const start = performance.now();
    try {
      // Noted only after it is shown: a frame that cannot be shown does not count as an answer.
      taken(await ask(path));
      watch.answered();
    } catch (problem) {
      watch.status = problem instanceof BadStatus ? problem.status : 0;
      console.error(problem);
    }
    setTimeout(turn, Math.max(20, every - (performance.now() - start)));
  }
  turn();
}

// Follows a feed of frames. A feed that ends or is silent is opened again.
function stream(path, query, taken, lost) {
  const watch = new Watch(lost);
  let source = null, opened = 0;
  function open() {
    if (source !== null) source.close();
    opened = performance.now();
    source = new EventSource(address(path, query));
    source.addEventListener("frame", event => {
      taken(JSON.parse(event.data));
      watch.answered();
    });
  }
  open();
  setInterval(() => {
    const since = performance.now() - opened;
    const waiting = source.readyState !== EventSource.OPEN && since > 2000;
    if (waiting || Math.min(watch.silent(), since) > 2 * PATIENCE) open();
  }, 250);
}

// ---- times

// "1963-01-13T18:42:37.297" as date and time of day to the second.
function clockParts(text) {
  return [text.slice(0, 10), text.slice(11, 19)];
}

const YEAR_1950 = Date.UTC(1950, 0, 1);

// A moment (milliseconds of ephemeris time since 1950) as the frame writes its clock.
function timeOf(moment) {
  return new Date(YEAR_1950 + moment).toISOString().slice(0, 23);
}

// How late, as hours, minutes and whole seconds.
function lateClock(ms) {
  if (ms === null) return "";
  const seconds = Math.floor(ms / 1000), two = n => String(n).padStart(2, "0");
  return `${Math.floor(seconds / 3600)}:${two(Math.floor(seconds / 60) % 60)}:${two(seconds % 60)}`;
}

// The class of a word: current, late, empty, refused, lost.
function kindOf(word) {
  return ["CURRENT", "LATE", "EMPTY", "REFUSED"].includes(word) ? word.toLowerCase() : "lost";
}

// ---- the alarm

// What the browser stores for this service. If it refuses, the sound is off at every start.
function remembered(name) {
  try {
    return localStorage.getItem(name);
  } catch {
    return null;
  }
}

function remember(name, value) {
  try {
    localStorage.setItem(name, value);
  } catch (problem) {
    console.error(problem);
  }
}

// Sounds while a flight that was CURRENT is not, if the operator switched the sound on. The switch is stored.
class Alarm {
  constructor(shown) {
    this.shown = shown; // called when the switch or its permission changes
    this.raised = new Set();
    this.quieted = new Set();
    this.was = new Map();
    this.context = null;
    this.on = remembered("sound") === "on";
    if (this.on) this.prepare();
    // A browser lets a page sound only after a key or a click.
    for (const kind of ["keydown", "pointerdown"]) addEventListener(kind, () => this.allow());
    setInterval(() => this.sound(), 2500);
  }

  prepare() {
    if (this.context !== null) return;
    this.context = new AudioContext();
    this.context.addEventListener("statechange", () => {
      this.shown();
      this.sound();
    });
  }

  allow() {
    if (this.on && this.context.state === "suspended") this.context.resume();
  }

  // What the switch is: off, on, or on and not yet allowed by the browser.
  state() {
    if (!this.on) return "off";
    return this.context.state === "running" ? "on" : "on: click once to allow it";
  }

  toggle() {
    this.on = !this.on;
    remember("sound", this.on ? "on" : "off");
    if (this.on) {
      this.prepare();
      this.context.resume();
      this.beep(1);
    }
    this.shown();
  }

  // Silences the alarm that is on now. The next one sounds again.
  quiet() {
    this.quieted = new Set(this.raised);
    this.shown();
  }

  // Takes the word of one flight. Returns whether its alarm is on.
  note(flight, word) {
    const current = word === "CURRENT";
    if (current) {
      this.raised.delete(flight);
      this.quieted.delete(flight);
    } else if (this.was.get(flight) === true) {
      this.raised.add(flight);
      this.sound();
    }
    this.was.set(flight, current);
    return this.raised.has(flight);
  }

  // A flight that is gone.
  forget(flight) {
    for (const all of [this.raised, this.quieted, this.was]) all.delete(flight);
  }

  loud() {
    return [...this.raised].some(flight => !this.quieted.has(flight));
  }

  // Not before the browser allows it: otherwise all waiting tones would come at once.
  sound() {
    if (this.on && this.loud() && this.context.state === "running") this.beep(3);
  }

  // That many pairs of two tones.
  beep(pairs) {
    const start = this.context.currentTime + 0.02;
    for (let i = 0; i < 2 * pairs; i++) {
      const tone = this.context.createOscillator(), level = this.context.createGain(), from = start + 0.16 * i;
      tone.type = "triangle";
      tone.frequency.value = i % 2 === 0 ? 880 : 660;
      level.gain.setValueAtTime(0, from);
      level.gain.linearRampToValueAtTime(0.35, from + 0.01);
      level.gain.setValueAtTime(0.35, from + 0.12);
      level.gain.linearRampToValueAtTime(0, from + 0.15);
      tone.connect(level).connect(this.context.destination);
      tone.start(from);
      tone.stop(from + 0.16);
    }
  }
}

// Keys of a page: a table from a key to what it does. Keys with Ctrl, Alt or Meta are the browser's.
function keys(table) {
  addEventListener("keydown", event => {
    if (event.ctrlKey || event.altKey || event.metaKey) return;
    const key = event.key.toLowerCase(), does = table[key];
    if (does === undefined) return;
    event.preventDefault();
    // A key that is held down keeps zooming; a letter counts once.
    if (!(event.repeat && /[a-z]/.test(key))) does();
  });
}
