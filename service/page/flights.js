"use strict";
// All flights of the night, each with its word, large. It shows no figure.

const alarm = new Alarm(showSound);
const cards = new Map();

function showSound() {
  const place = at("sound");
  place.setAttribute("aria-pressed", String(alarm.on));
  put(place.firstChild, `Sound ${alarm.state()} `);
  at("quiet").hidden = !(alarm.on && alarm.loud());
}

function newCard(flight) {
  const card = at("card").content.firstElementChild.cloneNode(true);
  const folder = `/${encodeURIComponent(flight)}/`;
  card.querySelector(".monitor").href = address(folder);
  card.querySelector(".overlay").href = address(`${folder}overlay`);
  card.dataset.flight = flight;
  at("flights").append(card);
  cards.set(flight, card);
  return card;
}

function showCard(card, { title, word, reason, late, clock, notices }) {
  const raised = alarm.note(card.dataset.flight, word), part = name => card.querySelector(name);
  card.className = `${kindOf(word)}${raised ? " raised" : ""}`;
  put(part("h2"), title);
  put(part(".word"), word);
  put(part(".lateness"), late);
  put(part(".clock"), clock);
  put(part(".reason"), reason);
  put(part(".notices"), notices === 0 ? "" : `${notices} notice${notices === 1 ? "" : "s"}`);
}

// Columns, so that all cards fit on one screen; a card is about twice as wide as high.
function layout(count) {
  const columns = count <= 2 ? 1 : count <= 6 ? 2 : count <= 12 ? 3 : count <= 24 ? 4 : count <= 40 ? 6 : 8;
  at("flights").style.setProperty("--columns", columns);
  at("flights").style.setProperty("--rows", Math.max(1, Math.ceil(count / columns)));
  at("flights").dataset.columns = columns;
}

function showTitle(words) {
  const wrong = words.filter(word => word !== "CURRENT").length;
  const text = words.length === 0 ? "No flight" : wrong === 0 ? "CURRENT all flights" : `${words.length - wrong} of ${words.length} CURRENT`;
  const title = `${alarm.raised.size > 0 ? "\u25b2 " : ""}${text}`;
  if (document.title !== title) document.title = title;
  put(at("count"), words.length === 0 ? "no flight in the night folder yet" : `${words.length - wrong} of ${words.length} flight${words.length === 1 ? "" : "s"} CURRENT`);
}

function taken(frames) {
  put(at("lost"), "");
  const names = new Set(frames.map(told => told.flight));
  for (const [flight, card] of cards) {
    if (names.has(flight)) continue;
    card.remove();
    cards.delete(flight);
    alarm.forget(flight);
  }
  for (const told of frames) {
    const clock = told.clock === null ? NO_CLOCK : `${clockParts(told.clock.et).join(" ")} ET`;
    showCard(cards.get(told.flight) ?? newCard(told.flight), {
      title: told.title || told.flight, word: told.word, reason: told.reason, late: lateClock(told.late_ms), clock, notices: told.notices.length,
    });
  }
  layout(frames.length);
  showTitle(frames.map(told => told.word));
  showSound();
}

function lost(sentence) {
  put(at("lost"), sentence);
  put(at("count"), "");
  for (const card of cards.values()) {
    showCard(card, { title: card.querySelector("h2").textContent, word: NO_ANSWER, reason: "", late: "", clock: NO_CLOCK, notices: 0 });
  }
  document.title = `\u25b2 ${NO_ANSWER}`;
  showSound();
}

at("sound").addEventListener("click", () => alarm.toggle());
at("quiet").addEventListener("click", () => alarm.quiet());
keys({ s: () => alarm.toggle(), q: () => alarm.quiet() });
showSound();
poll("/now.json", 500, taken, lost);
