"use strict";
// The overlay for a browser source. It shows digits only while the last answer is a CURRENT frame.

const FIGURES = ["range_km", "speed_km_s", "latitude_deg", "longitude_deg", "moon_range_km", "moon_closing_km_s"];

const NARROW = ".:";

// A text in cells, one for each character, at the right edge of a field of fixed width: a digit keeps its place for every text before
// it. The width is data-width, in digits. A longer text makes the field wider for good.
function cells(place, text) {
  const all = [...text];
  const wide = all.reduce((sum, c) => sum + (NARROW.includes(c) ? 0.5 : 1), 0);
  if (wide > Number(place.dataset.width)) place.dataset.width = wide;
  place.style.width = `${place.dataset.width}ch`;
  while (place.childElementCount > all.length) place.firstElementChild.remove();
  while (place.childElementCount < all.length) place.prepend(document.createElement("span"));
  all.forEach((c, i) => {
    place.children[i].className = NARROW.includes(c) ? "cell narrow" : "cell";
    put(place.children[i], c);
  });
}

// The word, or the title while the frame is CURRENT. Otherwise neither the reason nor the title: they may have digits.
function strip(word, title) {
  const current = word === "CURRENT";
  put(at("word"), current ? "" : word);
  put(at("title"), current ? title : "");
  document.body.className = kindOf(word);
}

function show(word, title, clock, text, centre) {
  strip(word, title);
  for (const [id, time] of [["clock", clock?.et], ["ut", clock?.ut]]) cells(at(id), time ? clockParts(time)[1] : NO_CLOCK);
  for (const name of FIGURES) cells(at(name), text?.[name] ?? DASHES);
  for (const place of document.querySelectorAll(".centre")) put(place, NUMBERS[centre] ?? "centre");
}

function taken(told) {
  if (told.word === "CURRENT") show(told.word, told.title || told.flight, told.clock, told.text, told.state?.centre ?? 1);
  else show(told.word, "", null, null, 1);
}

for (const place of document.querySelectorAll(".figure")) place.replaceChildren();
const rate = new URLSearchParams(location.search).get("hz") ?? "25";
show(NO_ANSWER, "", null, null, 1);
stream("feed", { hz: rate }, taken, () => show(NO_ANSWER, "", null, null, 1));
