"use strict";
// Figures and names as they are shown.
const element = (id) => document.getElementById(id);

// Three digits, or as many as tell a value from one that would say more than it does: always, or by chance.
function short(value, told = 1) {
  if (value >= 999.5) return Math.round(value).toLocaleString("en");
  let digits = 3;
  while (value !== told && digits < 17 && Number(value.toPrecision(digits)) === told) digits++;
  return value.toPrecision(digits);
}

// A chance in three digits.
function shortChance(value) {
  return value >= 0.001 ? value.toPrecision(3) : value > 0 ? value.toExponential(2) : "0";
}

function percent(value) {
  return `${short(100 * value, 100)}%`;
}

function whole(count) {
  return count.toLocaleString("en");
}

function fraction(top, bottom) {
  let [one, other] = [BigInt(top), BigInt(bottom)];
  while (other) [one, other] = [other, one % other];
  return `${BigInt(top) / one}/${BigInt(bottom) / one}`;
}

function many(count, word) {
  return `${whole(count)} ${word}${count === 1 ? "" : "s"}`;
}

function made(tag, content, parent) {
  const one = document.createElement(tag);
  if (content !== undefined) one.textContent = content;
  if (parent) parent.append(one);
  return one;
}

// A name as it stands in a list of names, and in a filter: one with a comma, or that begins with a quote, is in quotes.
function inList(name) {
  return /^"|,/.test(name) ? `"${name.replaceAll('"', '""')}"` : name;
}

// Names with commas between them. A name that is read from the right turns nothing around it.
function addNames(names, parent) {
  names.forEach((name, place) => {
    if (place) parent.append(", ");
    made("bdi", inList(name), parent);
  });
}

// Calls an action once, however often it is asked for until the next frame.
function onceAFrame(action) {
  let isAsked = false;
  return () => {
    if (!isAsked) requestAnimationFrame(() => {
      isAsked = false;
      action();
    });
    isAsked = true;
  };
}
