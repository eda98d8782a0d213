"use strict";
// What the page decides without looking at the page itself, so that it can be tried without a browser.
const choices = {
  KEYS: {
    ArrowDown: ["step", 1], ArrowUp: ["step", -1], ArrowRight: ["turn", 1], ArrowLeft: ["turn", -1], Home: ["end", 1], End: ["end", -1],
    "/": ["search"], Enter: ["pin"], Escape: ["letGo"], f: ["step", 1, "failure"], F: ["step", -1, "failure"], r: ["step", 1, "refusal"],
    R: ["step", -1, "refusal"], s: ["step", 1, "signal"], S: ["step", -1, "signal"], w: ["step", 1, "wait"], W: ["step", -1, "wait"],
  },

  // What a key does: nothing if it goes with Ctrl, Alt or Meta, or belongs to a field, or presses the element that has the focus.
  // Every other key is the run's, wherever the focus is, and on a page just opened, where nothing has it.
  deed(event, tag) {
    const isField = ["INPUT", "SELECT", "TEXTAREA"].includes(tag);
    const isPressed = event.key === "Enter" && ["A", "BUTTON", "SUMMARY"].includes(tag);
    if (event.ctrlKey || event.altKey || event.metaKey || isField || isPressed) return null;
    return Object.hasOwn(choices.KEYS, event.key) ? choices.KEYS[event.key] : null;
  },

  // The place of the next item that is wanted, or -1. With no item in focus it is looked for from the beginning, or from the end.
  next(count, at, way, isWanted) {
    let n = at === null ? (way > 0 ? 0 : count - 1) : at + way;
    while (n >= 0 && n < count && !isWanted(n)) n += way;
    return n < count ? n : -1;
  },

  // Whether an item is what one filters for. An empty choice lets all through.
  matches(item, wanted) {
    return (wanted.page === "" || item.pages.includes(Number(wanted.page))) &&
      (wanted.process === "" || item.processes.includes(Number(wanted.process))) &&
      (wanted.kind === "" || item.kinds.includes(wanted.kind)) &&
      (wanted.text === "" || item.text().toLowerCase().includes(wanted.text.toLowerCase()));
  },

  // Of places that rise, the one that is nearest to a place.
  nearest(places, place) {
    let [low, high] = [0, places.length - 1];
    while (high - low > 1) {
      const middle = (low + high) >> 1;
      if (places[middle] <= place) low = middle;
      else high = middle;
    }
    return Math.abs(places[high] - place) < Math.abs(places[low] - place) ? high : low;
  },
};
