// Tests of choices.js: `node tools/hwp_view/test_choices.js`. Ends with status 1 where one fails.
"use strict";
const assert = require("node:assert");
const { readFileSync } = require("node:fs");
const path = require("node:path");
const { runInNewContext } = require("node:vm");

const text = readFileSync(path.join(__dirname, "choices.js"), "utf8");
const choices = runInNewContext(`${text}; choices`);
const same = (found, wanted, what) => assert.strictEqual(JSON.stringify(found), JSON.stringify(wanted), what);

// The key, the element that has the focus (BODY on a page just opened), what is held down, and what the key does.
const keys = [
  ["ArrowDown", "BODY", "", ["step", 1]], ["s", "BODY", "", ["step", 1, "signal"]], ["F", "BODY", "", ["step", -1, "failure"]],
  ["s", "LI", "", ["step", 1, "signal"]], ["Enter", "LI", "", ["pin"]], ["ArrowRight", "BUTTON", "", ["turn", 1]],
  ["/", "BODY", "", ["search"]], ["Enter", "BUTTON", "", null], ["Enter", "SUMMARY", "", null], ["Enter", "A", "", null], ["s", "INPUT", "", null],
  ["Home", "SELECT", "", null], ["s", "BODY", "ctrlKey", null], ["ArrowLeft", "BODY", "altKey", null], ["q", "LI", "", null],
  ["constructor", "LI", "", null],
];
for (const [key, tag, held, wanted] of keys) same(choices.deed({ key, [held]: true }, tag), wanted, `${held} ${key} at ${tag}`);

// Of five items, where one is, which way one goes, the places that are wanted, and where that leads.
const walks = [
  [null, 1, [0, 1, 2, 3, 4], 0], [null, -1, [0, 1, 2, 3, 4], 4], [null, 1, [3], 3], [null, -1, [0], 0], [2, 1, [0, 2, 4], 4],
  [2, -1, [0, 2, 4], 0], [4, 1, [0], -1], [0, -1, [4], -1], [0, 1, [], -1],
];
for (const [at, way, places, goal] of walks) {
  same(choices.next(5, at, way, (n) => places.includes(n)), goal, `from ${at} by ${way} among ${places}`);
}
// What is asked for, and whether an item of pages 0 and 12 and process 1, a failure with a wait, is that.
const item = { pages: [0, 12], processes: [1], kinds: ["it", "com", "failure", "waited"], text: () => "9 Inject 3" };
const none = { text: "", page: "", process: "", kind: "" };
const asked = [
  [{}, true], [{ page: "12" }, true], [{ page: "1" }, false], [{ process: "1" }, true], [{ process: "0" }, false],
  [{ kind: "failure" }, true], [{ kind: "waited" }, true], [{ kind: "signal" }, false], [{ text: "INJECT" }, true],
  [{ text: "unpoison" }, false], [{ page: "0", kind: "failure", text: "3" }, true], [{ page: "0", kind: "signal" }, false],
];
for (const [some, wanted] of asked) same(choices.matches(item, { ...none, ...some }), wanted, JSON.stringify(some));

// Places, a place of the strip, and which of them is nearest.
const strips = [[[0, 10, 20], 4, 0], [[0, 10, 20], 6, 1], [[0, 10, 20], 99, 2], [[7], 3, 0], [[0, 0, 5, 8], 5, 2]];
for (const [places, at, wanted] of strips) same(choices.nearest(places, at), wanted, `${at} among ${places}`);
console.log(`choices: ${keys.length} keys, ${walks.length} walks, ${asked.length} filters, ${strips.length} places as wanted`);
