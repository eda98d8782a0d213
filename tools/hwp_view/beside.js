(() => {
  "use strict";
  const differences = [...document.querySelectorAll(".differs")];
  const only = document.getElementById("only");
  let at = null;
  const go = (way) => {
    const next = at === null ? (way > 0 ? 0 : differences.length - 1) : at + way;
    if (!differences[next]) return;
    at = next;
    differences[at].focus({ preventScroll: true });
    differences[at].scrollIntoView({ block: "nearest" });
  };
  const showOnly = () => {
    const isOn = document.body.classList.toggle("only");
    only.setAttribute("aria-pressed", String(isOn));
    if (at !== null) differences[at].scrollIntoView({ block: "nearest" });
  };
  const keys = { n: () => go(1), N: () => go(-1), p: () => go(-1), d: showOnly };
  only.addEventListener("click", showOnly);
  document.addEventListener("keydown", (event) => {
    if (event.ctrlKey || event.altKey || event.metaKey || !Object.hasOwn(keys, event.key)) return;
    event.preventDefault();
    keys[event.key]();
  });
})();
