(() => {
  "use strict";
  const facts = JSON.parse(document.getElementById("order").textContent);
  const order = facts.items.map((item) => item[0]);
  const place = new Map(order.map((id, n) => [id, n]));
  const byId = (id) => document.getElementById(id);
  let tiesKnown = null;
  let current = null;
  let pinned = null;
  let ring = null;
  let marked = [];
  const FRAMES_TO_SETTLE = 12;

  // What belongs together, by the links of items. In a large run they are many, so they aren't gathered before they are asked for.
  const ties = () => {
    if (tiesKnown) return tiesKnown;
    tiesKnown = new Map(order.map((id) => [id, new Set()]));
    const join = (one, other) => {
      tiesKnown.get(one).add(other);
      tiesKnown.get(other).add(one);
    };
    for (const link of document.querySelectorAll(".it a.tie")) {
      const from = link.closest(".it").id;
      const to = link.getAttribute("href").slice(1);
      if (place.has(to) && to !== from) join(from, to);
    }
    for (const inner of document.querySelectorAll(".it .it")) join(inner.id, inner.parentElement.closest(".it").id);
    return tiesKnown;
  };

  const tiesOf = (el) => [...(ties().get(el.id) || [])].sort((a, b) => place.get(a) - place.get(b));

  const nameOf = (id) => {
    const [, kind, rest] = /^([a-z]+)(.*)$/.exec(id);
    const [a, b] = rest.split("-");
    return { c: `cpu ${a} · ${b}`, e: `page ${a} · ${b}`, s: `a signal of page ${a} · ${b}`, f: `frame ${a}`,
      m: `a mark of frame ${a}`, stop: "the stop" }[kind];
  };

  const element = (tag, text, className) => {
    const el = document.createElement(tag);
    if (text !== undefined) el.textContent = text;
    if (className) el.className = className;
    return el;
  };

  // The command that an item is of, whose line of the script is shown with it.
  const commandOf = (el) => {
    if (el.dataset.s) return el;
    const first = (inside) => inside && inside.querySelector('a.tie[href^="#c"]');
    const link = first(el) || first(el.parentElement.closest(".ent"));
    return link && !el.classList.contains("fra") ? byId(link.hash.slice(1)) : null;
  };

  const fill = (slot, el, title) => {
    slot.replaceChildren();
    const head = element("p");
    head.append(element("strong", title + nameOf(el.id)));
    const command = commandOf(el);
    if (command) head.append(" " + (command === el ? "" : "for " + nameOf(command.id) + ": ") + command.dataset.g + ".");
    slot.append(head);
    const lines = element("dl", undefined, "src");
    const add = (what, text) => {
      const [, number, words] = /^(\d+) (.*)$/.exec(text);
      const shown = element("dd");
      shown.append(element("code", words));
      lines.append(element("dt", `${what} line ${number}`), shown);
    };
    if (command) add("script", command.dataset.s);
    for (const line of (el.dataset.r || "").split("\n").filter(Boolean)) add("report", line);
    for (const line of (el.dataset.t || "").split("\n").filter(Boolean)) add("trace", line);
    slot.append(lines);
    const others = tiesOf(el);
    if (others.length) {
      const row = element("p", "With it: ", "why");
      others.slice(0, 12).forEach((id, n) => {
        const link = element("a", nameOf(id), "tie");
        link.href = "#" + id;
        row.append(n ? ", " : "", link);
      });
      if (others.length > 12) row.append(` and ${others.length - 12} more`);
      slot.append(row);
    }
  };

  const show = (el, isPointed) => {
    if (isPointed && el === marked[0]) return;
    for (const old of marked) old.classList.remove("now", "tied");
    marked = [];
    if (!el) return;
    openPane(true);
    const now = byId("now");
    now.setAttribute("aria-live", isPointed ? "off" : "polite");
    fill(now, el, "");
    marked = [el, ...tiesOf(el).map(byId)];
    marked.forEach((other, n) => other.classList.add(n ? "tied" : "now"));
  };

  // In lanes with scroll bars of their own, what belongs to an item is brought into view beside it.
  const bringBeside = (el) => {
    const boxes = new Set([el.closest(".long")]);
    for (const id of tiesOf(el).slice(0, 16)) {
      const other = byId(id);
      const box = other.closest(".long");
      if (!box || boxes.has(box)) continue;
      boxes.add(box);
      const [inner, outer] = [other.getBoundingClientRect(), box.getBoundingClientRect()];
      if (inner.top < outer.top || inner.bottom > outer.bottom) box.scrollTop += inner.top - outer.top - outer.height / 3;
    }
  };

  // With "Only its pages" the lanes of other pages are away.
  const pageLanes = [...document.querySelectorAll(".many .lane:has(> h3[id^=p])")];
  let isNarrowed = false;
  const narrow = () => {
    const kept = new Set();
    for (const el of isNarrowed ? [current, pinned] : []) {
      for (const id of el ? [el.id, ...(ties().get(el.id) || [])] : []) kept.add(byId(id).closest(".lane"));
    }
    for (const lane of pageLanes) lane.hidden = isNarrowed && !kept.has(lane);
    document.querySelector('[data-go="narrow"]').setAttribute("aria-pressed", String(isNarrowed));
  };
  document.querySelector('[data-go="narrow"]').hidden = pageLanes.length < 2;

  // Lanes and parts that the browser hasn't drawn yet have guessed heights, so a jump into them misses. Those around the item are
  // drawn first, and for some frames it is brought back into view while those above it find their heights.
  let laid = [];
  let framesLeft = 0;
  const keepInView = () => {
    if (!framesLeft || !current) return;
    framesLeft -= 1;
    current.scrollIntoView({ block: "nearest", inline: "nearest" });
    requestAnimationFrame(keepInView);
  };
  const layOut = (el) => {
    for (const old of laid) old.classList.remove("laid");
    laid = [el.closest(".part"), el.closest(".lane")].filter(Boolean);
    for (const box of laid) box.classList.add("laid");
  };
  const bringIntoView = () => {
    const isRunning = framesLeft > 0;
    framesLeft = FRAMES_TO_SETTLE;
    if (isRunning) current.scrollIntoView({ block: "nearest", inline: "nearest" });
    else keepInView();
  };
  for (const kind of ["wheel", "touchmove", "pointerdown"]) {
    document.addEventListener(kind, () => { framesLeft = 0; }, { passive: true });
  }

  const visit = (id) => {
    const el = id && byId(id);
    if (!el) return;
    const lane = el.closest(".lane");
    if (lane) lane.hidden = false;
    for (let at = el; at; at = at.parentElement) at.classList.remove("away");
    layOut(el);
    el.focus({ preventScroll: true });
    bringIntoView();
  };

  // The pane has its height only where it shows lines; on a page just opened it is a row of buttons.
  const root = document.documentElement;
  const openPane = (isOpen) => root.classList.toggle("lines", isOpen);
  const measureBar = () => root.style.setProperty("--bar", `${document.querySelector(".bar").offsetHeight + byId("strip").offsetHeight + 2}px`);
  window.addEventListener("resize", measureBar);
  measureBar();

  const pin = (el) => {
    if (pinned) pinned.classList.remove("pinned");
    if (pinned) pinned.removeAttribute("aria-current");
    pinned = el === pinned ? null : el;
    byId("pinned").hidden = !pinned;
    const button = document.querySelector('[data-go="pin"]');
    button.setAttribute("aria-pressed", String(Boolean(pinned)));
    if (!pinned) return;
    pinned.classList.add("pinned");
    pinned.setAttribute("aria-current", "true");
    fill(byId("pinned"), pinned, "Pinned: ");
  };

  const kinds = { failure: ".k-failure, .k-stop", refusal: ".k-refusal", signal: ".k-signal", wait: ".waited" };
  const step = (way, kind) => {
    const isWanted = (n) => (!kind || byId(order[n]).matches(kinds[kind])) && !byId(order[n]).closest(".away");
    const n = choices.next(order.length, current && place.get(current.id), way, isWanted);
    if (n >= 0) visit(order[n]);
  };
  const turn = (way) => {
    if (!current) {
      visit(order[0]);
      return;
    }
    if (!ring) {
      const ids = [current.id, ...tiesOf(current)].sort((a, b) => place.get(a) - place.get(b));
      ring = { ids, at: ids.indexOf(current.id) };
    }
    const kept = ring;
    kept.at = (kept.at + way + kept.ids.length) % kept.ids.length;
    visit(kept.ids[kept.at]);
    ring = kept;
  };

  // Filters put away what isn't wanted; an item in which a wanted one stands is kept.
  const field = (name) => byId(`by-${name}`);
  const NAMES = ["text", "page", "process", "kind"];
  const isNoFilter = (wanted) => NAMES.every((name) => wanted[name] === "");
  const filter = () => {
    const wanted = Object.fromEntries(NAMES.map((name) => [name, field(name).value]));
    const kept = new Set();
    let found = 0;
    for (const [id, pages, processes] of facts.items) {
      const el = byId(id);
      const text = () => [el.dataset.s, el.dataset.r, el.dataset.g, el.textContent].join(" ");
      const own = [...el.classList].map((name) => name.replace(/^k-/, ""));
      if (!choices.matches({ pages, processes, kinds: own, text }, wanted)) continue;
      found += 1;
      for (let at = el; at; at = at.parentElement.closest(".it")) kept.add(at.id);
    }
    for (const id of order) byId(id).classList.toggle("away", !kept.has(id));
    for (const el of document.querySelectorAll(".sight")) el.classList.toggle("away", !isNoFilter(wanted));
    byId("found").textContent = isNoFilter(wanted) ? "" : `${found} of ${order.length} items`;
    drawStrip();
  };
  let waiting = 0;
  byId("filters").addEventListener("input", () => {
    clearTimeout(waiting);
    waiting = setTimeout(filter, 120);
  });
  byId("filters").addEventListener("submit", (event) => {
    event.preventDefault();
    clearTimeout(waiting);
    filter();
    end(1);
  });

  // The strip shows the whole run, from left to right: what failed, was refused, was signalled or waited, and where one is.
  const strip = byId("strip");
  const placesOf = facts.items.map((item, n) => (facts.isTraced ? item[3] : n));
  const lengthOfRun = Math.max(1, placesOf[placesOf.length - 1] + 1);
  const TICKS = [["k-refusal", "--refusal", 0.6], ["waited", "--offline", 0.6], ["k-offline", "--offline", 0.3], ["k-signal", "--signal", 0.3],
    ["k-failure", "--failure", 0], ["k-stop", "--failure", 0]];
  const drawStrip = () => {
    strip.width = strip.clientWidth || 1;
    const paint = strip.getContext("2d");
    const style = getComputedStyle(root);
    const colours = new Map(["--rule", "--focus", ...TICKS.map((row) => row[1])].map((name) => [name, style.getPropertyValue(name)]));
    const [wide, high] = [strip.width, strip.height];
    const tick = (n, colour, from) => {
      paint.fillStyle = colours.get(colour);
      paint.fillRect(Math.floor((placesOf[n] / lengthOfRun) * wide), high * from, Math.max(2, wide / lengthOfRun - 1), high * (1 - from));
    };
    const shown = order.map((id, n) => [byId(id), n]).filter(([el]) => !el.classList.contains("away") && !el.classList.contains("fra"));
    for (const [, n] of shown) tick(n, "--rule", 0.85);
    for (const [name, colour, from] of TICKS) {
      for (const [el, n] of shown) if (el.classList.contains(name)) tick(n, colour, from);
    }
    if (current) tick(place.get(current.id), "--focus", 0);
  };
  strip.addEventListener("click", (event) => {
    const n = choices.nearest(placesOf, (event.offsetX / strip.clientWidth) * lengthOfRun);
    if (order.length) visit(order[n]);
  });
  let isStripDue = false;
  const redrawStrip = () => {
    if (isStripDue) return;
    isStripDue = true;
    requestAnimationFrame(() => {
      isStripDue = false;
      drawStrip();
    });
  };
  window.addEventListener("resize", redrawStrip);
  matchMedia("(prefers-color-scheme: dark)").addEventListener("change", redrawStrip);
  redrawStrip();

  const letGo = () => (pinned ? pin(pinned) : openPane(false));
  const end = (way) => {
    const n = choices.next(order.length, null, way, (at) => !byId(order[at]).closest(".away"));
    if (n >= 0) visit(order[n]);
  };
  const deeds = { step, turn, pin: () => current && pin(current), letGo, search: () => field("text").focus(), end };
  document.addEventListener("keydown", (event) => {
    framesLeft = 0;
    const deed = choices.deed(event, event.target.tagName);
    if (!deed) return;
    event.preventDefault();
    deeds[deed[0]](...deed.slice(1));
  });
  document.addEventListener("focusin", (event) => {
    if (!event.target.classList.contains("it")) return;
    if (current) current.tabIndex = -1;
    current = event.target;
    current.tabIndex = 0;
    ring = null;
    show(current, false);
    narrow();
    redrawStrip();
    bringBeside(current);
  });
  document.addEventListener("mouseover", (event) => {
    const el = event.target.closest(".it");
    if (el) show(el, true);
    else if (!event.target.closest("#pane")) show(current, true);
  });
  document.addEventListener("click", (event) => {
    const link = event.target.closest("a.tie");
    const button = event.target.closest("button[data-go]");
    if (link && place.has(link.hash.slice(1))) {
      event.preventDefault();
      history.replaceState(null, "", link.hash);
      visit(link.hash.slice(1));
    } else if (button) {
      const go = button.dataset.go;
      if (go === "narrow") {
        isNarrowed = !isNarrowed;
        narrow();
      } else if (go === "pin") pin(pinned || current);
      else step(go === "back" ? -1 : 1, kinds[go] && go);
    } else if (event.target.closest(".it") && !String(getSelection())) {
      event.target.closest(".it").focus({ preventScroll: true });
      bringIntoView();
    }
  });
  if (order.length) byId(order[0]).tabIndex = 0;
  const follow = () => place.has(location.hash.slice(1)) && visit(location.hash.slice(1));
  window.addEventListener("hashchange", follow);
  follow();
})();
