({
  items: () => [...document.querySelectorAll(".it")],

  isDrawn(el) {
    const box = el.getBoundingClientRect();
    return box.width > 8 && box.height > 8 && el.checkVisibility();
  },

  counts() {
    const of = (name) => [...document.querySelectorAll("." + name)].filter((el) => this.isDrawn(el)).length;
    return { commands: of("com"), entries: of("ent"), frames: of("fra"), marks: of("mar"), signals: of("sig"), stops: of("sto") };
  },

  // What goes beyond the window, or beyond the item that it stands in, and items of a lane that lie on one another.
  overflow() {
    const width = document.documentElement.clientWidth;
    const found = [];
    if (document.documentElement.scrollWidth > width) found.push("the page itself");
    for (const el of document.querySelectorAll("body *")) {
      const box = el.getBoundingClientRect();
      if (el.matches(".heard, .heard *, .skip, script, style") || !box.width) continue;
      if (box.left < -1 || box.right > width + 1) found.push(`${el.tagName} ${el.id || el.className}`);
      const item = el.closest(".it, .sight, .lane, .slots");
      if (item && el !== item && box.right > item.getBoundingClientRect().right + 1) found.push(`${el.tagName} in ${item.id}`);
    }
    for (const list of document.querySelectorAll(".part")) {
      let bottom = -Infinity;
      for (const el of list.children) {
        const box = el.getBoundingClientRect();
        if (box.top < bottom - 1.5) found.push(`${el.id || "a refusal"} lies on what is above it`);
        bottom = box.bottom;
      }
    }
    return found;
  },

  // Texts whose colour stands out too little from what is behind them.
  faint() {
    const parts = (text) => (text.match(/[\d.]+/g) || []).map(Number);
    const light = (rgb) => {
      const [r, g, b] = rgb.map((c) => (c / 255 <= 0.03928 ? c / 255 / 12.92 : ((c / 255 + 0.055) / 1.055) ** 2.4));
      return 0.2126 * r + 0.7152 * g + 0.0722 * b;
    };
    const behind = (el) => {
      for (let at = el; at; at = at.parentElement) {
        const colour = parts(getComputedStyle(at).backgroundColor);
        if (colour.length === 3 || colour[3] === 1) return colour.slice(0, 3);
      }
      return [255, 255, 255];
    };
    const found = new Set();
    for (const el of document.querySelectorAll("body *")) {
      const hasText = [...el.childNodes].some((node) => node.nodeType === 3 && node.data.trim());
      if (!hasText || el.matches("script, style") || !el.checkVisibility()) continue;
      const [a, b] = [light(parts(getComputedStyle(el).color).slice(0, 3)), light(behind(el))];
      const ratio = (Math.max(a, b) + 0.05) / (Math.min(a, b) + 0.05);
      if (ratio < 4.5) found.add(`${el.tagName.toLowerCase()}.${el.className} ${ratio.toFixed(2)}`);
    }
    return [...found];
  },

  // The item with the focus, whether one sees it and its outline, and the lines that are shown for it.
  focus() {
    const el = document.activeElement;
    if (!el.classList.contains("it")) return { id: null };
    const box = el.getBoundingClientRect();
    const floor = document.getElementById("pane").getBoundingClientRect().top;
    const lines = [...document.querySelectorAll("#now dt")].map((dt) => [dt.textContent, dt.nextElementSibling.textContent]);
    const isSeen = box.top >= -1 && box.top < floor - 8 && (box.bottom <= floor + 1 || box.height > floor - 40);
    return { id: el.id, kinds: el.className, isSeen, outline: parseFloat(getComputedStyle(el).outlineWidth), lines };
  },

  pinned() {
    const slot = document.getElementById("pinned");
    const el = document.querySelector('.it[aria-current="true"]');
    return { isShown: slot.checkVisibility(), text: slot.textContent, id: el && el.id };
  },
});
