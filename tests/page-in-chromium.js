// What page-in-chromium asks the page about itself.
({
  /** What stands in the page, and which events are bright while something is picked. */
  picture() {
    const all = (selector) => [...document.querySelectorAll(selector)];
    const textOf = (id) => document.getElementById(id).textContent;
    const numbers = (marks) => marks.map((mark) => Number(mark.dataset.event));
    const named = (marks, ...names) => marks.map((mark) => names.map((name) => mark.dataset[name]).join(" ")).sort();
    const events = all("#canvas [data-event]");
    const letters = all("#canvas .letter");
    const isFocused = all("#canvas .focus").length > 0;
    return {
      events: numbers(events),
      bright: numbers(events.filter((mark) => (isFocused ? mark.matches(".lit") : !mark.matches(".dim")))),
      arrows: named(letters.filter((mark) => mark.dataset.to), "letter", "from", "to"),
      stubs: named(letters.filter((mark) => !mark.dataset.to), "letter", "from"),
      title: textOf("right-title"),
      side: textOf("side"),
      status: textOf("status"),
      script: document.getElementById("script").value,
    };
  },

  /** Which rules of accessibility are broken: of names and places first, then of contrast. */
  rules() {
    const broken = [];
    const all = (selector) => [...document.querySelectorAll(selector)];
    const ids = all("[id]").map((it) => it.id);
    if (!document.documentElement.lang) broken.push("the page has no language");
    if (!document.title) broken.push("the page has no title");
    if (new Set(ids).size !== ids.length) broken.push("two elements have one id");
    for (const name of ["aria-labelledby", "aria-describedby", "aria-controls", "aria-activedescendant"])
      for (const it of all(`[${name}]`)) if (!document.getElementById(it.getAttribute(name))) broken.push(`${name} of ${it.id} leads nowhere`);
    for (const landmark of ["main", "header"]) if (all(landmark).length !== 1) broken.push(`there is not one ${landmark}`);
    if (!all("[role=status]").length) broken.push("no element tells what has changed");
    let level = 0;
    for (const it of all("h1, h2, h3, h4")) {
      const own = Number(it.tagName[1]);
      if (own > level + 1) broken.push(`a heading of level ${own} after one of ${level}`);
      level = own;
    }
    if (all('[tabindex]:not([tabindex="0"], [tabindex="-1"])').length) broken.push("a tabindex above 0");
    for (const it of all('[aria-hidden=true] :is(button, a, [tabindex="0"])')) broken.push(`${it.tagName} is hidden, and can have the focus`);
    return [...broken, ...this.contrasts()];
  },

  /**
   * Texts of too little contrast, which WCAG 2 defines: 4.5 is enough. What is dimmed because something else was picked, or cannot be used now, is
   * not asked.
   */
  contrasts() {
    const colour = (text) => {
      const found = text.match(/[\d.]+/g).map(Number);
      return { rgb: found.slice(0, 3), alpha: found[3] ?? 1 };
    };
    const linear = (it) => (it <= 0.04045 ? it / 12.92 : ((it + 0.055) / 1.055) ** 2.4);
    const light = ({ rgb: [red, green, blue] }) => 0.2126 * linear(red / 255) + 0.7152 * linear(green / 255) + 0.0722 * linear(blue / 255);
    const behind = (it) => {
      for (let above = it; above; above = above.parentElement) {
        const found = colour(getComputedStyle(above).backgroundColor);
        if (found.alpha === 1) return found;
      }
      return { rgb: [255, 255, 255] };
    };
    const broken = [];
    const seen = new Set();
    let asked = 0;
    for (const it of document.querySelectorAll("body *")) {
      const hasText = [...it.childNodes].some((child) => child.nodeType === Node.TEXT_NODE && child.data.trim());
      const style = getComputedStyle(it);
      if (!hasText || it.closest("[hidden], script, style, title, option, :disabled, .dim, .focus") || style.visibility === "hidden") continue;
      const isDrawn = it.closest("svg") !== null;
      const sign = it.matches(".number") ? it.closest(".commit, .restart, .stop")?.querySelector(".sign") : null;
      const paper = sign ? colour(getComputedStyle(sign).fill) : behind(it);
      const [low, high] = [light(colour(isDrawn ? style.fill : style.color)), light(paper)].sort((a, b) => a - b);
      const ratio = (high + 0.05) / (low + 0.05);
      const kind = `${it.tagName} ${it.getAttribute("class")} ${it.id}`;
      asked++;
      if (ratio < 4.5 && !seen.has(kind)) broken.push(`contrast ${ratio.toFixed(2)} of ${kind}: ${it.textContent.trim().slice(0, 20)}`);
      seen.add(kind);
    }
    if (asked < 40) broken.push(`only ${asked} texts were asked for their contrast`);
    return broken;
  },
})
