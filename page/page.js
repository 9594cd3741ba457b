// The page: a script, the picture of its run, and what was picked of it. All that is said of a run is a text of the programs. What is worked
// out here is where these texts are shown, and which lines a script gets if something else is to happen.

const contents = JSON.parse(document.getElementById("contents").textContent);
const $ = (id) => document.getElementById(id);
const numbers = (text) => text.match(/\d+/g).map(Number);
const plural = (count, word) => `${count} ${word}${count === 1 ? "" : "s"}`;

/** A new element, with attributes, handlers (`onclick`) and children; a child that is nothing is left out. */
function make(name, attributes, ...children) {
  const made = document.createElement(name);
  for (const [key, value] of Object.entries(attributes ?? {})) {
    if (key.startsWith("on")) made.addEventListener(key.slice(2), value);
    else if (value !== null && value !== false) made.setAttribute(key, value === true ? "" : value);
  }
  made.append(...children.flat(Infinity).filter((child) => child !== null && child !== undefined));
  return made;
}

// ---- The programs ---------------------------------------------------------------------------------------------------------------------------

/** Asks the programs behind the server that gave out the page. */
async function askServer(program, words, script) {
  const request = { method: "POST", headers: { "Content-Type": "application/json" }, body: JSON.stringify({ program, words, script }) };
  const reply = await fetch(location.pathname, request).catch(() => {
    throw new Error("The server of this page has ended. Start it again: ./camelot --page");
  });
  if (!reply.ok) throw new Error(`The server refuses: ${(await reply.text()).trim()}.`);
  return reply.json();
}

/** The bytes that are packed into a text. */
async function unpacked(packed) {
  const bytes = Uint8Array.from(atob(packed), (letter) => letter.charCodeAt(0));
  return new Response(new Blob([bytes]).stream().pipeThrough(new DecompressionStream("gzip"))).arrayBuffer();
}

/** What the programs answered when the page was made: `lines` has each line of all texts once, and an answer the places of its lines. */
async function openRecord(packed, why) {
  const { lines, scripts } = JSON.parse(new TextDecoder().decode(await unpacked(packed)));
  const textOf = (places) => places.map((place) => lines[place]).join("\n");
  return async (program, words, script) => {
    const found = scripts[script]?.[[program, ...words].join(" ")];
    if (!found) throw new Error(`${why} To run other scripts, start the page with ./camelot --page`);
    return { status: found[0], text: textOf(found[1]), said: textOf(found[2]) };
  };
}

const SECONDS_TO_RUN = 20;
const HANDS = 3;

/** A worker that has the programs as WebAssembly, and takes one question after another. If a run takes too long, another worker begins. */
class Hand {
  waiting = new Map();
  last = 0;

  constructor(address, compiled) {
    this.start = () => {
      this.worker = new Worker(address);
      this.worker.onmessage = ({ data }) => this.hear(data);
      this.worker.postMessage(compiled);
    };
    this.start();
  }

  ask(program, words, script) {
    return new Promise((done, fail) => {
      const number = ++this.last;
      this.waiting.set(number, { done, fail, timer: setTimeout(() => this.restart(), 1000 * SECONDS_TO_RUN) });
      this.worker.postMessage({ number, program, words, script });
    });
  }

  hear({ number, answer, fault }) {
    const { done, fail, timer } = this.waiting.get(number);
    this.waiting.delete(number);
    clearTimeout(timer);
    if (answer) done(answer);
    else fail(new Error(fault));
  }

  restart() {
    this.worker.terminate();
    const late = [...this.waiting.keys()];
    this.start();
    for (const number of late) this.hear({ number, fault: `The run did not end within ${SECONDS_TO_RUN} seconds.` });
  }
}

/** Starts the programs that are in this file, in a few workers. */
async function startEngine({ module, worker }) {
  const compiled = await WebAssembly.compile(await unpacked(module));
  const address = URL.createObjectURL(new Blob([worker], { type: "text/javascript" }));
  const hands = Array.from({ length: HANDS }, () => new Hand(address, compiled));
  return (...question) => hands.toSorted((one, other) => one.waiting.size - other.waiting.size)[0].ask(...question);
}

/** What stands behind the page: how it is asked, and what is said of that. */
async function openEngine() {
  const proved = "Every sentence about a run, and each picture, is a text of the two proved programs";
  const page = "The page around them is not proved.";
  if (!contents.record) return { ask: askServer, about: `${proved}, which run on this machine. ${page}` };
  let why = "This file has the runs of its scenes alone.";
  if (contents.engine) {
    const about = `${proved}, which are in this file, compiled for WebAssembly. ${page} Nor are a heap and some arithmetic that this needs.`;
    try {
      return { ask: await startEngine(contents.engine), about };
    } catch (error) {
      why = `This browser does not run the programs in this file (${error.message}), so only the runs of its scenes are here.`;
    }
  }
  return { ask: await openRecord(contents.record, why), about: `${proved}, made when this file was written. ${page}` };
}

let behind = null;

/** One script, which may be meant by time, and what the programs answered about it so far. */
class Run {
  constructor(script, isByTime) {
    this.script = script;
    this.isByTime = isByTime;
    this.lines = script.split("\n");
    this.answers = new Map();
    this.stops = [];
    this.marks = new Map();
    this.actions = new Map();
    this.paragraphs = [];
  }

  ask(program, ...words) {
    const key = [program, ...words].join(" ");
    if (!this.answers.has(key)) this.answers.set(key, behind.ask(program, words, this.script));
    return this.answers.get(key);
  }

  /** Runs the script: its report, its run in words and its picture; a script by time has a report alone. */
  async begin() {
    const [report, explained, drawn] = await Promise.all([this.ask("camelot", "run"), this.ask("camscope", "explain"), this.ask("camscope", "draw")]);
    this.isRefused = report.status === 3;
    this.timed = this.isRefused ? await this.ask("camelot", "timed") : null;
    this.mayBeTimed = this.timed?.status === 0;
    this.isTimed = this.mayBeTimed && this.isByTime;
    this.report = this.isTimed ? this.timed.text : report.text;
    this.place = this.isRefused && !this.isTimed ? numbers(report.text) : null;
    this.paragraphs = this.isTimed ? [] : paragraphsOf(explained.text);
    this.drawn = this.isRefused ? null : drawn;
    this.checked = !this.isRefused && this.lines.some((line) => line.startsWith("#=")) ? await this.ask("camscope", "check") : null;
    this.stops = [...this.report.matchAll(/^stop (\d+) /gm)].map((found) => Number(found[1]));
    this.marks = new Map([...this.report.matchAll(/^(refused|cut|halted) (\d+) .*$/gm)].map((found) => [Number(found[2]), found[0]]));
    for (const paragraph of this.paragraphs) {
      const head = paragraph[0].match(/^(\S+) = (\S+) .*:$/);
      if (head && !this.isRefused) this.actions.set(head[1], { name: head[2], paragraph });
    }
    return this;
  }

  /** The comment at the head of the script, which says what to look at. */
  about() {
    const end = this.lines.findIndex((line) => !line.startsWith("#"));
    return this.lines.slice(0, Math.max(end, 0)).map((line) => line.replace(/^#+ */, ""));
  }

  /** What is told in words of the thing that a pattern finds at the head of a paragraph. */
  told(pattern) {
    return this.paragraphs.filter((paragraph) => pattern.test(paragraph[0])).map((paragraph) => paragraph.join("\n"));
  }

  /** What is told in words of a line that was refused, cut or halted; of a fault what stands below the caret. */
  whyOf(line) {
    this.ofLines ??= new Map(this.paragraphs.map((paragraph) => [Number(paragraph[0].match(/^line (\d+)/)?.[1]), paragraph]));
    const [head, ...rest] = this.ofLines.get(line) ?? [];
    return rest.length ? belowCaret(rest) : head?.replace(/^line \d+:? /, "");
  }

  /** The word by which the script knows the action of this name. */
  wordOf(name) {
    for (const [word, action] of this.actions) if (action.name === name) return word;
    return null;
  }
}

/** The paragraphs of a text: a line, and the lines after it that are further in. */
function paragraphsOf(text) {
  const paragraphs = [];
  for (const line of text.split("\n")) {
    if (/^\s/.test(line) && paragraphs.length) paragraphs.at(-1).push(line);
    else if (line) paragraphs.push([line]);
  }
  return paragraphs;
}

/** What stands below the caret that points into a line. */
const belowCaret = (lines) => lines.slice(lines.findIndex((line) => /^ *\^$/.test(line)) + 1).map((line) => line.trim()).join(" ");

// ---- The picture ----------------------------------------------------------------------------------------------------------------------------

/** The events and letters of a picture, as its elements name them. */
class Picture {
  constructor(text) {
    this.text = text;
    // (the policy of the page lets no element bring a style sheet: it is read as a text, and put in place by `hang`. The parser of HTML reads a
    // picture in a third of the time that the one of XML takes)
    const room = document.createElement("template");
    room.innerHTML = text.replace("<style>", "<desc>").replace("</style>", "</desc>");
    this.svg = room.content.firstElementChild;
    const style = this.svg.querySelector("desc");
    this.style = style.textContent;
    style.remove();
    this.events = [...this.svg.querySelectorAll("[data-event]")].map((mark) => {
      const title = mark.querySelector("title").textContent;
      const words = mark.querySelector(".words");
      const line = Number(mark.querySelector(".line").textContent);
      const node = Number(title.match(/ at node (\d+)/)[1]);
      const { action } = words.dataset;
      return { mark, number: Number(mark.dataset.event), node, line, title, words: words.textContent, action, sent: [], received: null };
    });
    // (the words of a letter stand in its element, or in one of their own)
    const words = Map.groupBy(this.svg.querySelectorAll("[data-letter] .word"), (word) => word.closest("[data-letter]").dataset.letter);
    this.letters = [...this.svg.querySelectorAll(".letter")].map((mark) => {
      const { letter, from, to } = mark.dataset;
      const own = words.get(letter);
      const marks = [mark, ...own.map((word) => word.closest("[data-letter]")).filter((label) => label === mark || !label.matches(".letter"))];
      return { marks, number: Number(letter), from: Number(from), to: to === undefined ? null : Number(to), label: own[0].textContent };
    });
    for (const letter of this.letters) {
      this.events[letter.from].sent.push(letter);
      if (letter.to !== null) this.events[letter.to].received = letter;
    }
  }

  eventsOf(line) {
    return this.events.filter((event) => event.line === line);
  }

  arrowsOf(letter) {
    return this.letters.filter((arrow) => arrow.number === letter);
  }
}

const drawnStyle = new CSSStyleSheet();
document.adoptedStyleSheets = [drawnStyle];

/** Puts a picture into the page. */
function hang(picture) {
  const { svg } = picture;
  const width = Number(svg.getAttribute("width"));
  // (the style sheet of a picture speaks of its own elements alone, and gives way to that of the page)
  drawnStyle.replaceSync(`@layer drawn{#canvas{${picture.style}}}`);
  svg.style.setProperty("--width", `${width}px`);
  svg.setAttribute("role", "none");
  for (const { mark, title } of picture.events) {
    mark.setAttribute("role", "option");
    mark.setAttribute("aria-label", title.replace(/\s*\n\s*/g, "; "));
  }
  // (the heads of lanes and columns stay in sight)
  const heads = [...svg.querySelectorAll(".head, .column")].map((head) => {
    const kept = head.matches(".head") ? make("small", {}, head.nextElementSibling?.textContent ?? "") : null;
    const span = make("span", { class: kept ? null : "column" }, head.textContent, kept);
    span.style.left = `${(Number(head.getAttribute("x")) / width) * 100}%`;
    return span;
  });
  const strip = make("div", { class: "heads", "aria-hidden": "true" }, heads);
  strip.style.setProperty("--width", `${width}px`);
  $("canvas").replaceChildren(strip, svg);
}

// ---- What is shown --------------------------------------------------------------------------------------------------------------------------

const tabs = {
  picture: { label: "Picture" },
  words: { label: "In words", text: () => run.ask("camscope", "explain") },
  report: { label: "Report", text: async () => ({ text: run.report }) },
  trace: { label: "Trace", text: () => run.ask("camelot", "trace") },
  columns: { label: "Columns", text: () => run.ask("camscope", "columns") },
  table: { label: "Table" },
};

let run = new Run("", false);
let plain = null;
let picture = null;
let picked = null;
let tab = "picture";
let scene = null;

/** Work of one kind that waits for the programs: what was begun earlier gives way to what was begun later. */
class Turns {
  static waiting = 0;
  last = 0;

  /** Does the work, which is handed a test whether it is still the last one. What fails is said. */
  async take(work) {
    const mine = ++this.last;
    const isLast = () => mine === this.last;
    Turns.waiting++;
    document.body.setAttribute("aria-busy", "true");
    try {
      await work(isLast);
    } catch (error) {
      if (isLast()) say(error.message, true);
      if (error.name !== "Error") throw error;
    } finally {
      if (--Turns.waiting === 0) document.body.setAttribute("aria-busy", "false");
    }
  }
}

const runs = new Turns();
const choices = new Turns();
const shows = new Turns();

function say(text, isBad = false) {
  $("status").textContent = text;
  $("status").classList.toggle("bad", isBad);
}

/** Runs the script that is in the editor, and shows its run. */
function runScript(pick = null, said = "") {
  const next = new Run($("script").value, $("by-time").checked);
  return runs.take(async (isLast) => {
    showGutter();
    try {
      await next.begin();
    } catch (error) {
      if (isLast()) showNothing(next, error.message);
      throw error;
    }
    if (!isLast()) return;
    run = next;
    plain = run.drawn?.status === 0 ? new Picture(run.drawn.text) : null;
    picture = null;
    $("by-time").parentElement.hidden = !run.isByTime && !run.mayBeTimed;
    showPicture(plain);
    say(said + summary(), Boolean(run.place || run.checked?.status));
    for (const id of ["save-report", "save-picture", "next-stop"]) $(id).disabled = id === "save-report" ? Boolean(run.place) : !plain;
    await showTab();
    if (isLast()) await choose(pick);
  });
}

/** Shows that a script has no run, so that none of another script is seen beside it. */
function showNothing(of, reason) {
  run = of;
  plain = picture = picked = null;
  $("canvas").replaceChildren(make("pre", {}, reason));
  $("text-panel").replaceChildren(reason);
  $("side").replaceChildren();
  for (const id of ["save-report", "save-picture", "next-stop"]) $(id).disabled = true;
  remember();
}

/** Whether the run keeps the lines `#= TEXT` of the script. */
const expected = () => run.checked.text || run.checked.said || "All that the script expects holds.";

/** What is said of a run in short; of a script that is refused what stands below the caret. */
function summary() {
  if (run.place) return belowCaret(run.paragraphs.flat()) || run.report;
  if (run.isTimed) return "A script by time: it has a report, and no picture.";
  if (!plain) return run.drawn.said || run.drawn.text;
  const letters = new Set(plain.letters.map((letter) => letter.number));
  const counts = `${plural(plain.events.length, "event")}, ${plural(letters.size, "letter")}, ${plural(run.stops.length, "stop")}.`;
  return run.checked ? `${counts} ${expected()}` : counts;
}

/** Shows a picture, or what is in its place where there is none. */
function showPicture(next) {
  if (next === picture && next) return;
  picture = next;
  if (picture) hang(picture);
  else $("canvas").replaceChildren(make("pre", {}, run.isTimed ? run.report : run.paragraphs.map((it) => it.join("\n")).join("\n")));
}

async function showTab() {
  for (const name of Object.keys(tabs)) {
    $(`tab-${name}`).setAttribute("aria-selected", name === tab);
    $(`tab-${name}`).tabIndex = name === tab ? 0 : -1;
  }
  $("picture-panel").hidden = tab !== "picture";
  $("text-panel").hidden = tab === "picture";
  $("text-panel").setAttribute("aria-labelledby", `tab-${tab}`);
  if (tab === "table") $("text-panel").replaceChildren(plain ? tableOf(plain) : "There is no picture.");
  else if (tab !== "picture") {
    const [of, name] = [run, tab];
    const answer = await tabs[name].text();
    if (run === of && tab === name) $("text-panel").replaceChildren(make("pre", {}, linked(answer.text || answer.said)));
  }
}

/** The text of a picture as a table. */
function tableOf(picture) {
  const head = ["Event", "Node", "Line", "What happened", "Received", "Sent"].map((title) => make("th", { scope: "col" }, title));
  const rows = picture.events.map((event) =>
    make(
      "tr",
      {},
      make("th", { scope: "row" }, button(`event ${event.number}`, { event: event.number })),
      make("td", {}, String(event.node)),
      make("td", {}, button(`line ${event.line}`, { line: event.line })),
      make("td", {}, event.words),
      make("td", {}, event.received ? `${event.received.label} from event ${event.received.from}` : ""),
      make("td", {}, event.sent.map((letter) => letter.label + (letter.to === null ? "" : ` to event ${letter.to}`)).join(", ")),
    ),
  );
  return make("table", {}, make("caption", {}, "The events of the run"), make("thead", {}, make("tr", {}, head)), make("tbody", {}, rows));
}

/** A button that picks something. */
function button(label, pick) {
  return make("button", { class: "link", type: "button", onclick: () => choose(pick) }, label);
}

/** A text in which events, letters, lines and the names of actions can be picked. A bracket or a mark beside such a word stays on its line. */
function linked(text) {
  const parts = [];
  let done = 0;
  for (const found of text.matchAll(/(\(?)(\b(event|letter|line) (\d+)\b|\b\d+\.\d+\.\d+(?:\/\d+\.\d+\.\d+)*(?![\d.]*\d))([),.:;]*)/g)) {
    const [whole, before, label, kind, number, after] = found;
    const word = kind ? null : run.wordOf(label);
    if (!kind && !word) continue;
    const picks = button(label, kind ? { [kind]: Number(number) } : { action: word });
    parts.push(text.slice(done, found.index), before + after ? make("span", { class: "together" }, before, picks, after) : picks);
    done = found.index + whole.length;
  }
  return [...parts, text.slice(done)];
}

// ---- What is picked -------------------------------------------------------------------------------------------------------------------------

/** Picks something, which is `{event}`, `{letter}`, `{action}` or `{line}`, or nothing. */
function choose(pick) {
  const of = run;
  return choices.take((isLast) => (plain || !pick || pick.line ? showPick(pick, () => isLast() && run === of) : undefined));
}

async function showPick(pick, isLast) {
  const kind = pick ? Object.keys(pick)[0] : "run";
  const shown = await picks[kind](pick?.[kind]);
  if (!isLast()) return;
  picked = shown ? pick : null;
  $("right-title").textContent = picked ? `${kind[0].toUpperCase()}${kind.slice(1)} ${pick[kind]}` : "The run";
  $("clear").hidden = !picked;
  $("side").replaceChildren(...(shown ?? (await picks.run())).side.flat(Infinity).filter(Boolean));
  showPicture(shown?.picture ?? plain);
  light(shown ?? {});
  showGutter(shown?.line);
  remember();
}

/** Lights up events and letters. Where the programs did, in a picture of its own, nothing is dimmed besides. */
function light({ events = [], letters = [], at = null }) {
  if (!picture) return;
  picture.svg.classList.toggle("focus", events.length + letters.length > 0);
  for (const mark of picture.svg.querySelectorAll(".lit, .now")) mark.classList.remove("lit", "now");
  for (const number of events) picture.events[number].mark.classList.add("lit");
  for (const mark of letters.flatMap((letter) => letter.marks)) mark.classList.add("lit");
  for (const { mark, number } of picture.events) mark.setAttribute("aria-selected", number === at);
  if (at === null) $("canvas").removeAttribute("aria-activedescendant");
  else {
    const { mark } = picture.events[at];
    mark.classList.add("now");
    $("canvas").setAttribute("aria-activedescendant", mark.id);
  }
  const first = at ?? Math.min(...events);
  if (Number.isFinite(first)) picture.events[first].mark.querySelector(".sign").scrollIntoView({ block: "nearest", inline: "nearest" });
}

/** The picture in which the programs lit something up; without one the plain picture stays. */
async function lit(...words) {
  const drawn = await run.ask("camscope", "draw", ...words);
  return drawn.status === 0 ? new Picture(drawn.text) : plain;
}

const title = (text) => make("h3", {}, text);
const text = (words) => make("pre", {}, linked(words));
const prose = (lines) => make("p", {}, lines.join(" ").split("`").map((part, place) => (place % 2 ? make("code", {}, part) : part)));
const lineButton = (line) => make("p", {}, button(`line ${line}`, { line }), ": ", make("code", {}, run.lines[line - 1]?.trim() ?? ""));
const asWritten = (command, answer) => [make("p", { class: "fine" }, make("code", {}, command), " writes"), text(answer.text || answer.said)];

/** An arrow or a stub, as a line of a list. */
function letterItem(letter) {
  const event = (number) => button(`event ${number}`, { event: number });
  const way = letter.to === null ? [" from ", event(letter.from)] : [": ", event(letter.from), " to ", event(letter.to)];
  return make("li", {}, button(letter.label, { letter: letter.number }), way);
}

/** What is shown of each kind of pick: what stands at the side, and what is lit. */
const picks = {
  async run() {
    if (!plain) return { side: [prose(run.about())] };
    const item = (label, pick, words) => make("li", {}, button(label, pick), words);
    const actions = [...run.actions].map(([word, { paragraph }]) => item(word, { action: word }, paragraph[0].slice(word.length, -1)));
    const stops = run.stops.map((event) => item(`event ${event}`, { event }, `: ${plain.events[event].words}`));
    const marks = [...run.marks].map(([line, mark]) => item(`line ${line}`, { line }, `: ${run.whyOf(line) ?? mark.replace(` ${line}`, "")}`));
    const values = run.report.match(/^value .*$/gm) ?? [];
    const section = (name, items) => (items.length ? [title(name), make("ul", {}, items)] : []);
    return {
      side: [
        run.about().length ? prose(run.about()) : [],
        run.checked ? [title("What the script expects"), text(expected())] : [],
        section("Orphans that were stopped", stops),
        section("Actions", actions),
        section("Lines that were refused, cut or halted", marks),
        values.length ? [title("Committed values"), make("pre", {}, values.join("\n"))] : [],
        legend(),
        make("p", { class: "fine" }, behind.about),
      ],
    };
  },

  async event(number) {
    const event = plain.events[number];
    if (!event) return null;
    const isStop = run.stops.includes(number);
    const why = isStop ? await run.ask("camelot", "why", String(number)) : null;
    const way = [event.received, ...event.sent].filter(Boolean);
    return {
      at: number,
      line: event.line,
      picture: isStop ? await lit("--stop", String(number)) : plain,
      events: isStop ? [] : [number, ...way.flatMap((letter) => [letter.from, letter.to ?? letter.from])],
      letters: isStop ? [] : way,
      side: [
        run.told(new RegExp(`\\bevent ${number}\\b`)).map(text),
        why ? asWritten(`camelot why ${number}`, why) : null,
        text(event.title.replace(/\s*\n\s*/g, "\n")),
        way.length ? make("ul", {}, way.map(letterItem)) : null,
        lineButton(event.line),
        event.action ? make("p", {}, "Action ", button(event.action, { action: event.action })) : null,
        whatIf(ifEvent(event)),
      ],
    };
  },

  async letter(number) {
    const arrows = plain.arrowsOf(number);
    if (!arrows.length) return null;
    return {
      events: arrows.flatMap((arrow) => [arrow.from, arrow.to ?? arrow.from]),
      letters: arrows,
      line: plain.events[arrows[0].to ?? arrows[0].from].line,
      side: [make("ul", {}, arrows.map(letterItem)), run.told(new RegExp(`^letter ${number}\\b`)).map(text), whatIf(ifLetter(arrows))],
    };
  },

  async action(word) {
    const action = run.actions.get(word);
    if (!action) return null;
    const [witness, picture] = await Promise.all([run.ask("camelot", "witness", action.name), lit("--action", word)]);
    return {
      picture,
      side: [
        run.told(new RegExp(`^${word.replace(/\W/g, "\\$&")} (=|is stopped)`)).map(text),
        title("Its witness"),
        make("p", { class: "fine" }, "A legal execution in which it is no orphan and sees the same. Lit is what happened before its last step."),
        asWritten(`camelot witness ${action.name}`, witness),
      ],
    };
  },

  async line(number) {
    const events = plain?.eventsOf(number) ?? [];
    const items = events.map((event) => make("li", {}, button(`event ${event.number}`, { event: event.number }), `: ${event.words}`));
    return {
      line: number,
      events: events.map((event) => event.number),
      letters: events.flatMap((event) => [event.received, ...event.sent]).filter(Boolean),
      side: [
        make("pre", {}, run.lines[number - 1] ?? ""),
        run.told(new RegExp(`^line ${number}\\b`)).map(text),
        events.length ? make("ul", {}, items) : make("p", {}, "No event."),
      ],
    };
  },
};

/** The signs of a picture: the look, the shape, and what it says. */
const CIRCLE = "M-10 0a10 10 0 1 0 20 0a10 10 0 1 0 -20 0z";
const SHAFT = "M-14 0H14";
const SIGNS = [
  ["event plain", CIRCLE, "an event, by its number"],
  ["event idle", CIRCLE, "a letter that came late, again or amiss"],
  ["event asking", CIRCLE, "votes are asked for"],
  ["event commit", `${CIRCLE}M-13 0a13 13 0 1 0 26 0a13 13 0 1 0 -26 0z`, "a commit is decided"],
  ["event abort", "M0 -14L14 0L0 14L-14 0z", "an abort is decided"],
  ["event stop", "M-5 -12H5L12 -5V5L5 12H-5L-12 5V-5z", "an orphan is stopped"],
  ["event restart", "M-13 -6h26v14h-26zM-11 -9l22 -4M-11 -13l22 -4", "a node restarts, with a new count"],
  ["halt", "M-7 -7h14v14h-14zM-2 -4v8M2 -4v8", "a node halts; its lane is dotted until it restarts"],
  ["letter work", SHAFT, "start, call"],
  ["letter reply", SHAFT, "answer"],
  ["letter end", SHAFT, "finish, quit"],
  ["letter vote", SHAFT, "prepare, vote, query"],
  ["letter news", SHAFT, "news of outcomes"],
  ["letter unheard", SHAFT, "a letter that no event received"],
];

/** A small picture of a sign. */
function signPicture(look, shape) {
  const [svg, group, path] = ["svg", "g", "path"].map((name) => document.createElementNS("http://www.w3.org/2000/svg", name));
  svg.setAttribute("viewBox", "-16 -15 32 30");
  svg.setAttribute("aria-hidden", "true");
  group.setAttribute("class", look);
  path.setAttribute("class", { letter: "shaft", event: "sign", halt: "pause" }[look.split(" ")[0]]);
  path.setAttribute("d", shape);
  group.append(path);
  svg.append(group);
  return svg;
}

function legend() {
  const signs = SIGNS.map(([look, shape, about]) => make("li", {}, signPicture(look, shape), about));
  const keys = Object.entries({
    "↓ ↑": "from event to event",
    "→ ←": "along a letter",
    "n p": "from stop to stop",
    Enter: "the event's action",
    Esc: "back to the whole run",
  });
  return [
    title("Signs"),
    make("ul", { class: "signs" }, signs),
    title("Keys in the picture"),
    make("dl", {}, keys.map(([key, about]) => [make("dt", {}, make("kbd", {}, key)), make("dd", {}, about)])),
  ];
}

// ---- What if: the script with other lines -----------------------------------------------------------------------------------------------------

const stepOf = (line) => run.lines[line - 1].trim();

/**
 * The script with a line before or after an event. If the event's line made several events, because it delivers letters until none is left, the
 * deliveries up to there are written out, and the rest of the line follows.
 */
function withLine(event, where, line) {
  const lines = run.lines.slice();
  const at = event.line - 1;
  const before = plain.eventsOf(event.line).filter((other) => other.number < event.number || (where === "after" && other === event));
  const isWhole = before.length === (where === "after" ? plain.eventsOf(event.line).length : 0);
  let made;
  if (stepOf(event.line) === "drain" && !isWhole) made = [...before.map((other) => `deliver ${other.received.number}`), line, "drain"];
  else made = where === "after" ? [lines[at], line] : [line, lines[at]];
  lines.splice(at, 1, ...made);
  return { script: lines.join("\n"), line: at + 1 + made.indexOf(line) };
}

/** What may be changed at an event. What happens within a `play` has no lines of its own, so there a change comes before the line. */
function ifEvent(event) {
  const { node, line } = event;
  const isPlayed = stepOf(line) === "play";
  const first = isPlayed ? plain.eventsOf(line)[0] : event;
  const here = isPlayed ? `before line ${line}` : "before this event";
  const restart = isPlayed ? [`Restart node ${node} ${here}`, "before"] : [`Restart node ${node} after this event`, "after"];
  return [
    [restart[0], () => withLine(first, restart[1], `restart ${node}`)],
    [`Stop the disk of node ${node} ${here}`, () => withLine(first, "before", `stop ${node} 0`)],
  ];
}

/** What may be changed of a letter that was received, by its arrows. */
function ifLetter(arrows) {
  const [{ number, from, to }] = arrows;
  if (to === null) return [];
  const received = plain.events[to];
  const step = stepOf(received.line);
  const isPlayed = step === "play";
  if (isPlayed && plain.events[from].line === received.line) return [];
  const lose = () => {
    if (!/^deliver\s/.test(step)) return withLine(isPlayed ? plain.eventsOf(received.line)[0] : received, "before", `lose ${number}`);
    return { script: run.lines.with(received.line - 1, `lose ${number}`).join("\n"), line: received.line };
  };
  return [
    ["Lose it", lose],
    ["Deliver it once more", () => withLine(received, "after", `deliver ${number}`)],
  ];
}

function whatIf(changes) {
  if (!changes.length) return [];
  const buttons = changes.map(([label, change]) => make("button", { type: "button", onclick: () => edit(change()) }, label));
  return [title("What if"), make("div", { class: "changes" }, buttons)];
}

/** Puts another script into the editor, and runs it. The way back is that of the browser. */
function edit({ script, line }) {
  history.pushState(null, "", location.href);
  setScript(script, null, $("by-time").checked);
  runScript({ line }, `Line ${line} is now \`${script.split("\n")[line - 1]}\`. `);
}

// ---- The editor -----------------------------------------------------------------------------------------------------------------------------

function setScript(script, of, isByTime) {
  $("script").value = script;
  $("by-time").checked = isByTime;
  scene = of;
  $("scenes").value = of ?? "";
}

const showScene = ({ script, name, isByTime }) => setScript(script, name, isByTime);

/** Numbers the lines, marks those of which the report tells something, and shows the one that was picked. */
function showGutter(here = null) {
  const isRun = run.script === $("script").value;
  const count = $("script").value.split("\n").length;
  const numbered = Array.from({ length: count }, (_, before) => {
    const line = before + 1;
    const mark = isRun ? run.marks.get(line) : null;
    const kind = isRun && run.place?.[0] === line ? "fault" : line === here ? "here" : mark ? "marked" : null;
    return make("span", { class: kind, "data-line": line, title: mark }, mark ? `✕ ${line}` : String(line));
  });
  $("gutter").replaceChildren(...numbered);
  // (what asks for places waits for the frame: before it all of a new picture would be laid out once more)
  requestAnimationFrame(() => showLine(here));
}

/** Brings a line of the script into sight, and the numbers beside their lines. */
function showLine(line) {
  const box = $("script");
  if (line) {
    const height = parseFloat(getComputedStyle(box).lineHeight);
    const top = (line - 1) * height;
    if (top < box.scrollTop || top > box.scrollTop + box.clientHeight - 2 * height) box.scrollTop = top - box.clientHeight / 2;
  }
  $("gutter").scrollTop = box.scrollTop;
}

const lineOfCaret = () => $("script").value.slice(0, $("script").selectionStart).split("\n").length;

// ---- The address: which scene or script, what is picked, which tab --------------------------------------------------------------------------

/** A text in letters that an address may have. */
function toBase64(text) {
  const bytes = Array.from(new TextEncoder().encode(text), (byte) => String.fromCharCode(byte));
  return btoa(bytes.join("")).replace(/\+/g, "-").replace(/\//g, "_").replace(/=+$/, "");
}

function fromBase64(letters) {
  const bytes = atob(letters.replace(/-/g, "+").replace(/_/g, "/"));
  return new TextDecoder().decode(Uint8Array.from(bytes, (byte) => byte.charCodeAt(0)));
}

function remember() {
  const state = new URLSearchParams();
  if (scene) state.set("scene", scene);
  else {
    state.set("script", toBase64($("script").value));
    if ($("by-time").checked) state.set("by-time", "");
  }
  if (picked) state.set(...Object.entries(picked)[0]);
  if (tab !== "picture") state.set("tab", tab);
  history.replaceState(null, "", `#${state}`);
}

/** Shows what the address says; without a word of it the first scene. */
function recall() {
  const state = new URLSearchParams(location.hash.slice(1));
  const kind = ["event", "letter", "line", "action"].find((it) => state.has(it));
  const value = kind && (kind === "action" ? state.get(kind) : Number(state.get(kind)));
  tab = Object.hasOwn(tabs, state.get("tab") ?? "") ? state.get("tab") : "picture";
  const found = contents.scenes.find((it) => it.name === state.get("scene"));
  let script = null;
  try {
    if (state.has("script")) script = fromBase64(state.get("script"));
  } catch {
    say("The address has no whole script.", true);
  }
  if (script !== null) setScript(script, null, state.has("by-time"));
  else showScene(found ?? contents.scenes[0]);
  return runScript(kind ? { [kind]: value } : null);
}

// ---- What is clicked and typed --------------------------------------------------------------------------------------------------------------

const nextStop = (step) => {
  const now = picked?.event ?? (step > 0 ? -1 : Infinity);
  const stops = step > 0 ? run.stops : run.stops.toReversed();
  const found = stops.find((stop) => (stop - now) * step > 0) ?? stops[0];
  if (found !== undefined) choose({ event: found });
};

function keyInPicture(event) {
  if (!plain?.events.length || event.ctrlKey || event.metaKey || event.altKey) return;
  const at = picked?.event ?? null;
  const last = plain.events.length - 1;
  const now = at === null ? null : plain.events[at];
  const go = (number) => number !== null && number !== undefined && choose({ event: number });
  const keys = {
    ArrowDown: () => go(at === null ? 0 : Math.min(at + 1, last)),
    ArrowUp: () => go(at === null ? last : Math.max(at - 1, 0)),
    ArrowRight: () => go(now?.sent.find((letter) => letter.to !== null)?.to),
    ArrowLeft: () => go(now?.received?.from),
    Home: () => go(0),
    End: () => go(last),
    Enter: () => now?.action && choose({ action: now.action }),
    n: () => nextStop(1),
    p: () => nextStop(-1),
    Escape: () => choose(null),
  };
  if (!Object.hasOwn(keys, event.key)) return;
  event.preventDefault();
  keys[event.key]();
}

function clickInPicture(event) {
  const words = event.target.closest("[data-action]");
  const mark = event.target.closest("[data-event], [data-letter]");
  if (words?.dataset.action) choose({ action: words.dataset.action });
  else if (event.target.closest(".line") && mark) choose({ line: plain.events[mark.dataset.event].line });
  else if (mark?.dataset.event) choose({ event: Number(mark.dataset.event) });
  else if (mark) choose({ letter: Number(mark.dataset.letter) });
}

function showNow(name) {
  tab = name;
  return shows.take(async () => {
    await showTab();
    remember();
  });
}

function keyInTabs(event) {
  const names = Object.keys(tabs);
  const step = { ArrowRight: 1, ArrowLeft: -1 }[event.key];
  if (!step) return;
  event.preventDefault();
  showNow(names.at((names.indexOf(tab) + step) % names.length));
  $(`tab-${tab}`).focus();
}

/** Hands a text out as a file. */
function save(name, kind, text) {
  const link = make("a", { href: URL.createObjectURL(new Blob([text], { type: kind })), download: name });
  link.click();
  setTimeout(() => URL.revokeObjectURL(link.href), 1000);
}

const fileName = () => (scene ?? "script").replace(/.*\//, "").replace(/\.cam$/, "");

function isDark() {
  return (document.documentElement.dataset.theme ?? (matchMedia("(prefers-color-scheme: dark)").matches ? "dark" : "light")) === "dark";
}

function wire() {
  const groups = Map.groupBy(contents.scenes, (it) => it.topic);
  $("scenes").append(make("option", { value: "", hidden: true }, "a script of your own"));
  for (const [topic, scenes] of groups) {
    const options = scenes.map(({ name, about }) => {
      const label = name.replace(/.*\//, "") + (about && `: ${about.replace(/`/g, "")}`);
      return make("option", { value: name }, label);
    });
    $("scenes").append(make("optgroup", { label: topic }, options));
  }
  $("tabs").append(...Object.entries(tabs).map(([name, { label }]) => {
    const panel = name === "picture" ? "picture-panel" : "text-panel";
    return make("button", { type: "button", role: "tab", id: `tab-${name}`, "aria-controls": panel, onclick: () => showNow(name) }, label);
  }));
  $("tabs").addEventListener("keydown", keyInTabs);
  $("scenes").addEventListener("change", () => {
    const found = contents.scenes.find((it) => it.name === $("scenes").value);
    history.pushState(null, "", location.href);
    showScene(found);
    runScript();
  });
  let waiting = 0;
  $("script").addEventListener("input", () => {
    scene = null;
    $("scenes").value = "";
    showGutter();
    clearTimeout(waiting);
    waiting = setTimeout(runScript, 250);
  });
  $("script").addEventListener("scroll", () => ($("gutter").scrollTop = $("script").scrollTop));
  $("script").addEventListener("keydown", (event) => event.key === "F2" && choose({ line: lineOfCaret() }));
  $("by-time").addEventListener("change", () => {
    scene = null;
    runScript();
  });
  $("this-line").addEventListener("click", () => choose({ line: lineOfCaret() }));
  $("gutter").addEventListener("click", (event) => event.target.dataset.line && choose({ line: Number(event.target.dataset.line) }));
  $("canvas").addEventListener("keydown", keyInPicture);
  $("canvas").addEventListener("click", clickInPicture);
  $("next-stop").addEventListener("click", () => nextStop(1));
  $("clear").addEventListener("click", () => choose(null));
  $("save-script").addEventListener("click", () => save(`${fileName()}.cam`, "text/plain", $("script").value));
  $("save-report").addEventListener("click", () => save(`${fileName()}.txt`, "text/plain", run.report));
  $("save-picture").addEventListener("click", () => picture && save(`${fileName()}.svg`, "image/svg+xml", picture.text));
  const showTheme = () => $("theme").setAttribute("aria-pressed", isDark());
  $("theme").addEventListener("click", () => {
    document.documentElement.dataset.theme = isDark() ? "light" : "dark";
    showTheme();
  });
  matchMedia("(prefers-color-scheme: dark)").addEventListener("change", showTheme);
  showTheme();
  $("wide").addEventListener("click", () => {
    const isWide = document.body.classList.toggle("wide");
    $("wide").setAttribute("aria-pressed", isWide);
    showGutter(picked?.line);
  });
  window.addEventListener("popstate", recall);
}

wire();
behind = await openEngine();
await recall();
