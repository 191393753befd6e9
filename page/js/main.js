// The page: texts at the left, their run at the right, drawn anew as one types. It decides nothing about USB Power Delivery: what it
// shows are the answers of the module.
import { Ending, Engine, endingWords, objectsOf, unpacked, wanting } from "./engine.js";
import { Editor } from "./editor.js";
import { savePng, saveSvg, saveTexts, withFiles } from "./files.js";
import { helpOf } from "./help.js";
import { packed, unpackedState } from "./link.js";
import { Packets } from "./packets.js";
import { Picture, PORT_COLOURS } from "./picture.js";
import { pointing } from "./pointing.js";
import { Run, sceneOf } from "./run.js";
import { asking, differences, showsOf } from "./shows.js";
import { splitter } from "./splitter.js";
import { States } from "./states.js";
import { Sweep, sweepWords } from "./sweep.js";
import { element } from "./table.js";
import { Tabs, shownTables } from "./tabs.js";
import { coloursOf, nextTheme } from "./theme.js";
import { countWords, listTold, toldOf, wholeWords } from "./told.js";
import { variantOf } from "./variant.js";
import { lineWords, seconds, span } from "./words.js";

const QUICK = 25, LONGEST_WAIT = 120, LINK_WAIT = 400, MOST_ON_PAPER = 500, FIRST_EXAMPLE = "charger_65w";
const $ = (name) => document.getElementById(name);

class Page {
  constructor(engine, module) {
    Object.assign(this, { engine, module, name: "mine", states: new States(), cost: 0, costs: {} });
    this.lasts = Array.from({ length: 8 }, (_, objects) => engine.lasts(objects));
    this.colours = coloursOf();
    this.scenario = new Editor($("scenario"), "toml", "Scenario", () => this.typed("scenario"));
    this.script = new Editor($("script"), "edits", "Script of edits", () => this.typed("script"));
    this.picture = new Picture($("picture"), this.colours);
    this.packets = new Packets({
      engine, chosen: (line) => this.choose(line, "table"), lit: (line) => this.light(line),
      filtered: () => this.picture.paint(),
    });
    this.picture.accepts = (line) => this.packets.accepts(line);
    this.packets.hidden = this.picture.hidden;
    this.sweep = new Sweep({
      colours: () => this.colours, heat: (cells) => this.showHeat(cells), variant: (packet, choice) => this.showVariant(packet, choice),
      given: () => this.base && { ...this.base.source, module: this.module, worker: $("worker").textContent, view: this.picture.view,
        ports: this.base.ports },
    });
    this.tables = shownTables((at, port) => this.goTo(at, port), (told) => this.goToTold(told));
    this.tabs = new Tabs($("tabs"), $("panels"), this.panels());
    this.wire();
  }

  panels() {
    const { packets, sweep, tables } = this;
    this.session = element("pre", { class: "plain", tabindex: 0, "aria-label": "Answers of the session" });
    this.tests = element("textarea", { "aria-label": "Test script", spellcheck: "false",
      placeholder: "expect contract 1 at 500000 voltage 5000" });
    this.tests.addEventListener("input", () => this.showTests());
    this.log = element("textarea", { "aria-label": "Log", spellcheck: "false", placeholder: "PD TX, header: 0x1082 [2] 0x1304b12c" });
    this.log.addEventListener("input", () => this.showLog());
    return [
      { name: "Packets", parts: [packets.tools, packets.host] },
      { name: "Contracts", parts: [tables.contracts.host] },
      { name: "Margins", parts: [tables.margins.host] },
      { name: "Faults", parts: [tables.faults.host] },
      { name: "Warnings", parts: [tables.warnings.host] },
      { name: "Differences", parts: [tables.differences.host], opened: () => this.showDifferences() },
      { name: "Sweep", parts: [sweep.tools, sweep.summary, sweep.table.host, sweep.groups.host] },
      { name: "Guarantee", parts: [tables.guarantee.host], opened: () => this.showGuarantee() },
      { name: "Session", parts: [this.session], opened: () => this.showSession() },
      { name: "Tests", parts: [this.tests, tables.tests.host], opened: () => this.showTests() },
      { name: "Decode", parts: [this.log, tables.log.host], opened: () => this.showLog() },
    ];
  }

  wire() {
    const press = (name, does) => $(name).addEventListener("click", does);
    press("undo", () => this.undo());
    press("redo", () => this.redo());
    press("open", () => $("files").click());
    press("save", () => saveTexts(this.state));
    press("link", () => this.copyLink());
    press("png", () => savePng(this.picture, this.name));
    press("svg", () => saveSvg(this.picture, this.name));
    press("print", () => window.print());
    press("theme", () => (nextTheme(), this.recolour()));
    press("help", () => this.help());
    press("fit", () => this.picture.fit());
    press("in", () => this.picture.zoom(0.5, this.middle()));
    press("out", () => this.picture.zoom(2, this.middle()));
    press("between", () => this.lookBetween());
    press("fault", () => this.nextFault(1));
    press("variant-back", () => this.showBase());
    press("variant-keep", () => this.keepVariant());
    $("holds").addEventListener("change", () => ((this.picture.holds = $("holds").checked), this.picture.paint()));
    $("ghost").addEventListener("change", () => ((this.picture.ghost = $("ghost").checked), this.picture.paint()));
    $("files").addEventListener("change", () => this.read($("files").files));
    $("examples").addEventListener("change", () => this.example($("examples").value));
    matchMedia("(prefers-color-scheme: dark)").addEventListener("change", () => this.recolour());
    window.addEventListener("hashchange", () => this.fromAddress());
    window.addEventListener("beforeprint", () => this.onPaper(true));
    window.addEventListener("afterprint", () => this.onPaper(false));
    document.addEventListener("keydown", (event) => this.pressed(event));
    for (const name of ["dragover", "drop", "dragleave"]) document.addEventListener(name, (event) => this.dropped(event));
    new ResizeObserver(() => this.resized()).observe($("stage"));
    splitter($("split"), "--texts", () => $("texts").clientWidth, (event) => event.clientX);
    splitter($("split-rows"), "--picture", () => $("stage").clientHeight,
      (event) => event.clientY - $("stage").getBoundingClientRect().top);
    pointing(this.picture, { stage: $("stage"), tip: $("tip"), words: (it) => this.tipWords(it), chosen: (it) => this.pointed(it),
      lit: (line) => this.light(line), moved: (user) => this.moved(user) });
    this.listExamples();
  }

  // Texts and their history.

  get state() {
    return { name: this.name, scenario: this.scenario.text, script: this.script.text, test: this.tests.value };
  }

  put({ scenario = "", script = "", test = "", name = "mine" }) {
    this.name = name;
    document.title = `${name} — pdbench`;
    this.scenario.text = scenario;
    this.script.text = script;
    this.tests.value = test;
    this.states.put(this.state);
  }

  /** A whole other state, which can be undone. */
  take(state) {
    this.states.remember();
    this.put(state);
    this.before = null;
    this.picture.run = null;
    this.picture.cursors = [null, null];
    this.update();
  }

  typed(which) {
    if (this.states.typed(which, this.state)) this.before = this.base;
    this.soon();
  }

  /** Runs anew: at once where that is quick, else when the next key has had its chance. */
  soon() {
    clearTimeout(this.waiting);
    clearTimeout(this.after);
    this.waiting = setTimeout(() => this.update(), this.cost < QUICK ? 0 : Math.min(this.cost, LONGEST_WAIT));
  }

  undo() {
    this.stand(this.states.back());
  }

  redo() {
    this.stand(this.states.forth());
  }

  stand(state) {
    if (!state) return;
    this.before = this.base;
    this.put(state);
    this.update();
  }

  // Runs.

  /** Runs the texts, and shows what comes of it. What takes a run of its own and isn't the picture follows when that is painted. */
  update() {
    clearTimeout(this.waiting);
    const began = performance.now(), source = { scenario: this.scenario.text, script: this.script.text };
    $("variant").hidden = true;
    const run = this.runOf(source);
    if (run.ending !== undefined) this.refuse(run);
    else this.accept(run);
    this.cost = performance.now() - began;
    this.costs = { ...this.costs, picture: this.cost };
    clearTimeout(this.after);
    this.after = setTimeout(() => this.follow(source), this.cost < QUICK ? 0 : LONGEST_WAIT);
    this.buttons();
  }

  /** The run of texts; or the answer that tells why there is none. */
  runOf(source) {
    const list = this.engine.list(source.scenario, source.script);
    if (list.ending !== Ending.DONE) return list;
    const shown = this.engine.show(source.scenario, source.script);
    if (shown.ending !== Ending.DONE) return shown;
    const run = new Run(shown.text, sceneOf(list.text), this.lasts, this.engine.hardResetLasts());
    run.source = source;
    return run;
  }

  refuse(answer) {
    this.fails = answer;
    const isRefused = answer.ending === Ending.REFUSED;
    this.status(isRefused ? "refused: the picture is of the last run" : endingWords(answer), true);
    mark($("scenario-state"), isRefused ? "refused" : endingWords(answer), "bad");
    $("stage").style.opacity = 0.45;
  }

  accept(run) {
    this.fails = null;
    this.base = run;
    $("stage").style.opacity = 1;
    mark($("scenario-state"), "accepted", "good");
    this.display(run, this.before);
    this.sweep.clear(run.ports);
    this.status("");
  }

  display(run, before) {
    this.run = run;
    this.listPorts(run.ports);
    const isOther = before && before !== run && before.text !== run.text;
    this.picture.selected = -1;
    this.packets.show(run);
    this.picture.selected = this.packets.at;
    this.picture.show(run, isOther ? before : null);
    this.resized();
    this.tabs.count("Packets", this.packets.rows.length);
    $("summary").textContent = this.picture.summary();
    this.showCursors();
  }

  /** What follows the picture: what `explain` says; then, where no key came between, the tables and the address. */
  follow(source) {
    const began = performance.now();
    this.explain(source);
    this.costs.explain = performance.now() - began;
    this.after = setTimeout(() => this.followTables(), 0);
  }

  followTables() {
    const began = performance.now();
    if (!this.fails) this.showTables();
    this.tabs.refresh();
    this.costs.tables = performance.now() - began;
    clearTimeout(this.linking);
    this.linking = setTimeout(() => this.toAddress(), LINK_WAIT);
  }

  explain({ scenario, script }) {
    const answer = this.engine.explain(scenario, script);
    const objects = answer.ending === Ending.DONE || answer.ending === Ending.REFUSED ? objectsOf(answer.text) : [];
    if (answer.ending > Ending.REFUSED) this.status(endingWords(answer), true);
    const isFile = answer.ending === Ending.REFUSED, told = objects.map((it) => toldOf(it, isFile, this.scenario));
    this.told = told;
    for (const [name, editor] of [["scenario", this.scenario], ["script", this.script]]) {
      const of = told.filter((it) => it.where === name), isRefused = of.some((it) => !it.warns);
      editor.say(of.map((it) => ({ line: it.line, words: wholeWords(it), warns: it.warns })));
      listTold($(`${name}-told`), of, (it) => this.goToTold(it));
      const words = countWords(of) || (name === "script" ? "made before the run" : "");
      if (name === "script" || isRefused) mark($(`${name}-state`), words, isRefused ? "bad" : "");
      else if (!this.fails && of.length) mark($("scenario-state"), `accepted, ${countWords(of)}`, "good");
    }
    this.tables.warnings.give(told);
    this.tabs.count("Warnings", told.length, told.some((it) => !it.warns));
  }

  goToTold(it) {
    if (it.line >= 0) this[it.where].go(it.line);
  }

  // Tables.

  /** The shows of a run, which take a run of their own. */
  showsOf(run) {
    if (!run.shows) {
      const answer = this.engine.run(run.source.scenario, asking(run.source.script));
      if (answer.ending !== Ending.DONE) return this.status(endingWords(answer), true), null;
      run.shows = showsOf(answer.text);
    }
    return run.shows;
  }

  showTables() {
    const shows = this.showsOf(this.run);
    if (!shows) return;
    for (const name of ["contracts", "margins", "faults"]) {
      this.tables[name].give(shows[name]);
      this.tabs.count(name[0].toUpperCase() + name.slice(1), shows[name].length, name === "faults" && shows[name].length > 0);
    }
    this.showDifferences();
  }

  showDifferences() {
    const { before } = this.picture, shows = this.run && this.showsOf(this.run), old = before && this.showsOf(before);
    const found = shows && old ? differences(old, shows) : [];
    this.tables.differences.give(found);
    this.tabs.count("Differences", found.length);
  }

  /** What is sure whatever is plugged in: of the charger, not of the run. */
  showGuarantee() {
    const answer = this.engine.guarantee(this.scenario.text, this.script.text);
    this.tables.guarantee.give(answer.ending === Ending.DONE ? objectsOf(answer.text) : []);
  }

  showSession() {
    const answer = this.engine.run(this.scenario.text, this.script.text);
    this.session.textContent = answer.ending === Ending.DONE ? answer.text : endingWords(answer);
  }

  showTests() {
    const { value } = this.tests;
    const answer = value.trim() ? this.engine.test(this.scenario.text, value) : { ending: Ending.DONE, text: "" };
    const objects = answer.ending === Ending.DONE ? objectsOf(answer.text) : [{ sentence: endingWords(answer) }];
    this.tables.tests.give(objects);
    const { passed, failed = 0, refused = 0 } = objects.at(-1) ?? {};
    const wrong = [failed && `${failed} failed`, refused && `${refused} refused`].filter(Boolean);
    const right = passed ? `${passed} passed` : "nothing expected";
    this.tabs.count("Tests", passed === undefined ? "" : wrong.join(", ") || right, wrong.length > 0);
  }

  showLog() {
    const answer = this.log.value.trim() ? this.engine.decode(this.log.value) : { ending: Ending.DONE, text: "" };
    this.tables.log.give(answer.ending === Ending.DONE ? objectsOf(answer.text) : [{ reason: endingWords(answer) }]);
  }

  // Going to places.

  middle() {
    const { from, to } = this.picture.view, { selected } = this.picture;
    const at = selected >= 0 ? this.run.at[selected] : -1;
    return at >= from && at <= to ? at : (from + to) / 2;
  }

  choose(line, from) {
    this.picture.selected = line;
    this.picture.reveal(this.run.at[line]);
    if (from !== "table") this.packets.select(line);
    this.picture.paintMoving();
    if (from !== "table") this.status(lineWords(this.run.line(line)));
  }

  pointed(it) {
    if (it.cell) return this.showVariant(it.cell.packet, this.sweep.choice);
    this.tabs.open("Packets");
    if (!this.packets.accepts(it.line)) this.status(lineWords(this.run.line(it.line)));
    this.choose(it.line, "picture");
  }

  light(line) {
    if (line === this.picture.hover) return;
    this.picture.hover = line;
    this.picture.paintMoving();
  }

  tipWords(it) {
    if (it.cell) return sweepWords(it.cell.packet);
    return it.isGone ? `before the edit: ${lineWords(this.picture.before.line(it.line))}` : lineWords(this.run.line(it.line));
  }

  goTo(at, port) {
    let line = this.run.firstAt(at);
    while (port && line < this.run.count && this.run.at[line] === at && this.run.port[line] !== port) line++;
    this.picture.reveal(at);
    if (line < this.run.count) this.choose(line, "other");
    this.picture.paint();
  }

  nextFault(step) {
    if (!this.run) return;
    const { run } = this, { hidden } = this.picture;
    const faults = run.lanes.flatMap((lane) => lane.faults).filter((line) => !hidden.has(run.port[line])).sort((one, other) => one - other);
    if (!faults.length) return this.status("the run has no fault");
    const at = this.picture.selected;
    const next = step > 0 ? faults.find((line) => line > at) ?? faults[0] : faults.findLast((line) => line < at) ?? faults.at(-1);
    this.choose(next, "other");
  }

  nextPacket(step) {
    const { rows } = this.packets, at = this.picture.selected;
    if (!rows.length) return;
    const row = at < 0 ? (step > 0 ? 0 : rows.length - 1) : this.packets.rowOf(at) + step;
    this.choose(rows[Math.min(Math.max(row, 0), rows.length - 1)], "picture");
  }

  lookBetween() {
    const [a, b] = this.picture.cursors;
    if (a === null || b === null || a === b) return this.status("set both cursors first: click, and Shift and click");
    const wide = Math.abs(b - a);
    this.picture.look(Math.min(a, b) - wide * 0.05, Math.max(a, b) + wide * 0.05);
    this.picture.paint();
  }

  /** The window was moved, or a cursor set. */
  moved(byUser) {
    this.showCursors();
    if (!byUser || !this.run || this.picture.selected >= 0) return;
    this.packets.table.scrollTo(this.packets.rowOf(this.run.firstAt(this.picture.view.from)), true);
  }

  showCursors() {
    const [a, b] = this.picture.cursors, said = [];
    if (a !== null) said.push(`A ${seconds(a)} s`);
    if (b !== null) said.push(`B ${seconds(b)} s`);
    if (a !== null && b !== null) said.push(`B − A ${span(b - a)}`);
    const isTouch = navigator.maxTouchPoints > 0 && matchMedia("(hover: none)").matches;
    $("cursors").textContent = said.join(" · ") || (isTouch ? "tap: cursor A, then B" : "click: cursor A; Shift and click: B");
  }

  listPorts(count) {
    if ($("ports").childElementCount === count) return;
    this.picture.hidden.clear();
    $("ports").replaceChildren(...Array.from({ length: count }, (_, place) => {
      const swatch = element("span", { class: "swatch" });
      swatch.style.background = PORT_COLOURS[place];
      return element("button", { "aria-pressed": "true", "aria-label": `Port ${place + 1}`, title: `Port ${place + 1}: shown or not`,
        onclick: (event) => this.togglePort(place + 1, event.currentTarget) }, swatch, String(place + 1));
    }));
  }

  togglePort(port, button) {
    const { hidden } = this.picture;
    if (!hidden.delete(port)) hidden.add(port);
    button.setAttribute("aria-pressed", !hidden.has(port));
    this.packets.apply();
    this.resized();
  }

  /** The picture is as high as its lanes need, or as the window has. */
  resized() {
    $("picture").style.height = `${Math.max(this.picture.wanted(), $("stage").clientHeight - 1)}px`;
    this.picture.paint();
  }

  // Sweeps.

  showHeat(cells) {
    this.picture.heat = cells && cells.length ? { cells } : null;
    this.resized();
  }

  /** The run in which a packet is lost, beside the base. The event is put in as a sweep puts it: of an unused id below the others there. */
  showVariant(packet, choice) {
    if (packet.outcome !== "hit") return this.status(sweepWords(packet));
    const source = variantOf(this.engine, this.base, packet, choice);
    const run = source && this.runOf(source);
    if (!run || run.ending !== undefined) return this.status(run ? endingWords(run) : "no id is free for this loss", true);
    this.variant = run;
    $("variant").hidden = false;
    $("variant-words").textContent = sweepWords(packet);
    const { heat } = this.picture;
    this.display(run, this.base);
    this.picture.heat = heat;
    this.goTo(packet.at_us, packet.port);
    this.showTables();
    this.resized();
  }

  showBase() {
    $("variant").hidden = true;
    const { heat } = this.picture;
    this.display(this.base, this.before);
    this.picture.heat = heat;
    this.showTables();
    this.resized();
  }

  keepVariant() {
    this.states.remember();
    this.before = this.base;
    this.script.text = this.variant.source.script;
    this.states.put(this.state);
    this.update();
  }

  // Files, links, pictures.

  listExamples() {
    this.examples = JSON.parse($("examples-text").textContent);
    for (const { name, about } of this.examples) {
      $("examples").append(element("option", { value: name, title: about, words: name.replaceAll("_", " ") }));
    }
  }

  example(name) {
    const found = this.examples.find((it) => it.name === name);
    if (found) this.take(found);
    $("examples").value = "";
  }

  async read(files) {
    this.take(await withFiles(this.state, files));
    $("files").value = "";
  }

  dropped(event) {
    if (!event.dataTransfer?.types.includes("Files")) return;
    event.preventDefault();
    document.body.classList.toggle("dropping", event.type === "dragover");
    if (event.type === "drop") this.read(event.dataTransfer.files);
  }

  async toAddress() {
    const { scenario, script, test, name } = this.state, state = { name, scenario };
    if (script) state.script = script;
    if (test) state.test = test;
    this.hash = await packed(state);
    history.replaceState(null, "", this.hash ? `#${this.hash}` : location.pathname);
  }

  async fromAddress() {
    if (location.hash.slice(1) === this.hash) return true;
    const state = await unpackedState(location.hash);
    if (state) this.take(state);
    else if (location.hash) this.status("the address has no scenario that can be read", true);
    return state !== null;
  }

  async copyLink() {
    await this.toAddress();
    if (!this.hash) return this.status("too long for an address: save the files", true);
    try {
      await navigator.clipboard.writeText(location.href);
      this.status("copied");
    } catch {
      this.status("the address line has it");
    }
  }

  // The rest.

  /** On paper all is light, and the tables have more rows than are in sight. */
  onPaper(isPaper) {
    const { dataset } = document.documentElement;
    if (isPaper) [this.theme, dataset.theme] = [dataset.theme, "light"];
    else if (this.theme) dataset.theme = this.theme;
    else delete dataset.theme;
    const { packets, sweep, tables } = this;
    for (const it of [packets.table, sweep.table, sweep.groups, ...Object.values(tables)]) it.unroll(isPaper ? MOST_ON_PAPER : 0);
    this.recolour();
    this.picture.paintNow();
  }

  recolour() {
    Object.assign(this.colours, coloursOf());
    this.sweep.paintKey();
    this.picture.paint();
  }

  status(words, isBad = false) {
    $("status").textContent = words;
    $("status").className = isBad ? "bad" : "";
    $("status").title = words;
  }

  buttons() {
    $("undo").disabled = !this.states.past.length;
    $("redo").disabled = !this.states.future.length;
  }

  help() {
    if (!$("keys").childElementCount) $("keys").append(...helpOf(() => $("keys").close()));
    $("keys").showModal();
  }

  pressed(event) {
    const inText = event.target.closest?.(".CodeMirror, textarea, input, select, dialog"), control = event.ctrlKey || event.metaKey;
    if (control && !event.altKey && event.key.toLowerCase() === "z" && !event.target.closest("textarea, input")) {
      event.preventDefault();
      return event.shiftKey ? this.redo() : this.undo();
    }
    if (inText || control || event.altKey || !this.run) return;
    const does = this.keys()[event.key];
    if (!does) return;
    event.preventDefault();
    does();
  }

  keys() {
    const { picture } = this, cursor = (place) => {
      const { from, to } = picture.view;
      picture.cursors[place] = picture.selected >= 0 ? this.run.at[picture.selected] : Math.round((from + to) / 2);
      this.showCursors();
      picture.paint();
    };
    return {
      "+": () => picture.zoom(0.5, this.middle()), "=": () => picture.zoom(0.5, this.middle()), "-": () => picture.zoom(2, this.middle()),
      ArrowLeft: () => picture.pan(-0.1), ArrowRight: () => picture.pan(0.1), f: () => picture.fit(), 0: () => picture.fit(),
      n: () => this.nextPacket(1), p: () => this.nextPacket(-1), ArrowDown: () => this.nextPacket(1), ArrowUp: () => this.nextPacket(-1),
      ".": () => this.nextFault(1), ",": () => this.nextFault(-1), a: () => cursor(0), b: () => cursor(1), z: () => this.lookBetween(),
      "/": () => (this.tabs.open("Packets"), this.packets.search.focus()), "?": () => this.help(),
      Escape: () => ((picture.cursors = [null, null]), (picture.selected = -1), this.packets.clear(), this.showCursors(), picture.paint()),
    };
  }
}

function mark(host, words, kind) {
  host.textContent = words;
  host.className = `state ${kind}`;
}

async function begin() {
  const lacks = wanting();
  if (lacks) {
    $("wanting").hidden = false;
    $("wanting").textContent = `The bench can't run in this browser: it lacks ${lacks}.`;
    document.querySelector("main").hidden = true;
    return;
  }
  const module = $("module").textContent, page = new Page(await Engine.of(await unpacked(module)), module);
  globalThis.pdbench = page;
  const given = document.getElementById("given").textContent;
  const isLinked = await page.fromAddress();
  if (given && !isLinked) page.take(JSON.parse(given));
  else if (!isLinked) page.take(page.examples.find((it) => it.name === FIRST_EXAMPLE) ?? page.examples[0]);
  page.picture.paintNow();
  page.opened = performance.now();
}

begin().catch((error) => {
  $("wanting").hidden = false;
  $("wanting").textContent = `The page could not begin: ${error}`;
});
