// A table of any length: only the rows that are in sight stand in the page.

const ROW = 20, MORE = 8;
let tables = 0;

/** An element with a class, words and children. Words never become markup. */
export function element(name, { words, ...given } = {}, ...children) {
  const made = document.createElement(name);
  for (const [key, value] of Object.entries(given)) {
    if (value === undefined || value === null || value === false) continue;
    if (key === "class") made.className = value;
    else if (key.startsWith("on")) made.addEventListener(key.slice(2), value);
    else made.setAttribute(key, value === true ? "" : value);
  }
  if (words !== undefined) made.textContent = words;
  made.append(...children);
  return made;
}

export class Table {
  /** `columns`: title, width in pixels (none: what is left) and side; `cells(row)`: its texts; `open(row)`: it was chosen. */
  constructor({ label, columns, cells, kind = () => "", open = () => {}, hover = () => {}, none = "nothing" }) {
    Object.assign(this, { columns, cells, kind, open, hover, none, count: 0, selected: -1, nodes: new Map(), paper: 0 });
    this.name = `table${++tables}`;
    this.body = element("div", { class: "rows", role: "rowgroup" });
    this.heads = columns.map((it) => this.cell(it, it.title, "columnheader"));
    this.head = element("div", { class: "head", role: "row", "aria-rowindex": 1 }, ...this.heads);
    this.host = element("div", { class: "grid", role: "grid", tabindex: 0, "aria-label": label }, this.head, this.body);
    this.host.addEventListener("scroll", () => this.fill());
    this.host.addEventListener("keydown", (event) => this.pressed(event));
    new ResizeObserver(() => this.fill()).observe(this.host);
  }

  cell(column, words, role) {
    const made = element("div", { class: `cell ${column.right ? "right" : ""} ${column.width ? "" : "wide"}`, role, words });
    if (column.width) made.style.width = `${column.width}px`;
    return made;
  }

  /** Shows so many rows anew; the one that is chosen stays where it is named. */
  show(count, selected = -1) {
    this.count = count;
    this.selected = selected;
    this.host.setAttribute("aria-rowcount", count + 1);
    this.body.style.height = `${count * ROW}px`;
    for (const node of this.nodes.values()) node.remove();
    this.nodes.clear();
    this.empty?.remove();
    this.empty = count ? null : element("p", { class: "none", words: this.none });
    if (this.empty) this.host.append(this.empty);
    this.fill();
  }

  /** The rows that are in sight, and some more; on paper as many as it takes, whatever is scrolled or resized meanwhile. */
  inSight() {
    if (this.paper) return [0, Math.min(this.count, this.paper)];
    const top = this.host.scrollTop, height = this.host.clientHeight || 300;
    return [Math.max(Math.floor(top / ROW) - MORE, 0), Math.min(Math.ceil((top + height) / ROW) + MORE, this.count)];
  }

  fill() {
    const [from, to] = this.inSight();
    for (const [row, node] of this.nodes) {
      if (row >= from && row < to) continue;
      node.remove();
      this.nodes.delete(row);
    }
    for (let row = from; row < to; row++) if (!this.nodes.has(row)) this.body.append(this.made(row));
  }

  made(row) {
    const node = element("div", { role: "row", id: `${this.name}-${row}`, "aria-rowindex": row + 2 });
    node.style.top = `${row * ROW}px`;
    this.cells(row).forEach((words, place) => node.append(this.cell(this.columns[place], words, "gridcell")));
    node.addEventListener("click", () => this.choose(row));
    node.addEventListener("mouseenter", () => this.hover(row));
    node.addEventListener("mouseleave", () => this.hover(-1));
    this.nodes.set(row, node);
    this.mark(row);
    return node;
  }

  mark(row) {
    const node = this.nodes.get(row);
    if (!node) return;
    node.className = `row ${this.kind(row)} ${row === this.selected ? "selected" : ""}`;
    node.setAttribute("aria-selected", row === this.selected);
  }

  /** Marks a row as chosen, and scrolls to it. */
  select(row, scroll = true) {
    const old = this.selected;
    this.selected = row;
    this.mark(old);
    if (row < 0) return;
    if (scroll) this.scrollTo(row);
    this.fill();
    this.mark(row);
    this.host.setAttribute("aria-activedescendant", `${this.name}-${row}`);
  }

  choose(row) {
    this.select(row, true);
    this.open(row);
  }

  scrollTo(row, first = false) {
    const { host } = this, top = row * ROW, height = host.clientHeight - 24;
    if (first) host.scrollTop = top;
    else if (top < host.scrollTop || top + ROW > host.scrollTop + height) host.scrollTop = top - height / 2;
  }

  pressed(event) {
    const page = Math.max(Math.floor(this.host.clientHeight / ROW) - 2, 1);
    const steps = { ArrowDown: 1, ArrowUp: -1, PageDown: page, PageUp: -page, Home: -this.count, End: this.count };
    if (!(event.key in steps) || !this.count || event.ctrlKey || event.altKey) return;
    event.preventDefault();
    event.stopPropagation();
    this.choose(Math.min(Math.max(this.selected + steps[event.key], 0), this.count - 1));
  }

  /** On paper all rows, but not more than so many; on the screen again (0) those in sight. */
  unroll(most) {
    this.paper = most;
    this.fill();
  }
}

const compared = (one, other) => (one < other ? -1 : one > other ? 1 : 0);

/** A table of rows that are given, which a click on the head of a column sorts, and a second one the other way. Of a column, `words(row)`
 * is what stands in it, and `by(row)` what it is sorted by: the greatest first where it is a number, the least with `least`, by
 * `worst(row, other)` where that is there. */
export class SortedTable extends Table {
  constructor({ columns, kind, open, ...given }) {
    super({ ...given, columns, cells: (row) => columns.map((it) => it.words(this.rows[row])), kind: (row) => kind(this.rows[row]),
      open: (row) => open(this.rows[row]) });
    Object.assign(this, { given: [], rows: [], by: -1, isTurned: false });
    this.heads.forEach((head, place) => {
      const button = element("button", { title: `Sort by ${columns[place].title}`, onclick: () => this.sort(place) }, head.textContent);
      head.replaceChildren(button);
    });
  }

  give(rows) {
    this.given = rows;
    this.list();
  }

  /** By a column; again by it, the other way; a third time as the rows were given. */
  sort(place) {
    if (this.by !== place) Object.assign(this, { by: place, isTurned: false });
    else if (!this.isTurned) this.isTurned = true;
    else this.by = -1;
    this.list();
  }

  list() {
    const column = this.columns[this.by], sign = this.isTurned ? -1 : 1;
    this.rows = column ? [...this.given].sort((one, other) => sign * this.order(column, one, other)) : [...this.given];
    this.heads.forEach((head, place) => {
      head.setAttribute("aria-sort", place !== this.by ? "none" : this.isAscending(column) ? "ascending" : "descending");
    });
    this.show(this.rows.length);
  }

  order({ by, worst, least }, one, other) {
    const isNumber = typeof by(one) === "number";
    return worst ? worst(one, other) : compared(by(one), by(other)) * (isNumber && !least ? -1 : 1);
  }

  isAscending({ by, least }) {
    const isNumber = this.rows.length > 0 && typeof by(this.rows[0]) === "number";
    return (!isNumber || Boolean(least)) !== this.isTurned;
  }
}
