// A table with pages, in the order and choice that are given.

function pagedTable(root, { columns, caption, cellsOf, onSort, chosen, total, rows = 50 }) {
  const state = { order: [], page: 0, size: rows };
  const head = make("tr");
  const headings = columns.map((column) => {
    const button = make("button", { type: "button", textContent: column.label });
    button.addEventListener("click", () => onSort(column.key));
    const heading = make("th", { scope: "col", className: column.style ?? "", title: column.title ?? "" }, column.value ? button : column.label);
    head.append(heading);
    return heading;
  });
  const body = make("tbody");
  const table = make("table", { className: "cards" }, make("caption", { textContent: caption }), make("thead", {}, head), body);
  const told = make("span", { className: "told", ariaLive: "polite" });
  const button = (label, title, step) => {
    const element = make("button", { type: "button", textContent: label, title });
    element.addEventListener("click", () => { state.page = step(state.page); draw(); });
    return element;
  };
  const pages = () => Math.max(1, Math.ceil(state.order.length / state.size));
  const first = button("\u00ab First", "first page", () => 0);
  const back = button("\u2039 Back", "page before", (page) => page - 1);
  const next = button("Next \u203a", "next page", (page) => page + 1);
  const last = button("Last \u00bb", "last page", () => pages() - 1);
  const size = make("select", {}, ...[10, 25, 50, 100, 250].map((n) => make("option", { value: n, textContent: n, selected: n === rows })));
  size.addEventListener("change", () => { state.page = Math.floor(state.page * state.size / size.value); state.size = Number(size.value); draw(); });
  const pager = make("div", { className: "pager" }, told, first, back, next, last, make("label", {}, "Rows a page ", size));
  root.append(pager, make("div", { className: "scroll" }, table));
  function draw() {
    state.page = Math.min(Math.max(0, state.page), pages() - 1);
    const from = state.page * state.size;
    const shown = Array.from(state.order.slice(from, from + state.size));
    told.textContent = state.order.length === 0 ? (total === 0 ? "There are none." : "No row is chosen by the filter.")
      : `Rows ${grouped(String(from + 1))} to ${grouped(String(from + shown.length))} of ${grouped(String(state.order.length))}`;
    first.disabled = back.disabled = state.page === 0;
    next.disabled = last.disabled = state.page === pages() - 1;
    body.replaceChildren(...shown.map((index) => {
      const row = make("tr");
      cellsOf(index).forEach((content, place) => {
        const cell = make("td", { className: columns[place].style ?? "" });
        cell.dataset.label = columns[place].label;
        cell.append(...[content].flat());
        row.append(cell);
      });
      if (chosen && chosen() === index) row.classList.add("chosen");
      return row;
    }));
  }
  return {
    count: () => state.order.length,
    show(order) { state.order = order; state.page = 0; draw(); },
    sorted(key, falling) {
      columns.forEach((column, place) => headings[place].setAttribute("aria-sort", column.key !== key ? "none" : falling ? "descending" : "ascending"));
    },
    goTo(index) {
      const place = state.order.indexOf(index);
      if (place < 0) return null;
      state.page = Math.floor(place / state.size);
      draw();
      return body.children[place - state.page * state.size];
    },
  };
}

const collator = new Intl.Collator("en", { numeric: true });

// sorts indices by what a column gives of each; numbers by size, texts by letters, equals by their index
function sortIndices(indices, value, falling) {
  const keys = [];
  for (const index of indices) keys[index] = value(index);
  const sign = falling ? -1 : 1;
  const compare = (p, q) => {
    const a = keys[p], b = keys[q];
    if (a === b) return p - q;
    if (a === null) return 1;
    if (b === null) return -1;
    return sign * (typeof a === "string" ? collator.compare(a, b) : a - b) || p - q;
  };
  return indices.sort(compare);
}

const objectText = objects.name.map((name, k) => `${name} ${objects.designator[k]} ${objects.file[k]} #${k + 1}`.toLowerCase());
// a text of the filter: phrases with commas between, of each the objects that have all of its words, or the number `#n`
const phrasesOf = (text) => text.toLowerCase().split(",").map((phrase) => phrase.trim()).filter((phrase) => phrase);
const hitsOf = (phrase) => {
  const words = phrase.split(/\s+/);
  return objectText.map((text, k) => words.every((word) => (word.startsWith("#") ? word === `#${k + 1}` : text.includes(word))));
};
const nameText = (name) => make("span", { className: name.length < 28 ? "name" : "", textContent: name });
const twoLines = (name, designator) => [nameText(name), make("small", { className: "id", textContent: designator })];
const objectCell = (k) => twoLines(objects.name[k], objects.designator[k] + (objects.primary[k] ? " \u00b7 primary" : ""));
const noneCell = (words = "\u2013") => make("span", { className: "none", textContent: words });
