// The table of encounters and its filter.

const count = encounters.a.length;
const length = (i) => encounters.last[i] - encounters.first[i];
const changeNames = ["same", "changed", "came"];
const changeOf = (now, before, i) => (before[i] === null ? null : now[i] - before[i]);
const drawn = new Set(data.drawn);
let chosenRow = -1;
const columns = [
  { key: "number", label: "No.", style: "number narrow-whole", value: (i) => i, title: "number of the encounter in the report" },
  { key: "object1", label: "Object\u00a01", value: (i) => objects.name[encounters.a[i]] },
  { key: "object2", label: "Object\u00a02", value: (i) => objects.name[encounters.b[i]] },
  { key: "time", label: "Closest approach (UTC)", style: "time whole", value: (i) => encounters.closest[i] },
  { key: "miss", label: "Miss distance (m)", style: "number", value: (i) => encounters.miss[i], title: "distance at the closest approach" },
  { key: "length", label: "Length (s)", style: "number", value: length, title: "from the first to the last microsecond of the encounter" },
  { key: "speed", label: "Relative speed (m/s)", style: "number", value: (i) => encounters.speed[i], title: "at the closest approach, in floating point" },
  ...(data.sizes ? [
    { key: "limit", label: "Threshold (m)", style: "number", value: (i) => limitOf(i), title: "of the pair: that of the run and both sizes" },
  ] : []),
  { key: "mark", label: "Mark", value: (i) => encounters.mark[i] },
  ...(data.older ? [
    { key: "change", label: "Change", value: (i) => -encounters.change[i], title: "since the older report" },
    { key: "missChange", label: "Miss change (m)", style: "number", value: (i) => changeOf(encounters.miss, encounters.oldMiss, i),
      title: "miss distance less that of the older report" },
    { key: "timeChange", label: "Time change (s)", style: "number", value: (i) => changeOf(encounters.closest, encounters.oldClosest, i),
      title: "closest approach less that of the older report" },
  ] : []),
  { key: "message", label: "Message", value: (i) => 1 - encounters.message[i] },
];
const limitOf = (i) => data.threshold + (objects.size[encounters.a[i]] ?? 0) + (objects.size[encounters.b[i]] ?? 0);
const markCell = (mark) => make("span", { className: "mark " + (mark ? "undecided" : "near"), textContent: mark ? "undecided" : "near" });

function encounterCells(i) {
  const number = drawn.has(i + 1)
    ? make("a", { href: `#curve-${i + 1}`, textContent: i + 1, title: "to its curve" }) : String(i + 1);
  if (drawn.has(i + 1)) number.addEventListener("click", (event) => { event.preventDefault(); goToCurve(i + 1); });
  const miss = make("span", { textContent: fixedText(encounters.miss[i] / 1e9, 3), title: exactMetres(encounters.miss[i]) });
  const span = `from ${timeText(encounters.first[i])} to ${timeText(encounters.last[i])}`;
  const time = make("span", { textContent: timeText(encounters.closest[i]), title: span });
  const cells = [number, objectCell(encounters.a[i]), objectCell(encounters.b[i]), time, miss, fixedText(length(i) / 1e6, 6),
    fixedText(encounters.speed[i] / 1000, 3)];
  if (data.sizes) cells.push(fixedText(limitOf(i) / 1e9, 3));
  cells.push(markCell(encounters.mark[i]));
  if (data.older) {
    const name = changeNames[encounters.change[i]], cause = data.causes[encounters.cause[i]];
    const missChange = changeOf(encounters.miss, encounters.oldMiss, i), timeChange = changeOf(encounters.closest, encounters.oldClosest, i);
    cells.push([make("span", { className: name, textContent: name }), ...(cause ? [make("small", { textContent: cause })] : [])]);
    cells.push(missChange === null ? noneCell() : signedText(missChange / 1e9, 3));
    cells.push(timeChange === null ? noneCell() : signedText(timeChange / 1e6, 6));
  }
  cells.push(encounters.message[i] ? make("a", { href: data.messages + messageName(i + 1), textContent: messageName(i + 1) }) : noneCell("none"));
  return cells;
}

function goToCurve(number) {
  document.querySelectorAll("figure.chosen").forEach((figure) => figure.classList.remove("chosen"));
  const figure = document.getElementById(`curve-${number}`);
  figure.classList.add("chosen");
  figure.scrollIntoView({ block: "center" });
}

const form = document.getElementById("encounter-filter");
const field = (name) => form.elements.namedItem(name);
for (const column of columns) field("sort").append(make("option", { value: column.key, textContent: column.label }));
const changed = { key: "miss", falling: false };
const table = pagedTable(document.getElementById("encounter-table"), {
  columns,
  caption: "Encounters by the report; a heading sorts by its column",
  cellsOf: encounterCells,
  total: count,
  chosen: () => chosenRow,
  onSort(key) {
    changed.falling = changed.key === key && !changed.falling;
    changed.key = key;
    update();
  },
});
let passing = new Uint8Array(count).fill(1);

const numberIn = (name, scale) => (field(name).value === "" ? null : Number(field(name).value) * scale);
const timeIn = (name) => (field(name).value === "" ? null : Date.parse(field(name).value + "Z") * 1000);
function chosenEncounters() {
  const phrases = phrasesOf(field("q").value);
  const hits = phrases.map(hitsOf);
  const isOf = (a, b, i) => (hits.length === 2
    ? (hits[0][a] && hits[1][b]) || (hits[1][a] && hits[0][b])
    : hits.every((hit, p) => hit[a] || hit[b] || phrases[p] === String(i + 1)));
  const mark = field("mark").value, message = field("message").value, change = field("change")?.value ?? "", primary = field("primary")?.checked;
  const ranges = [
    [encounters.miss, numberIn("miss_from", 1e9), numberIn("miss_to", 1e9)],
    [encounters.closest, timeIn("time_from"), timeIn("time_to")],
    [{ at: length }, numberIn("length_from", 1e6), numberIn("length_to", 1e6)],
    [encounters.speed, numberIn("speed_from", 1e3), numberIn("speed_to", 1e3)],
  ].filter(([, from, to]) => from !== null || to !== null);
  const found = [];
  for (let i = 0; i < count; i++) {
    const a = encounters.a[i], b = encounters.b[i];
    const holds = isOf(a, b, i)
      && (mark === "" || (mark === "undecided") === (encounters.mark[i] === 1))
      && (message === "" || (message === "with") === (encounters.message[i] === 1))
      && (change === "" || changeNames[encounters.change[i]] === change)
      && (!primary || objects.primary[a] || objects.primary[b])
      && ranges.every(([values, from, to]) => { const v = values.at(i); return (from === null || v >= from) && (to === null || v <= to); });
    passing[i] = holds ? 1 : 0;
    if (holds) found.push(i);
  }
  return found;
}

function update() {
  field("sort").value = changed.key;
  field("order").value = changed.falling ? "down" : "up";
  const column = columns.find(({ key }) => key === changed.key);
  table.sorted(changed.key, changed.falling);
  table.show(sortIndices(chosenEncounters(), column.value, changed.falling));
  drawTimeline();
  keepState();
}
