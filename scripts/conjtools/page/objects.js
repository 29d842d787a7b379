// The table of objects, each with a bar of when it has data.

const ofObject = objects.name.map(() => []);
for (let i = 0; i < count; i++) { ofObject[encounters.a[i]].push(i); ofObject[encounters.b[i]].push(i); }
const nearest = ofObject.map((list) => (list.length ? list.reduce((least, i) => Math.min(least, encounters.miss[i]), Infinity) : null));
const windowTicks = Math.max(1, windowLast - windowFirst + 1);
const share = objects.covered.map((spans) => {
  let ticks = 0;
  for (let s = 0; s < spans.length; s += 2) ticks += spans[s + 1] - spans[s] + 1;
  return ticks / windowTicks;
});
const objectColumns = [
  { key: "number", label: "No.", style: "number narrow-whole", value: (k) => k, title: "number of the object in the report" },
  { key: "name", label: "Object", value: (k) => objects.name[k] },
  { key: "file", label: "File", value: (k) => objects.file[k] },
  ...(data.sizes ? [{ key: "size", label: "Size (m)", style: "number", value: (k) => objects.size[k], title: "radius" }] : []),
  ...(data.prepared ? [{ key: "prepared", label: "Prepared within (m)", style: "number", value: (k) => objects.prepared[k],
    title: "how far the cubic may be from the curve that the provider declared" }] : []),
  { key: "encounters", label: "Encounters", style: "number", value: (k) => ofObject[k].length },
  { key: "nearest", label: "Nearest (m)", style: "number", value: (k) => nearest[k], title: "least miss distance of its encounters" },
  { key: "share", label: "Covered (%)", style: "number", value: (k) => share[k], title: "part of the window at which it has a state" },
  { key: "missing", label: "Not covered from (UTC)", style: "time", value: (k) => objects.missing[k],
    title: "first microsecond of the window at which it has no state" },
  { key: "bar", label: "Window", style: "bar", title: `${timeText(windowFirst)} to ${timeText(windowLast)}` },
];
function bar(k) {
  const width = 600, x = (micros) => (micros - windowFirst) / windowTicks * width;
  const svg = makeSvg("svg", { class: "bar", viewBox: `0 0 ${width} 18`, preserveAspectRatio: "none", role: "img" });
  svg.append(makeSvg("rect", { x: 0, y: 3, width, height: 12, fill: "url(#gap)" }));
  const spans = objects.covered[k];
  for (let s = 0; s < spans.length; s += 2) {
    const title = makeSvg("title", {});
    title.textContent = `has a state from ${timeText(spans[s])} to ${timeText(spans[s + 1])}`;
    svg.append(makeSvg("rect", { x: x(spans[s]), y: 3, width: Math.max(1, x(spans[s + 1] + 1) - x(spans[s])), height: 12, fill: "#5d93c9" }, title));
  }
  const places = new Set(ofObject[k].map((i) => Math.round(x(encounters.closest[i]))));
  for (const place of places) svg.append(makeSvg("rect", { x: Math.min(Math.max(0, place - 0.75), width - 1.5), y: 0, width: 1.5, height: 18, fill: "#111" }));
  svg.setAttribute("aria-label", `${(share[k] * 100).toFixed(2)} % of the window, ${ofObject[k].length} encounters`);
  return svg;
}
const objectForm = document.getElementById("object-filter");
const objectField = (name) => objectForm.elements.namedItem(name);
for (const column of objectColumns) if (column.value) objectField("sort").append(make("option", { value: column.key, textContent: column.label }));
const objectSort = { key: "encounters", falling: true };
const objectTable = pagedTable(document.getElementById("object-table"), {
  columns: objectColumns,
  caption: "Objects, and when they have data",
  total: objects.name.length,
  cellsOf: (k) => [String(k + 1), objectCell(k), objects.file[k],
    ...(data.sizes ? [fixedText(objects.size[k] / 1e9, 3)] : []),
    ...(data.prepared ? [objects.prepared[k] === null ? noneCell() : fixedText(objects.prepared[k] / 1e9, 9)] : []),
    ofObject[k].length ? make("button", { type: "button", textContent: grouped(String(ofObject[k].length)), title: "show its encounters", onclick: () => {
      field("q").value = `#${k + 1}`;
      update();
      document.getElementById("encounters-heading").scrollIntoView();
    } }) : noneCell("none"),
    nearest[k] === null ? noneCell() : fixedText(nearest[k] / 1e9, 3), fixedText(Math.floor(share[k] * 1e5) / 1e3, 3),
    objects.missing[k] === null ? noneCell("none") : timeText(objects.missing[k]), bar(k)],
  onSort(key) {
    objectSort.falling = objectSort.key === key ? !objectSort.falling : key === "encounters";
    objectSort.key = key;
    updateObjects();
  },
});
function updateObjects() {
  const hits = phrasesOf(objectField("q").value).map(hitsOf), which = objectField("which").value, primary = objectField("primary")?.checked;
  const found = [];
  for (let k = 0; k < objects.name.length; k++) {
    const meets = ofObject[k].length > 0, lacks = objects.missing[k] !== null;
    if ((hits.length === 0 || hits.some((hit) => hit[k])) && (!primary || objects.primary[k])
      && (which === "" || (which === "told" ? meets || lacks : which === "encounters" ? meets : which === "gaps" ? lacks : !meets && !lacks))) found.push(k);
  }
  objectField("sort").value = objectSort.key;
  objectField("order").value = objectSort.falling ? "down" : "up";
  objectTable.sorted(objectSort.key, objectSort.falling);
  objectTable.show(sortIndices(found, objectColumns.find(({ key }) => key === objectSort.key).value, objectSort.falling));
}
objectForm.addEventListener("input", (event) => {
  if (event.target.name === "sort") objectSort.key = event.target.value;
  if (event.target.name === "order") objectSort.falling = event.target.value === "down";
  updateObjects();
});
objectForm.addEventListener("submit", (event) => event.preventDefault());
objectForm.addEventListener("reset", () => setTimeout(() => { objectSort.key = "encounters"; objectSort.falling = true; updateObjects(); }));
document.body.append(makeSvg("svg", { width: 0, height: 0, "aria-hidden": "true", style: "position:absolute" }, makeSvg("defs", {},
  makeSvg("pattern", { id: "gap", width: 5, height: 5, patternUnits: "userSpaceOnUse", patternTransform: "rotate(45)" },
    makeSvg("rect", { width: 5, height: 5, fill: "#fff" }), makeSvg("rect", { width: 2, height: 5, fill: "#bfc6cd" })))));
