// Encounters of the older report that went.

if (went && went.number.length) {
  const wentSort = { key: "miss", falling: false };
  const wentColumns = [
    { key: "number", label: "Old no.", style: "number narrow-whole", value: (i) => went.number[i], title: "number in the older report" },
    { key: "object1", label: "Object\u00a01", value: (i) => went.name1[i] },
    { key: "object2", label: "Object\u00a02", value: (i) => went.name2[i] },
    { key: "time", label: "Closest approach (UTC)", style: "time whole", value: (i) => went.closest[i] },
    { key: "miss", label: "Miss distance (m)", style: "number", value: (i) => went.miss[i] },
    { key: "length", label: "Length (s)", style: "number", value: (i) => went.length[i] },
    { key: "mark", label: "Mark", value: (i) => went.mark[i] },
    { key: "cause", label: "Why", value: (i) => data.causes[went.cause[i]] },
  ];
  const wentTable = pagedTable(document.getElementById("went-table"), {
    columns: wentColumns,
    rows: 10,
    total: went.number.length,
    caption: "Encounters of the older report that went, with its numbers",
    cellsOf: (i) => [String(went.number[i]), twoLines(went.name1[i], went.designator1[i]), twoLines(went.name2[i], went.designator2[i]),
      timeText(went.closest[i]), make("span", { textContent: fixedText(went.miss[i] / 1e9, 3), title: exactMetres(went.miss[i]) }),
      fixedText(went.length[i] / 1e6, 6), markCell(went.mark[i]), data.causes[went.cause[i]]],
    onSort(key) {
      wentSort.falling = wentSort.key === key && !wentSort.falling;
      wentSort.key = key;
      showWent();
    },
  });
  const showWent = () => {
    wentTable.sorted(wentSort.key, wentSort.falling);
    wentTable.show(sortIndices(Array.from(went.number.keys()), wentColumns.find(({ key }) => key === wentSort.key).value, wentSort.falling));
  };
  showWent();
}
