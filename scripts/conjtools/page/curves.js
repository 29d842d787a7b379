// The curves tell the distance under the pointer.

for (const svg of document.querySelectorAll("svg.distance")) {
  const pointsOf = (line) => line.getAttribute("points").split(" ").map((pair) => pair.split(",").map(Number));
  const points = Array.from(svg.querySelectorAll("polyline")).flatMap(pointsOf);
  const [low, high] = svg.dataset.times.split(",").map(Number), top = Number(svg.dataset.top);
  const box = svg.viewBox.baseVal, [left, right, above, below] = data.drawing;
  svg.addEventListener("pointermove", (event) => {
    const x = (event.clientX - svg.getBoundingClientRect().left) / svg.clientWidth * box.width;
    const point = points.reduce((best, p) => (Math.abs(p[0] - x) < Math.abs(best[0] - x) ? p : best), points[0]);
    if (!point || x < left || x > box.width - right) return hideTip();
    const seconds = low + (point[0] - left) / (box.width - left - right) * (high - low);
    const metres = Math.max(0, (box.height - below - point[1]) / (box.height - above - below) * top);
    showTip(event, `${signedText(seconds, 3)} s\nabout ${grouped(String(Number(metres.toPrecision(3))))} m`);
  });
  svg.addEventListener("pointerleave", hideTip);
}
