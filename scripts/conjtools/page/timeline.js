// The timeline: each encounter as a point, by its time and its miss distance.

const canvas = document.getElementById("timeline");
const margin = { left: 84, right: 14, top: 12, bottom: 40 };
const floorMiss = () => { let least = data.threshold; for (const miss of encounters.miss) if (miss > 0 && miss < least) least = miss; return least; };
const lowPower = Math.max(6, Math.min(Math.floor(Math.log10(floorMiss())), Math.floor(Math.log10(data.threshold)) - 1));
const highPower = Math.log10(data.threshold) + 0.25;
const lengthName = (nm) => (nm >= 1e12 ? grouped(String(nm / 1e12)) + " km" : nm >= 1e9 ? nm / 1e9 + " m" : nm / 1e6 + " mm");
const steps = [1e-3, 1e-2, 0.1, 1, 2, 5, 10, 30, 60, 120, 300, 600, 1800, 3600, 7200, 10800, 21600, 43200, 86400, 172800];
let drag = null;
function timelineScales() {
  const width = canvas.clientWidth, height = canvas.clientHeight;
  const x = (micros) => margin.left + (micros - windowFirst) / Math.max(1, windowLast - windowFirst) * (width - margin.left - margin.right);
  const power = (nm) => Math.log10(Math.max(nm, 10 ** lowPower));
  const y = (nm) => height - margin.bottom - (power(nm) - lowPower) / (highPower - lowPower) * (height - margin.top - margin.bottom);
  const time = (px) => Math.round(windowFirst + (px - margin.left) / (width - margin.left - margin.right) * (windowLast - windowFirst));
  return { width, height, x, y, time };
}
function drawAxes(context, { width, height, x, y }) {
  context.font = "12px system-ui, 'DejaVu Sans', sans-serif";
  context.lineWidth = 1;
  context.textAlign = "right";
  context.textBaseline = "middle";
  const parts = highPower - lowPower < 2.6 ? [1, 2, 5] : [1];
  for (let power = lowPower; power <= highPower; power++) {
    for (const part of parts) {
      if (Math.log10(part) + power > highPower) continue;
      const at = Math.round(y(part * 10 ** power)) + 0.5;
      context.strokeStyle = part === 1 ? "#d3d9df" : "#e8ecef";
      context.beginPath(); context.moveTo(margin.left, at); context.lineTo(width - margin.right, at); context.stroke();
      context.fillStyle = "#2c3946";
      context.fillText(lengthName(part * 10 ** power), margin.left - 6, at);
    }
  }
  const seconds = Math.max(1e-3, (windowLast - windowFirst) / 1e6);
  const step = steps.find((s) => seconds / s <= (width - margin.left) / 95) ?? 86400 * Math.ceil(seconds / 86400 / 8);
  context.textAlign = "center";
  context.textBaseline = "top";
  for (let t = Math.ceil(windowFirst / 1e6 / step) * step * 1e6; t <= windowLast; t += step * 1e6) {
    const at = Math.round(x(t)) + 0.5;
    context.strokeStyle = "#eceff2";
    context.beginPath(); context.moveTo(at, margin.top); context.lineTo(at, height - margin.bottom); context.stroke();
    const text = timeText(Math.round(t));
    context.fillStyle = "#2c3946";
    const short = step >= 86400 ? text.slice(5, 10) : text.slice(11, step >= 60 ? 16 : step >= 1 ? 19 : 23);
    if (at > margin.left + 20 && at < width - 30) context.fillText(short, at, height - margin.bottom + 6);
  }
  context.textAlign = "left";
  context.fillText(timeText(windowFirst).slice(0, 19) + " UTC", margin.left, height - 16);
  context.textAlign = "right";
  if (width > 500) context.fillText(timeText(windowLast).slice(0, 19) + " UTC", width - margin.right, height - 16);
  context.save();
  context.translate(12, (height - margin.bottom + margin.top) / 2);
  context.rotate(-Math.PI / 2);
  context.textAlign = "center";
  context.textBaseline = "middle";
  context.fillText("miss distance", 0, 0);
  context.restore();
  context.strokeStyle = "#6b7782";
  context.strokeRect(margin.left + 0.5, margin.top + 0.5, width - margin.left - margin.right, height - margin.top - margin.bottom);
  context.strokeStyle = "#b3261e";
  context.setLineDash([6, 4]);
  const limit = Math.round(y(data.threshold)) + 0.5;
  context.beginPath(); context.moveTo(margin.left, limit); context.lineTo(width - margin.right, limit); context.stroke();
  context.setLineDash([]);
}
// a circle for a near encounter (a square where there are very many), a triangle for an undecided one
function drawPoint(context, undecided, px, py, r) {
  if (!undecided && r < 2) return context.fillRect(px - r, py - r, 2 * r, 2 * r);
  context.beginPath();
  if (undecided) {
    const s = r * 1.6;
    context.moveTo(px, py - s); context.lineTo(px + s, py + s * 0.8); context.lineTo(px - s, py + s * 0.8); context.closePath();
  } else context.arc(px, py, r, 0, 2 * Math.PI);
  return context.fill();
}
let frame = 0;
function drawTimeline() {
  if (!frame) frame = requestAnimationFrame(() => { frame = 0; paintTimeline(); });
}
function paintTimeline() {
  const scales = timelineScales();
  const ratio = window.devicePixelRatio || 1;
  canvas.width = Math.round(scales.width * ratio);
  canvas.height = Math.round(scales.height * ratio);
  const context = canvas.getContext("2d");
  context.scale(ratio, ratio);
  context.fillStyle = "#fff";
  context.fillRect(0, 0, scales.width, scales.height);
  drawAxes(context, scales);
  const radiusOf = (points) => (points > 10000 ? 1.3 : points > 1000 ? 2.2 : points > 200 ? 2.8 : 3.6);
  const chosenCount = table.count();
  const nearColour = chosenCount > 1000 ? "rgba(29,95,166,0.75)" : "#1d5fa6";
  for (const [wanted, undecided, colour] of [[0, 0, "#ccd3da"], [0, 1, "#ccd3da"], [1, 0, nearColour], [1, 1, "#b04a00"]]) {
    context.fillStyle = colour;
    const radius = radiusOf(wanted ? chosenCount : count);
    for (let i = 0; i < count; i++) {
      if (passing[i] !== wanted || encounters.mark[i] !== undecided) continue;
      drawPoint(context, undecided, scales.x(encounters.closest[i]), scales.y(encounters.miss[i]), radius);
    }
  }
  if (chosenRow >= 0) {
    context.strokeStyle = "#111";
    context.lineWidth = 2;
    context.beginPath(); context.arc(scales.x(encounters.closest[chosenRow]), scales.y(encounters.miss[chosenRow]), 7, 0, 2 * Math.PI); context.stroke();
  }
  if (drag) {
    context.fillStyle = "rgba(26,79,214,0.15)";
    context.fillRect(Math.min(drag.from, drag.to), margin.top, Math.abs(drag.to - drag.from), scales.height - margin.top - margin.bottom);
  }
}
function nearestPoint(px, py) {
  const scales = timelineScales();
  let best = -1, least = 144;
  for (let i = 0; i < count; i++) {
    if (!passing[i]) continue;
    const square = (scales.x(encounters.closest[i]) - px) ** 2 + (scales.y(encounters.miss[i]) - py) ** 2;
    if (square < least) { least = square; best = i; }
  }
  return best;
}
function showTip(event, text) {
  tip.textContent = text;
  tip.hidden = false;
  tip.style.left = Math.min(event.clientX + 14, innerWidth - tip.offsetWidth - 8) + "px";
  tip.style.top = (event.clientY + 18 + tip.offsetHeight > innerHeight ? event.clientY - tip.offsetHeight - 12 : event.clientY + 18) + "px";
}
const hideTip = () => { tip.hidden = true; };
canvas.addEventListener("pointerdown", (event) => { if (event.button === 0) drag = { from: event.offsetX, to: event.offsetX }; });
canvas.addEventListener("pointermove", (event) => {
  if (drag) {
    drag.to = event.offsetX;
    drawTimeline();
    return;
  }
  const i = nearestPoint(event.offsetX, event.offsetY);
  if (i < 0) return hideTip();
  const names = `${objects.name[encounters.a[i]]} \u2013 ${objects.name[encounters.b[i]]}`;
  showTip(event, `No. ${i + 1}\n${names}\n${timeText(encounters.closest[i])}\n${fixedText(encounters.miss[i] / 1e9, 3)} m`);
});
canvas.addEventListener("pointerleave", () => { hideTip(); if (drag) { drag = null; drawTimeline(); } });
canvas.addEventListener("pointerup", (event) => {
  const ended = drag;
  drag = null;
  if (ended && Math.abs(ended.to - ended.from) > 6) {
    const { time } = timelineScales();
    const local = (micros) => timeText(Math.min(Math.max(micros, windowFirst), windowLast)).slice(0, 19).replace(" ", "T");
    field("time_from").value = local(time(Math.min(ended.from, ended.to)));
    field("time_to").value = local(time(Math.max(ended.from, ended.to)) + 999999);
    field("time_from").closest("details").open = true;
    return update();
  }
  const i = nearestPoint(event.offsetX, event.offsetY);
  if (i >= 0) {
    chosenRow = i;
    table.goTo(i)?.scrollIntoView({ block: "center" });
  }
  drawTimeline();
});
new ResizeObserver(drawTimeline).observe(canvas);
