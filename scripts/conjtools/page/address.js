// The state of the filter in the address, so that it can be kept and sent.

const filterFields = Array.from(form.elements).filter((element) => element.name && element.name !== "sort" && element.name !== "order");
function keepState() {
  const state = new URLSearchParams();
  for (const element of filterFields) {
    const value = element.type === "checkbox" ? (element.checked ? "1" : "") : element.value;
    if (value !== "") state.set(element.name, value);
  }
  if (changed.key !== "miss" || changed.falling) state.set("sort", (changed.falling ? "-" : "") + changed.key);
  const text = state.toString();
  try { history.replaceState(null, "", text ? "#" + text : location.pathname + location.search); } catch (error) { /* the page works without */ }
}
function takeState() {
  const state = new URLSearchParams(location.hash.slice(1));
  for (const element of filterFields) {
    if (element.type === "checkbox") element.checked = state.get(element.name) === "1";
    else element.value = state.get(element.name) ?? "";
    if (element.value && element.closest("details")) element.closest("details").open = true;
  }
  const sort = state.get("sort") ?? "miss";
  changed.falling = sort.startsWith("-");
  changed.key = sort.replace("-", "");
  if (!columns.some(({ key }) => key === changed.key)) changed.key = "miss";
}
let waiting = 0;
form.addEventListener("input", (event) => {
  if (event.target.name === "sort") changed.key = event.target.value;
  if (event.target.name === "order") changed.falling = event.target.value === "down";
  clearTimeout(waiting);
  waiting = setTimeout(update, count > 5000 ? 150 : 20);
});
form.addEventListener("submit", (event) => event.preventDefault());
form.addEventListener("reset", () => setTimeout(() => { changed.key = "miss"; changed.falling = false; update(); }));
addEventListener("hashchange", () => { if (location.hash.includes("=")) { takeState(); update(); } });
document.querySelector("a.skip").addEventListener("click", (event) => {
  event.preventDefault();
  document.getElementById("encounters-heading").focus();
});
