// What the page has: its data, and how elements are made.
const data = JSON.parse(document.getElementById("data").textContent);
const { objects, encounters, went } = data;
const [windowFirst, windowLast] = data.window;
encounters.closest = encounters.closest.map((micros) => windowFirst + micros);
encounters.first = encounters.before.map((micros, i) => encounters.closest[i] - micros);
encounters.last = encounters.after.map((micros, i) => encounters.closest[i] + micros);
const tip = document.getElementById("tip");
const make = (name, properties = {}, ...children) => {
  const element = Object.assign(document.createElement(name), properties);
  element.append(...children);
  return element;
};
const svgNames = "http://www.w3.org/2000/svg";
const makeSvg = (name, attributes, ...children) => {
  const element = document.createElementNS(svgNames, name);
  for (const [key, value] of Object.entries(attributes)) element.setAttribute(key, value);
  element.append(...children);
  return element;
};
