// Texts of times (microseconds since 1970) and lengths (nm).

const pad = (number, digits) => String(number).padStart(digits, "0");
const timeText = (micros) => new Date(Math.floor(micros / 1000)).toISOString().slice(0, 23).replace("T", " ") + pad(micros % 1000, 3);
const grouped = (text) => text.replace(/\B(?=(\d{3})+(?!\d))/g, ",");
const fixedText = (size, decimals) => {
  const [whole, fraction] = Math.abs(size).toFixed(decimals).split(".");
  return (size < 0 && Number(size.toFixed(decimals)) !== 0 ? "\u2212" : "") + grouped(whole) + (fraction ? "." + fraction : "");
};
const signedText = (size, decimals) => (size > 0 ? "+" : "") + fixedText(size, decimals);
const exactMetres = (nm) => { const text = pad(nm, 10); return `${grouped(text.slice(0, -9))}.${text.slice(-9)} m`; };
const messageName = (number) => pad(number, 6) + ".cdm";
