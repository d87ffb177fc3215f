"use strict";
const body = document.querySelector("tbody");
const heads = [...document.querySelectorAll("th")];
const key = (row, column) => row.children[column].dataset.key;
const compare = (a, b) => (a === "") - (b === "") || (isNaN(a) || isNaN(b) ? a.localeCompare(b) : a - b);
heads.forEach((head, column) => head.firstElementChild.addEventListener("click", () => {
  const down = head.getAttribute("aria-sort") === "ascending";
  heads.forEach((other) => other.removeAttribute("aria-sort"));
  head.setAttribute("aria-sort", down ? "descending" : "ascending");
  const rows = [...body.rows].sort((a, b) => {
    const [x, y] = [key(a, column), key(b, column)];
    return x === "" || y === "" ? compare(x, y) : (down ? -1 : 1) * compare(x, y);
  });
  body.append(...rows);
}));
const light = (stream, on) => {
  for (const part of [document.getElementById(`stream-${stream}`), body.querySelector(`[data-stream="${stream}"]`)]) {
    if (part) part.classList.toggle("lit", on);
  }
};
for (const row of body.rows) {
  row.addEventListener("mouseenter", () => light(row.dataset.stream, true));
  row.addEventListener("mouseleave", () => light(row.dataset.stream, false));
}
for (const edge of document.querySelectorAll("svg .edge")) {
  const stream = edge.id.replace("stream-", "");
  edge.addEventListener("mouseenter", () => light(stream, true));
  edge.addEventListener("mouseleave", () => light(stream, false));
  edge.addEventListener("click", () => body.querySelector(`[data-stream="${stream}"]`).scrollIntoView({ block: "center", behavior: "smooth" }));
}
