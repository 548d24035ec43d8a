"use strict";
const table = document.querySelector("table.marks");
for (const button of table.querySelectorAll("td.name button")) {
  button.addEventListener("click", () => {
    const more = button.closest("tbody").querySelector("tr.more");
    more.hidden = !more.hidden;
    button.setAttribute("aria-expanded", String(!more.hidden));
  });
  // A single hand-in is there to be looked at.
  const isFolded = table.tBodies.length > 1;
  button.closest("tbody").querySelector("tr.more").hidden = isFolded;
  button.setAttribute("aria-expanded", String(!isFolded));
}
const heads = [...table.querySelectorAll("thead th")];
heads.forEach((head, column) => {
  head.querySelector("button").addEventListener("click", () => {
    const isDown = head.getAttribute("aria-sort") === "ascending";
    heads.forEach((it) => it.removeAttribute("aria-sort"));
    head.setAttribute("aria-sort", isDown ? "descending" : "ascending");
    const value = (body) => body.rows[0].cells[column].dataset.value;
    const isNumber = head.classList.contains("number");
    const order = (a, b) => isNumber ? Number(value(a)) - Number(value(b)) : value(a).localeCompare(value(b), "en", { numeric: true });
    const bodies = [...table.tBodies].sort((a, b) => isDown ? order(b, a) : order(a, b));
    table.append(...bodies);
  });
});
