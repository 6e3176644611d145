"use strict";

// The table: a click on a heading, or the choice on a narrow screen, puts the rows in that order; the same heading again turns it round.
const body = document.querySelector("#rows tbody");
const headings = [...document.querySelectorAll("#rows th")];
const choice = document.querySelector("#order");

function valueOf(row, column) {
  return row.cells[column].dataset.value;
}

function put(column, falling) {
  const text = column === 0;
  const rows = [...body.rows].sort((one, other) => {
    const [a, b] = [valueOf(one, column), valueOf(other, column)];
    return (text ? a.localeCompare(b) : a - b) * (falling ? -1 : 1);
  });
  body.append(...rows);
  headings.forEach((heading, index) => {
    if (index === column) heading.setAttribute("aria-sort", falling ? "descending" : "ascending");
    else heading.removeAttribute("aria-sort");
  });
  choice.value = column;
}

headings.forEach((heading, column) => {
  heading.querySelector("button").addEventListener("click", () => {
    const now = heading.getAttribute("aria-sort");
    put(column, now ? now === "ascending" : column !== 0);
  });
});
choice.addEventListener("change", () => put(Number(choice.value), choice.value !== "0"));

const idle = document.querySelector("#idle");

function showIdle() {
  document.querySelector("#rows").classList.toggle("all", idle.checked);
}

idle.addEventListener("change", showIdle);
showIdle();

// The flame view: a box that is clicked is drawn over the whole width, with the boxes around it above and those in it below.
const boxes = [...document.querySelectorAll(".boxes button")];
const told = document.querySelector("#told");

function has(outer, inner) {
  return outer.depth <= inner.depth && outer.left <= inner.left && inner.left + inner.cost <= outer.left + outer.cost;
}

function sizes(box) {
  return { depth: Number(box.dataset.depth), left: Number(box.dataset.left), cost: Number(box.dataset.cost) };
}

function zoom(clicked) {
  const whole = sizes(clicked);
  for (const box of boxes) {
    const own = sizes(box);
    const around = own.depth < whole.depth && has(own, whole);
    box.hidden = !around && !has(whole, own);
    box.classList.toggle("around", around);
    box.style.left = around ? "0%" : `${(100 * (own.left - whole.left)) / whole.cost}%`;
    box.style.width = around ? "100%" : `${(100 * own.cost) / whole.cost}%`;
  }
  told.textContent = clicked.title;
}

for (const box of boxes) box.addEventListener("click", () => zoom(box));
