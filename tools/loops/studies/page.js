// Sorts a table by the column whose head is clicked, and the other way round at the second click. Rows that are alike there stay as they were; empty cells come last.
for (const table of document.querySelectorAll("table")) {
  const heads = [...table.tHead.rows[0].cells], body = table.tBodies[0];
  heads.forEach((head, column) => head.firstElementChild.addEventListener("click", () => {
    const down = head.getAttribute("aria-sort") === "ascending", sign = down ? -1 : 1;
    const value = row => row.cells[column].textContent;
    const compare = "words" in head.dataset ? (a, b) => a < b ? -1 : a > b ? 1 : 0 : (a, b) => Number(a) - Number(b);
    const rows = [...body.rows].map(row => [value(row), row]);
    rows.sort(([a], [b]) => a === "" || b === "" ? (a === "") - (b === "") : sign * compare(a, b));
    for (const one of heads) one.removeAttribute("aria-sort");
    head.setAttribute("aria-sort", down ? "descending" : "ascending");
    body.append(...rows.map(([, row]) => row));
  }));
}
