"use strict";
// A click on a week shows its sheet.
addEventListener("DOMContentLoaded", () => {
  const told = JSON.parse(document.getElementById("sheets").textContent);
  const panel = document.getElementById("week"), rows = document.getElementById("week-rows");
  const shown = value => value === null || value === undefined ? "" : value.toLocaleString("en", {maximumFractionDigits: 1}).replace("-", "−");
  for (const group of document.querySelectorAll(".weeks"))
    for (const [number, x, width] of told.fields) {
      const field = document.createElementNS("http://www.w3.org/2000/svg", "rect");
      for (const [name, value] of Object.entries({x, width, y: group.dataset.top, height: group.dataset.high, class: "week", "data-week": number}))
        field.setAttribute(name, value);
      group.append(field);
    }
  const cell = (text, number) => {
    const td = document.createElement("td");
    td.textContent = text;
    if (number) td.className = "n";
    return td;
  };
  const open = number => {
    const week = told.weeks[number];
    document.querySelectorAll(".week").forEach(field => field.classList.toggle("open", field.dataset.week === number));
    panel.hidden = false;
    document.getElementById("week-when").textContent = week ? week.when : "";
    document.getElementById("week-what").textContent = !week ? "The page has no room for this week’s sheet; a run of fewer weeks (--from, --to) has." :
      `Cost ${week.cost}, limit ${week.limit}: ${week.fails ? "fails" : "does not fail"}.` + (week.why ? ` It may be that ${week.why}.` : "");
    rows.replaceChildren(...(week ? told.titles.map((title, k) => {
      const line = document.createElement("tr"), off = week.reads[k] === null || week.flows[k] === null ? null : week.reads[k] - week.flows[k];
      line.append(cell(title), cell(shown(week.reads[k]), true), cell(week.flows[k] === null ? "not known" : shown(week.flows[k]), true), cell(shown(off), true));
      return line;
    }) : []));
    panel.focus();
    panel.scrollIntoView({block: "nearest"});
  };
  document.querySelectorAll(".week").forEach(field => field.addEventListener("click", () => open(field.dataset.week)));
  document.getElementById("week-close").addEventListener("click", () => {
    panel.hidden = true;
    document.querySelectorAll(".week.open").forEach(field => field.classList.remove("open"));
  });
});
