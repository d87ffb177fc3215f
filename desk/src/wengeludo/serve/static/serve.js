"use strict";
// The browser computes nothing: each change is put into the address, and the same address is asked for in parts.
const work = document.getElementById("drawing");
if (work) {
  const $ = (id) => document.getElementById(id);
  const body = document.querySelector("table.sheet tbody");
  const words = new URLSearchParams(location.search);
  words.delete("kept");
  let asked = null;
  let timer = 0;
  const edits = () => [...words].filter(([name]) => /^[ralhx]\d+$/.test(name));
  const row = (k) => body.querySelector(`tr[data-stream="${k}"]`);

  const ask = async () => {
    if (asked) asked.abort();
    asked = new AbortController();
    const query = words.toString();
    history.replaceState(null, "", query ? `?${query}` : location.pathname);
    try {
      const answer = await fetch(`${location.pathname}?${query}`, { headers: { "X-Part": "1" }, signal: asked.signal });
      if (answer.redirected || answer.status === 403) { location.reload(); return; }
      if (!answer.ok) throw new Error(answer.status);
      show(await answer.json());
      $("gone").hidden = true;
    } catch (error) {
      if (error.name !== "AbortError") $("gone").hidden = false;
    }
  };

  const showRow = (line, cells, k, told) => {
    const [flow, was, correction, sigmas, test, spread, how, look] = cells;
    [flow, correction, sigmas, test, spread, how].forEach((text, c) => { line.cells[c + 3].textContent = text; });
    if (was) {
      const old = line.cells[3].appendChild(document.createElement("span"));
      old.className = "was";
      old.textContent = ` (${told.wasWord} ${was})`;
    }
    line.className = look + (told.changed.includes(k) ? " changed" : "") + (String(k + 1) === words.get("stream") ? " chosen" : "");
    const field = line.querySelector("input.reading");
    if (!field) return;
    if (field !== document.activeElement) field.value = words.get(field.name) ?? field.dataset.base;
    if (told.faults[field.name]) field.setAttribute("aria-invalid", "true"); else field.removeAttribute("aria-invalid");
  };

  const show = (told) => {
    const held = document.activeElement, id = held && held.id, at = held && held.selectionStart, typed = held && held.value;
    for (const part of ["band", "head", "side", "drawing"]) $(part).innerHTML = told[part];
    document.body.className = told.tone + (told.whatif ? " whatif" : told.kept ? "" : " unkept");
    told.rows.forEach((cells, k) => showRow(row(k), cells, k, told));
    pick();
    const kept = $("keepwords");
    if (kept) kept.replaceChildren(...edits().map(([name, value]) => Object.assign(document.createElement("input"), { type: "hidden", name, value })));
    document.querySelectorAll("[data-download]").forEach((link) => { link.search = new URLSearchParams(edits()).toString(); });
    const again = id && $(id);
    if (again && again !== document.activeElement) {
      again.focus({ preventScroll: true });
      if (again.type === "text" && typed !== undefined) { again.value = typed; again.setSelectionRange(at, at); }
    }
  };

  const change = (field) => {
    const name = field.dataset.edit, value = field.type === "checkbox" ? (field.checked ? "1" : "") : field.value.trim();
    if (value === field.dataset.base) words.delete(name); else words.set(name, value);
    clearTimeout(timer);
    timer = setTimeout(ask, 120);
  };
  const choose = (k, bring) => {
    words.set("stream", String(Number(k) + 1));
    ask().then(() => { if (bring && matchMedia("(max-width: 1000px)").matches) $("side").scrollIntoView({ behavior: "smooth" }); });
  };
  const openKeep = () => {
    $("keep").open = true;
    $("keep").scrollIntoView({ block: "center" });
    $("keep").querySelector("select").focus();
  };

  document.addEventListener("input", (event) => { if (event.target.dataset.edit) change(event.target); });
  document.addEventListener("submit", (event) => {
    if (event.target.id === "keepform") {
      const button = event.target.querySelector("button");
      setTimeout(() => { button.disabled = true; }, 0);
    } else if (event.target.matches(".fields, #readings")) {
      event.preventDefault();
      clearTimeout(timer);
      ask();
    }
  });
  document.addEventListener("click", (event) => {
    const drop = event.target.closest("[data-drop]");
    if (drop) {
      event.preventDefault();
      if (drop.dataset.drop === "all") edits().forEach(([name]) => words.delete(name)); else words.delete(drop.dataset.drop);
      ask();
    } else if (event.target.closest(".tokeep") && $("keep")) {
      event.preventDefault();
      openKeep();
    } else {
      const one = event.target.closest("[data-choose], .edge, .label");
      if (one && !event.ctrlKey && !event.metaKey) { event.preventDefault(); choose(one.dataset.choose ?? one.dataset.stream, true); }
    }
  });
  document.addEventListener("keydown", (event) => {
    const edge = event.target.closest && event.target.closest(".edge");
    if (edge && (event.key === "Enter" || event.key === " ")) { event.preventDefault(); choose(edge.dataset.stream, true); }
  });

  const light = (event, on) => {
    const part = event.target.closest && event.target.closest("[data-stream]");
    if (part) for (const one of document.querySelectorAll(`[data-stream="${part.dataset.stream}"]`)) one.classList.toggle("lit", on);
  };
  document.addEventListener("mouseover", (event) => light(event, true));
  document.addEventListener("mouseout", (event) => light(event, false));

  const pick = () => {
    const on = document.querySelector("#filter [aria-pressed=true]").dataset.filter;
    for (const line of body.rows) line.hidden = on !== "" && !line.matches(on);
  };
  $("filter").addEventListener("click", (event) => {
    const one = event.target.closest("button");
    if (!one) return;
    document.querySelectorAll("#filter button").forEach((other) => other.setAttribute("aria-pressed", String(other === one)));
    pick();
  });
  $("zoom").addEventListener("click", (event) => {
    event.target.setAttribute("aria-pressed", String(work.classList.toggle("full")));
    const at = work.querySelector(".label.chosen");
    if (at && work.classList.contains("full")) at.scrollIntoView({ block: "center", inline: "center" });
  });
  $("print").addEventListener("click", () => print());

  const heads = [...document.querySelectorAll("table.sheet th")];
  const key = (line, c) => {
    const cell = line.cells[c];
    if (cell.dataset.key !== undefined) return cell.dataset.key;
    const text = cell.textContent.replace(/\(.*/, "").replace(/[\s▲⚠+]/g, "").replace("−", "-").replace(",", ".");
    return text === "?" || text === "" ? "" : isNaN(text) ? cell.textContent : text;
  };
  const compare = (a, b) => (a === "") - (b === "") || (isNaN(a) || isNaN(b) ? a.localeCompare(b) : a - b);
  heads.forEach((head, c) => head.addEventListener("click", () => {
    const down = head.getAttribute("aria-sort") === "ascending";
    heads.forEach((other) => other.removeAttribute("aria-sort"));
    head.setAttribute("aria-sort", down ? "descending" : "ascending");
    const order = (x, y) => {
      const [a, b] = [key(x, c), key(y, c)];
      return a === "" || b === "" ? compare(a, b) : (down ? -1 : 1) * compare(a, b);
    };
    body.append(...[...body.rows].sort(order));
  }));
}
