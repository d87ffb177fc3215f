// The section "Try other readings": a reading changed or a meter struck, and the engine balances the plant anew, in this page.
const GIVEN = JSON.parse(document.getElementById("live-given").textContent);
const TONES = { pass: "good", none: "poor", close: "poor", fail: "bad" };
const MOST_READING = 4000000n;
const HEADS = [["stream", ""], ["what", ""], ["reading", "number"], ["meter counts", ""], ["balanced", "number"], ["correction", "number"], ["how it is known", ""]];
const rows = document.getElementById("live-rows");
const said = document.getElementById("live-verdict");

/** A decimal number as a fraction, or null if the text is none. */
function fraction(text) {
  const found = /^([+-]?)(\d+)(?:[.,](\d+))?$/.exec(text.trim().replace("−", "-").replace(/[\s\u00a0\u202f']/g, ""));
  if (!found) return null;
  const [, sign, before, behind = ""] = found;
  return [BigInt(sign + before + behind), 10n ** BigInt(behind.length)];
}

/** A number of kg/h in whole units, a half going to the even one, as the list's readings are made whole. */
function inUnits([amount, over]) {
  const [unit, parts] = GIVEN.unit.map(BigInt);
  const top = 2n * amount * parts + over * unit, bottom = 2n * over * unit;
  const down = top / bottom - (top % bottom < 0n ? 1n : 0n);
  return top % bottom === 0n && down % 2n !== 0n ? down - 1n : down;
}

/** An amount of the engine in kg/h, as the sheet shows it. */
function shown(amount, signed = false) {
  const value = (Number(amount) * GIVEN.unit[0]) / GIVEN.unit[1];
  const options = { minimumFractionDigits: GIVEN.decimals, maximumFractionDigits: GIVEN.decimals, signDisplay: signed ? "exceptZero" : "negative" };
  return value.toLocaleString("en-US", options).replace("-", "−");
}

/** An element with a text. */
function made(tag, text, parent, className = "") {
  const element = document.createElement(tag);
  element.textContent = text;
  element.className = className;
  parent.append(element);
  return element;
}

/** The row of a stream: its reading and its meter may be changed if the list has a meter there. */
function rowOf(stream, k) {
  const row = made("tr", "", rows);
  row.dataset.stream = k;
  made("td", stream.label, row);
  made("td", stream.what, row);
  const reading = made("td", "", row, "number"), meter = made("td", "", row);
  if (stream.weight !== null) {
    stream.input = Object.assign(made("input", "", reading), { type: "text", inputMode: "decimal", value: stream.text, autocomplete: "off" });
    stream.input.setAttribute("aria-label", `reading of ${stream.label} in kg/h`);
    stream.fault = made("span", "", reading, "fault");
    stream.counts = Object.assign(made("input", "", meter), { type: "checkbox", checked: true, autocomplete: "off" });
    stream.counts.setAttribute("aria-label", `the meter of ${stream.label} counts`);
    for (const field of [stream.input, stream.counts]) field.addEventListener("input", recompute);
  } else {
    made("span", "none", meter);
  }
  stream.cells = [made("td", "", row, "number balanced"), made("td", "", row, "number"), made("td", "", row)];
  stream.row = row;
}

/** The reading of a stream in units as its field says it; null with its fault shown if the field holds none. */
function tried(stream) {
  const number = fraction(stream.input.value);
  const reading = stream.input.value === stream.text ? BigInt(stream.reading) : number && inUnits(number);
  const fault = reading === null ? "no number of kg/h" : reading > MOST_READING || reading < -MOST_READING ? `over ${shown(MOST_READING)}` : "";
  stream.fault.textContent = fault;
  stream.input.setAttribute("aria-invalid", String(fault !== ""));
  return fault ? null : reading;
}

/** The plant as it is tried; null if a field holds no reading. */
function plant() {
  const streams = GIVEN.streams.map((stream) => {
    if (stream.weight === null || !stream.counts.checked) return { from: stream.from, to: stream.to };
    return { from: stream.from, to: stream.to, weight: stream.weight, reading: tried(stream), low: stream.low, high: stream.high };
  });
  return streams.some((stream) => stream.reading === null) ? null : streams;
}

const changed = (stream) => stream.weight !== null && (!stream.counts.checked || stream.input.value !== stream.text);

/** Shows a verdict, or why there is none, and whether it is the sheet's or a trial. */
function tell(text, tone) {
  said.textContent = text;
  said.className = `live-verdict ${tone}`;
  if (GIVEN.streams.some(changed)) made("span", "not kept", said, "not-kept");
}

/** Shows a stream's flow, or clears it. */
function show(stream, record, reading) {
  const flow = record?.flow ?? null;
  stream.row.classList.toggle("tried", changed(stream));
  stream.row.dataset.kind = record?.kind ?? "";
  stream.row.dataset.flow = flow ?? "";
  stream.cells[0].textContent = record ? (flow === null ? "?" : shown(flow)) : "";
  stream.cells[1].textContent = flow === null || reading == null ? "" : shown(flow - reading, true);
  stream.cells[2].textContent = record ? GIVEN.how[record.kind] : "";
}

const thousandths = (amount) => (Number(amount) / 1000).toLocaleString("en-US", { minimumFractionDigits: 1, maximumFractionDigits: 1 });

/** The sheet of what is tried, from the engine. */
function sheetOf(streams) {
  const sheet = engine.balance(engine.writePlant(GIVEN.units, streams));
  const limit = sheet.degrees ? `, cost ${thousandths(sheet.cost)}, limit ${thousandths(GIVEN.critical[sheet.degrees - 1])}` : "";
  tell(GIVEN.verdict[sheet.verdict] + limit, TONES[sheet.verdict]);
  Object.assign(said.dataset, { verdict: sheet.verdict, cost: sheet.cost, degrees: sheet.degrees });
  GIVEN.streams.forEach((stream, k) => show(stream, sheet.records[k], streams[k].reading));
}

/** Balances what is tried, and shows it. */
function recompute() {
  const streams = plant();
  for (const name of ["verdict", "cost", "degrees"]) delete said.dataset[name];
  GIVEN.streams.forEach((stream) => show(stream, null));
  if (!streams) return tell("No sheet: a reading is no number, or too large.", "bad");
  try {
    sheetOf(streams);
  } catch (refusal) {
    if (!(refusal instanceof Refusal)) throw refusal;
    said.dataset.verdict = `refused ${refusal.number}`;
    const places = refusal.places.map((place) => GIVEN.places[place]).join(", ");
    tell(refusal.number === 19 ? `No flow balances within all ranges: too much goes into ${places}.` : `No sheet: ${refusal.text}.`, "bad");
  }
}

/** The engine's WebAssembly, which the page has compressed and in base64. */
async function unpacked() {
  const packed = Uint8Array.from(atob(document.getElementById("live-wasm").textContent), (letter) => letter.charCodeAt(0));
  return new Response(new Blob([packed]).stream().pipeThrough(new DecompressionStream("gzip"))).arrayBuffer();
}

const engine = await load(await unpacked());
for (const [head, look] of HEADS) made("th", head, document.getElementById("live-heads"), look);
GIVEN.streams.forEach(rowOf);
document.getElementById("live-reset").addEventListener("click", () => {
  for (const stream of GIVEN.streams) if (stream.weight !== null) Object.assign(stream.input, { value: stream.text }), (stream.counts.checked = true);
  recompute();
});
recompute();
document.getElementById("live").dataset.ready = engine.version();
