// ../sources/text.js
var \u540D\u524D = "\u540D\u524D \u{1F600}";
function padded(text, width, filler = " ") {
  const missing = width - [...text].length;
  return missing > 0 ? text + filler.repeat(missing) : text;
}
function* wrapped(text, width) {
  let line = "";
  for (const word of text.split(/\s+/u)) {
    if (line && line.length + 1 + word.length > width) {
      yield line;
      line = word;
    } else {
      line = line ? `${line} ${word}` : word;
    }
  }
  if (line)
    yield line;
}
var Table = class {
  #rows = [];
  constructor(...columns) {
    this.columns = columns;
  }
  add(row) {
    this.#rows.push({ ...row });
    return this;
  }
  get width() {
    return this.columns.reduce((sum, { width }) => sum + (width ?? 8), 0);
  }
  toString() {
    const line = (cellOf) => this.columns.map((it) => padded(String(cellOf(it)), it.width ?? 8)).join("\u2502");
    return [line((it) => it.title), ...this.#rows.map((row) => line((it) => row[it.key] ?? "\u2013"))].join("\n");
  }
};

// ../sources/measures.js
var UNITS = /* @__PURE__ */ new Map([["mm", 1e-3], ["cm", 0.01], ["m", 1], ["km", 1e3]]);
function gr\u00F6\u00DFe(text) {
  const found = /^(?<zahl>\d+(?:\.\d+)?)\s*(?<einheit>[a-z]+)$/u.exec(text.trim());
  if (!found)
    throw new RangeError(`not a length: ${text}`);
  const { zahl, einheit } = found.groups;
  const \u{10428}\u{10429} = UNITS.get(einheit);
  if (\u{10428}\u{10429} === void 0)
    throw new RangeError("unknown unit: " + einheit);
  return Number(zahl) * \u{10428}\u{10429};
}
function mittelwert(werte) {
  let summe = 0;
  for (const wert of werte)
    summe += wert;
  return werte.length === 0 ? NaN : summe / werte.length;
}
async function measured(reading, times = 3) {
  const werte = [];
  for (let n = 0; n < times; n++) {
    try {
      werte.push(gr\u00F6\u00DFe(await reading(n)));
    } catch (fehler) {
      if (!(fehler instanceof RangeError))
        throw fehler;
      console.warn(padded("passed over", 12), fehler.message);
    }
  }
  return { gr\u00F6\u00DFe: mittelwert(werte), anzahl: werte.length };
}

// ../sources/main.js
var readings = ["12 mm", "1.5cm", "no length", "2 m"];
async function report(title = \u540D\u524D) {
  const { gr\u00F6\u00DFe: gr\u00F6\u00DFe2, anzahl } = await measured((n) => readings[n], readings.length);
  const table = new Table({ key: "what", title, width: 20 }, { key: "value", title: "m" });
  table.add({ what: "mean", value: gr\u00F6\u00DFe2.toFixed(3) }).add({ what: "count", value: anzahl });
  table.add({ what: "mean of counts", value: mittelwert([anzahl, readings.length]) });
  return `${table}
${[...wrapped("The mean of all readings that are lengths, in metres.", 24)].join("\n")}`;
}
report().then((text) => console.log(text), (fault) => console.error(fault));
export {
  report
};
//# sourceMappingURL=main.js.map
