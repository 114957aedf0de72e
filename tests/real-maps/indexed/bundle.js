export const 名前="名前 😀";export function padded(t,e,n=" "){const o=e-[...t].length;return o>0?t+n.repeat(o):t}export function*wrapped(t,e){let n="";for(const o of t.split(/\s+/u))n&&n.length+1+o.length>e?(yield n,n=o):n=n?`${n} ${o}`:o;n&&(yield n)}export class Table{#t=[];constructor(...t){this.columns=t}add(t){return this.#t.push({...t}),this}get width(){return this.columns.reduce(((t,{width:e})=>t+(e??8)),0)}toString(){const t=t=>this.columns.map((e=>padded(String(t(e)),e.width??8))).join("│");return[t((t=>t.title)),...this.#t.map((e=>t((t=>e[t.key]??"–"))))].join("\n")}};var ring=function(){"use strict";function n(t){this.size=t,this.values=[],this.next=0}return n.prototype.push=function(t){return this.values[this.next]=t,this.next=(this.next+1)%this.size,this},n.prototype.each=function(t){for(var n=this.values.length,e=0;e<n;e++)t(this.values[(this.next+e)%n],e)},n.prototype.sum=function(){var n=0;return this.each(function(t){n+=t}),n},{of:function(t){return new n(t)},label:function(t){var e="";return t.each(function(t,n){e+=(n?", ":"größe: ")+t}),e+" = "+t.sum()}}}();console.log(ring.label(ring.of(3).push(1).push(2).push(3).push(4)));
(function (exports) {
  'use strict';

  // Texts of fixed width: é, 名前 and 😀 stand before the code.
  const 名前 = "名前 😀";

  function padded(text, width, filler = " ") {
    const missing = width - [...text].length;
    return missing > 0 ? text + filler.repeat(missing) : text;
  }

  function* wrapped(text, width) {
    let line = "";
    for (const word of text.split(/\s+/u)) {
      if (line && line.length + 1 + word.length > width) {
        yield line;
        line = word;
      } else {
        line = line ? `${line} ${word}` : word;
      }
    }
    if (line) yield line;
  }

  class Table {
    #rows = [];

    constructor(...columns) {
      this.columns = columns;
    }

    add(row) {
      this.#rows.push({ ...row });
      return this;
    }

    get width() {
      return this.columns.reduce((sum, { width }) => sum + (width ?? 8), 0);
    }

    toString() {
      const line = (cellOf) => this.columns.map((it) => padded(String(cellOf(it)), it.width ?? 8)).join("│");
      return [line((it) => it.title), ...this.#rows.map((row) => line((it) => row[it.key] ?? "–"))].join("\n");
    }
  }

  const UNITS = new Map([["mm", 0.001], ["cm", 0.01], ["m", 1], ["km", 1000]]);

  function größe(text) {
    const found = /^(?<zahl>\d+(?:\.\d+)?)\s*(?<einheit>[a-z]+)$/u.exec(text.trim());
    if (!found) throw new RangeError(`not a length: ${text}`);
    const { zahl, einheit } = found.groups;
    const 𐐨𐐩 = UNITS.get(einheit);
    if (𐐨𐐩 === undefined) throw new RangeError("unknown unit: " + einheit);
    return Number(zahl) * 𐐨𐐩;
  }

  function mittelwert(werte) {
    let summe = 0;
    for (const wert of werte) summe += wert;
    return werte.length === 0 ? NaN : summe / werte.length;
  }

  async function measured(reading, times = 3) {
    const werte = [];
    for (let n = 0; n < times; n++) {
      try {
        werte.push(größe(await reading(n)));
      } catch (fehler) {
        if (!(fehler instanceof RangeError)) throw fehler;
        console.warn(padded("passed over", 12), fehler.message);
      }
    }
    return { größe: mittelwert(werte), anzahl: werte.length };
  }

  const readings = ["12 mm", "1.5cm", "no length", "2 m"];

  async function report(title = 名前) {
    const { größe, anzahl } = await measured((n) => readings[n], readings.length);
    const table = new Table({ key: "what", title, width: 20 }, { key: "value", title: "m" });
    table.add({ what: "mean", value: größe.toFixed(3) }).add({ what: "count", value: anzahl });
    table.add({ what: "mean of counts", value: mittelwert([anzahl, readings.length]) });
    return `${table}\n${[...wrapped("The mean of all readings that are lengths, in metres.", 24)].join("\n")}`;
  }

  report().then((text) => console.log(text), (fault) => console.error(fault));

  exports.report = report;

  return exports;

})({});
//# sourceMappingURL=bundle.js.map
