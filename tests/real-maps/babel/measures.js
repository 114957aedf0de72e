import { padded } from "./text.js";
var UNITS = new Map([["mm", 0.001], ["cm", 0.01], ["m", 1], ["km", 1000]]);
export function größe(text) {
  var found = /^(?<zahl>\d+(?:\.\d+)?)\s*(?<einheit>[a-z]+)$/u.exec(text.trim());
  if (!found) throw new RangeError("not a length: ".concat(text));
  var {
    zahl: zahl,
    einheit: einheit
  } = found.groups;
  var 𐐨𐐩 = UNITS.get(einheit);
  if (𐐨𐐩 === undefined) throw new RangeError("unknown unit: " + einheit);
  return Number(zahl) * 𐐨𐐩;
}
export function mittelwert(werte) {
  var summe = 0;
  for (var wert of werte) summe += wert;
  return werte.length === 0 ? NaN : summe / werte.length;
}
export async function measured(reading, times = 3) {
  var werte = [];
  for (var n = 0; n < times; n++) {
    try {
      werte.push(größe(await reading(n)));
    } catch (fehler) {
      if (!(fehler instanceof RangeError)) throw fehler;
      console.warn(padded("passed over", 12), fehler.message);
    }
  }
  return {
    größe: mittelwert(werte),
    anzahl: werte.length
  };
}

//# sourceMappingURL=measures.js.map