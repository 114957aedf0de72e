import { measured, mittelwert } from "./measures.js";
import { Table, wrapped, 名前 } from "./text.js";

const readings = ["12 mm", "1.5cm", "no length", "2 m"];

export async function report(title = 名前) {
  const { größe, anzahl } = await measured((n) => readings[n], readings.length);
  const table = new Table({ key: "what", title, width: 20 }, { key: "value", title: "m" });
  table.add({ what: "mean", value: größe.toFixed(3) }).add({ what: "count", value: anzahl });
  table.add({ what: "mean of counts", value: mittelwert([anzahl, readings.length]) });
  return `${table}\n${[...wrapped("The mean of all readings that are lengths, in metres.", 24)].join("\n")}`;
}

report().then((text) => console.log(text), (fault) => console.error(fault));
