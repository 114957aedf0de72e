// Texts of fixed width: é, 名前 and 😀 stand before the code.
export const 名前 = "名前 😀";

export function padded(text, width, filler = " ") {
  const missing = width - [...text].length;
  return missing > 0 ? text + filler.repeat(missing) : text;
}

export function* wrapped(text, width) {
  let line = "";
  for (const word of text.split(/\s+/u)) {
    if (line && line.length + 1 + word.length > width) {
      yield line;
      line = word;
    } else {
      line = line ? `${line} ${word}` : word;
    }
  }
  if (line) yield line;
}

export class Table {
  #rows = [];

  constructor(...columns) {
    this.columns = columns;
  }

  add(row) {
    this.#rows.push({ ...row });
    return this;
  }

  get width() {
    return this.columns.reduce((sum, { width }) => sum + (width ?? 8), 0);
  }

  toString() {
    const line = (cellOf) => this.columns.map((it) => padded(String(cellOf(it)), it.width ?? 8)).join("│");
    return [line((it) => it.title), ...this.#rows.map((row) => line((it) => row[it.key] ?? "–"))].join("\n");
  }
}
