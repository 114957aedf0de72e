// src/basket.ts
var PRICES = { apple: 30, pear: 45, kiwi: 20 };
var Basket = class {
  constructor() {
    this.counts = /* @__PURE__ */ new Map();
  }
  add(name, count) {
    const before = this.counts.get(name) ?? 0;
    this.counts.set(name, before + count);
  }
  remove(name) {
    if (!this.counts.has(name)) {
      return false;
    }
    this.counts.delete(name);
    return true;
  }
  lines() {
    return [...this.counts].map(([name, count]) => `${count} x ${name}`);
  }
  total() {
    let sum = 0;
    for (const [name, count] of this.counts) {
      const price = PRICES[name];
      if (price === void 0) {
        console.error(`no price for ${name}`);
        continue;
      }
      sum += count > 2 ? discounted(price, count) : price * count;
    }
    return sum;
  }
};
function discounted(price, count) {
  const full = price * count;
  return count >= 10 ? Math.round(full * 0.8) : Math.round(full * 0.9);
}

// src/order.ts
var OrderError = class extends Error {
};
function parseOrder(text) {
  const [count, name, ...rest] = text.split(" ");
  if (name === void 0 || rest.length > 0) {
    throw new OrderError(`not an order: ${text}`);
  }
  return { name, count: parseCount(count) };
}
function parseCount(text) {
  const count = Number(text);
  if (Number.isNaN(count)) {
    throw new OrderError(`not a count: ${text}`);
  }
  switch (Math.sign(count)) {
    case 0:
      throw new OrderError("nothing ordered");
    case -1:
      return -count;
    default:
      return count;
  }
}

// src/texte.ts
var grüße = { 0: "😀 Grüß dich", 1: "😀 ¡Buenos días", 2: "😀 こんにちは" };
function greeting(name, sprache) {
  const wort = grüße[sprache];
  const ende = sprache === 1 /* Español */ ? "!" : ".";
  return schmücken(`${wort}, ${name}${ende}`, sprache === 2 /* 日本語 */);
}
function schmücken(satz, laut) {
  const zeichen = [...satz];
  if (laut) {
    return zeichen.map((z) => `${z}‼`).join("");
  }
  return "✨ " + zeichen.join("") + " ✨";
}
function rückwärts(satz) {
  return [...satz].reverse().join("");
}
var werkzeuge = {
  kürzen: (satz, länge) => satz.length > länge ? satz.slice(0, länge) + "…" : satz,
  rückwärts
};
console.debug(Object.keys(werkzeuge).length > 0 ? "" : "keine Werkzeuge");

// src/main.ts
var ORDERS = ["2 apple", "1 pear", "3 kiwi", "x plum"];
function report(basket2) {
  const lines = basket2.lines();
  if (lines.length === 0) {
    return "nothing ordered";
  }
  return lines.join("; ");
}
function readAll(basket2, orders) {
  let failed2 = 0;
  for (const text of orders) {
    try {
      const order = parseOrder(text);
      basket2.add(order.name, order.count);
    } catch (error) {
      if (!(error instanceof OrderError)) {
        throw error;
      }
      failed2 += 1;
    }
  }
  return failed2;
}
var basket = new Basket();
var failed = readAll(basket, ORDERS);
console.log(greeting("Zoë", 0 /* Deutsch */));
console.log(report(basket), `total ${basket.total()}`, `failed ${failed}`);
