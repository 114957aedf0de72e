import { Basket } from "./basket";
import { parseOrder, OrderError } from "./order";
import { greeting, Sprache } from "./texte";

// What a shop prints for these orders. The last one is not valid.
const ORDERS = ["2 apple", "1 pear", "3 kiwi", "x plum"];

function report(basket: Basket): string {
    const lines = basket.lines();
    if (lines.length === 0) {
        return "nothing ordered";
    }
    return lines.join("; ");
}

function readAll(basket: Basket, orders: string[]): number {
    let failed = 0;
    for (const text of orders) {
        try {
            const order = parseOrder(text);
            basket.add(order.name, order.count);
        } catch (error) {
            if (!(error instanceof OrderError)) {
                throw error;
            }
            failed += 1;
        }
    }
    return failed;
}

const basket = new Basket();
const failed = readAll(basket, ORDERS);
console.log(greeting("Zoë", Sprache.Deutsch));
console.log(report(basket), `total ${basket.total()}`, `failed ${failed}`);
