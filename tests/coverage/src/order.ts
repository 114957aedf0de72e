export class OrderError extends Error {}

export interface Order {
    name: string;
    count: number;
}

// An order as text: a count and a name.
export function parseOrder(text: string): Order {
    const [count, name, ...rest] = text.split(" ");
    if (name === undefined || rest.length > 0) {
        throw new OrderError(`not an order: ${text}`);
    }
    return { name, count: parseCount(count) };
}

function parseCount(text: string): number {
    const count = Number(text);
    if (Number.isNaN(count)) {
        throw new OrderError(`not a count: ${text}`);
    }
    switch (Math.sign(count)) {
        case 0:
            throw new OrderError("nothing ordered");
        case -1:
            return -count;
        default:
            return count;
    }
}
