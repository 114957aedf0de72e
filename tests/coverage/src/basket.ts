// Prices in cents.
const PRICES: Record<string, number> = { apple: 30, pear: 45, kiwi: 20 };

export class Basket {
    private readonly counts = new Map<string, number>();

    add(name: string, count: number): void {
        const before = this.counts.get(name) ?? 0;
        this.counts.set(name, before + count);
    }

    remove(name: string): boolean {
        if (!this.counts.has(name)) {
            return false;
        }
        this.counts.delete(name);
        return true;
    }

    lines(): string[] {
        return [...this.counts].map(([name, count]) => `${count} x ${name}`);
    }

    total(): number {
        let sum = 0;
        for (const [name, count] of this.counts) {
            const price = PRICES[name];
            if (price === undefined) {
                console.error(`no price for ${name}`);
                continue;
            }
            sum += count > 2 ? discounted(price, count) : price * count;
        }
        return sum;
    }
}

function discounted(price: number, count: number): number {
    const full = price * count;
    return count >= 10 ? Math.round(full * 0.8) : Math.round(full * 0.9);
}
