// Grüße in mehreren Sprachen; 😀 steht vor Code, damit Spalten in UTF-16 zählen.
export enum Sprache { Deutsch, Español, 日本語 }

const grüße = { 0: "😀 Grüß dich", 1: "😀 ¡Buenos días", 2: "😀 こんにちは" } as const;

export function greeting(name: string, sprache: Sprache): string {
    const wort = grüße[sprache]; /* 😀 */ const ende = sprache === Sprache.Español ? "!" : ".";
    return schmücken(`${wort}, ${name}${ende}`, sprache === Sprache.日本語);
}

function schmücken(satz: string, laut: boolean): string {
    const zeichen = [...satz];
    if (laut) {
        /* 😀😀 */ return zeichen.map((z) => `${z}‼`).join("");
    }
    return "✨ " + zeichen.join("") + " ✨";
}

export function rückwärts(satz: string): string {
    return [...satz].reverse().join("");
}

// Nothing calls what is kept here for other programs.
export const werkzeuge = {
    kürzen: (satz: string, länge: number): string => (satz.length > länge ? satz.slice(0, länge) + "…" : satz),
    rückwärts,
};
console.debug(Object.keys(werkzeuge).length > 0 ? "" : "keine Werkzeuge");
