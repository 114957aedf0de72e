export interface Shape {
    readonly name: string;
    größe(): number;
}
export declare enum Kind {
    Circle = "\u25CB",
    Square = "\u25A1"
}
declare type Made<K extends Kind> = K extends Kind.Circle ? Circle : Square;
declare abstract class Named implements Shape {
    readonly name: string;
    protected readonly länge: number;
    constructor(name: string, länge: number);
    abstract größe(): number;
    toString(): string;
}
export declare class Circle extends Named {
    static readonly π = 3.14159;
    größe(): number;
}
export declare class Square extends Named {
    größe(): number;
}
export declare function make<K extends Kind>(kind: K, size: number, name?: string): Made<K>;
export declare const größte: (shapes: readonly Shape[]) => Shape | undefined;
export declare function each(shapes: Iterable<Shape>, ms?: number): AsyncGenerator<string>;
export {};
//# sourceMappingURL=shapes.d.ts.map