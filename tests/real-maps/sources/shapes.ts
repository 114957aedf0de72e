// Shapes with their größe: 😀 stands before code.
export interface Shape {
  readonly name: string;
  größe(): number;
}

export enum Kind { Circle = "○", Square = "□" }

type Made<K extends Kind> = K extends Kind.Circle ? Circle : Square;

abstract class Named implements Shape {
  constructor(readonly name: string, protected readonly länge: number) {}
  abstract größe(): number;
  toString(): string { return `${this.name} 😀 ${this.größe().toFixed(2)}`; }
}

export class Circle extends Named {
  static readonly π = 3.14159;
  größe(): number { return Circle.π * this.länge ** 2; }
}

export class Square extends Named {
  größe(): number { return this.länge * this.länge; }
}

export function make<K extends Kind>(kind: K, size: number, name?: string): Made<K> {
  const made = kind === Kind.Circle ? new Circle(name ?? "円", size) : new Square(name ?? "四角", size);
  return made as Made<K>;
}

export const größte = (shapes: readonly Shape[]): Shape | undefined =>
  [...shapes].sort((a, b) => b.größe() - a.größe())[0];

export async function* each(shapes: Iterable<Shape>, ms = 10): AsyncGenerator<string> {
  for (const { name, ...rest } of shapes) {
    await new Promise<void>((done) => setTimeout(done, ms));
    yield `${name}: ${Object.keys(rest).join()}`;
  }
}
