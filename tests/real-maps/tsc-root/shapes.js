export var Kind;
(function (Kind) {
    Kind["Circle"] = "\u25CB";
    Kind["Square"] = "\u25A1";
})(Kind || (Kind = {}));
class Named {
    constructor(name, länge) {
        this.name = name;
        this.länge = länge;
    }
    toString() { return `${this.name} 😀 ${this.größe().toFixed(2)}`; }
}
export class Circle extends Named {
    größe() { return Circle.π * this.länge ** 2; }
}
Circle.π = 3.14159;
export class Square extends Named {
    größe() { return this.länge * this.länge; }
}
export function make(kind, size, name) {
    const made = kind === Kind.Circle ? new Circle(name ?? "円", size) : new Square(name ?? "四角", size);
    return made;
}
export const größte = (shapes) => [...shapes].sort((a, b) => b.größe() - a.größe())[0];
export async function* each(shapes, ms = 10) {
    for (const { name, ...rest } of shapes) {
        await new Promise((done) => setTimeout(done, ms));
        yield `${name}: ${Object.keys(rest).join()}`;
    }
}
//# sourceMappingURL=shapes.js.map