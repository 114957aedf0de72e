"use strict";
Object.defineProperty(exports, "__esModule", { value: true });
exports.each = exports.größte = exports.make = exports.Square = exports.Circle = exports.Kind = void 0;
var tslib_1 = require("tslib");
var Kind;
(function (Kind) {
    Kind["Circle"] = "\u25CB";
    Kind["Square"] = "\u25A1";
})(Kind = exports.Kind || (exports.Kind = {}));
var Named = /** @class */ (function () {
    function Named(name, länge) {
        this.name = name;
        this.länge = länge;
    }
    Named.prototype.toString = function () { return "".concat(this.name, " \uD83D\uDE00 ").concat(this.größe().toFixed(2)); };
    return Named;
}());
var Circle = /** @class */ (function (_super) {
    tslib_1.__extends(Circle, _super);
    function Circle() {
        return _super !== null && _super.apply(this, arguments) || this;
    }
    Circle.prototype.größe = function () { return Circle.π * Math.pow(this.länge, 2); };
    Circle.π = 3.14159;
    return Circle;
}(Named));
exports.Circle = Circle;
var Square = /** @class */ (function (_super) {
    tslib_1.__extends(Square, _super);
    function Square() {
        return _super !== null && _super.apply(this, arguments) || this;
    }
    Square.prototype.größe = function () { return this.länge * this.länge; };
    return Square;
}(Named));
exports.Square = Square;
function make(kind, size, name) {
    var made = kind === Kind.Circle ? new Circle(name !== null && name !== void 0 ? name : "円", size) : new Square(name !== null && name !== void 0 ? name : "四角", size);
    return made;
}
exports.make = make;
var größte = function (shapes) {
    return tslib_1.__spreadArray([], tslib_1.__read(shapes), false).sort(function (a, b) { return b.größe() - a.größe(); })[0];
};
exports.größte = größte;
function each(shapes, ms) {
    if (ms === void 0) { ms = 10; }
    return tslib_1.__asyncGenerator(this, arguments, function each_1() {
        var shapes_1, shapes_1_1, _a, name_1, rest, e_1_1;
        var e_1, _b;
        return tslib_1.__generator(this, function (_c) {
            switch (_c.label) {
                case 0:
                    _c.trys.push([0, 7, 8, 9]);
                    shapes_1 = tslib_1.__values(shapes), shapes_1_1 = shapes_1.next();
                    _c.label = 1;
                case 1:
                    if (!!shapes_1_1.done) return [3 /*break*/, 6];
                    _a = shapes_1_1.value;
                    name_1 = _a.name, rest = tslib_1.__rest(_a, ["name"]);
                    return [4 /*yield*/, tslib_1.__await(new Promise(function (done) { return setTimeout(done, ms); }))];
                case 2:
                    _c.sent();
                    return [4 /*yield*/, tslib_1.__await("".concat(name_1, ": ").concat(Object.keys(rest).join()))];
                case 3: return [4 /*yield*/, _c.sent()];
                case 4:
                    _c.sent();
                    _c.label = 5;
                case 5:
                    shapes_1_1 = shapes_1.next();
                    return [3 /*break*/, 1];
                case 6: return [3 /*break*/, 9];
                case 7:
                    e_1_1 = _c.sent();
                    e_1 = { error: e_1_1 };
                    return [3 /*break*/, 9];
                case 8:
                    try {
                        if (shapes_1_1 && !shapes_1_1.done && (_b = shapes_1.return)) _b.call(shapes_1);
                    }
                    finally { if (e_1) throw e_1.error; }
                    return [7 /*endfinally*/];
                case 9: return [2 /*return*/];
            }
        });
    });
}
exports.each = each;
//# sourceMappingURL=shapes.js.map