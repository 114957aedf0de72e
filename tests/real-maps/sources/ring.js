/** A ring of the last values, for old browsers: no arrow functions, no classes. */
var ring = (function () {
    "use strict";

    function Ring(size) {
        this.size = size;
        this.values = [];
        this.next = 0;
    }

    Ring.prototype.push = function (value) {
        this.values[this.next] = value;
        this.next = (this.next + 1) % this.size;
        return this;
    };

    Ring.prototype.each = function (visit) {
        var count = this.values.length, index;
        for (index = 0; index < count; index++) {
            visit(this.values[(this.next + index) % count], index);
        }
    };

    Ring.prototype.sum = function () {
        var total = 0;
        this.each(function (value) {
            total += value;
        });
        return total;
    };

    function label(ring) {
        var text = "";
        ring.each(function (value, index) {
            text += (index ? ", " : "größe: ") + value;
        });
        return text + " = " + ring.sum();
    }

    return { of: function (size) { return new Ring(size); }, label: label };
})();

console.log(ring.label(ring.of(3).push(1).push(2).push(3).push(4)));
