function greet(name) {
    return "Hallo, " + name + "!";
}
var who = "Welt";
console.log(greet(who));
greet(who); 
//# sourceMappingURL=bundle.js.map
