function greet(name) {
    return "Hallo, " + name + "!";
}
//# sourceMappingURL=greet.js.map
