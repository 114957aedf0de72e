import remapping = require("junketscarp/remapping");
export = remapping;
