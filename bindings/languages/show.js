// Prints what `p25 show` prints of standard input, by the addon of show_node.c, which lies beside it:
//
//     node show.js < FILE
"use strict";

const fs = require("node:fs");
const { nextItem } = require("./p25.node");

// Yields the items of a recording.
function* items(octets) {
  let item = nextItem(octets, 0);
  while (item !== null) {
    yield item;
    item = nextItem(octets, item.place + item.bits);
  }
}

for (const { text } of items(fs.readFileSync(0))) {
  process.stdout.write(`${text}\n`);
}
