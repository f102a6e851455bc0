// Runs the exported function `run` of a WebAssembly module and prints what it gives: jsc run.js -- FILE, or node run.js FILE.
const isNode = typeof process !== "undefined";
const file = isNode ? process.argv[2] : arguments[0];
const bytes = isNode ? require("fs").readFileSync(file) : readFile(file, "binary");
const say = isNode ? console.log : print;
const made = new WebAssembly.Instance(new WebAssembly.Module(bytes));
say("i32:" + (made.exports.run() >>> 0));
