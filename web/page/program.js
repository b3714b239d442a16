"use strict";
// The proved program, as WebAssembly. Each run is one command line in a new instance, so nothing of one run is there in the next.

class Ended extends Error {
  constructor(status) {
    super(`ended with status ${status}`);
    this.status = status;
  }
}

// The digits of base 85, of which five spell four bytes.
const DIGITS = "0123456789ABCDEFGHIJKLMNOPQRSTUVWXYZabcdefghijklmnopqrstuvwxyz!#$%&()*+-;,=>?@^_`{|}~";

function bytesOf(text) {
  const letters = text.replace(/\s/g, ""), bytes = new Uint8Array(Math.floor((letters.length * 4) / 5)), values = new Uint8Array(128);
  [...DIGITS].forEach((digit, value) => { values[digit.charCodeAt(0)] = value; });
  const valueAt = at => (at < letters.length ? values[letters.charCodeAt(at)] : 84);
  const word = at => [0, 1, 2, 3, 4].reduce((sum, i) => sum * 85 + valueAt(at + i), 0);
  for (let at = 0; at < bytes.length; at += 4) {
    const four = word((at / 4) * 5);
    for (let i = 0; i < 4; i++) bytes[at + i] = four >>> (24 - 8 * i);
  }
  return bytes;
}

class Program {
  constructor(module) {
    this.module = module;
  }

  // The program as it stands in the page: gzipped, in base 85.
  static async unpacked(text) {
    const stream = new Response(bytesOf(text)).body.pipeThrough(new DecompressionStream("gzip"));
    return new Program(await WebAssembly.compile(await new Response(stream).arrayBuffer()));
  }

  // `mctower WORDS.. < input`: its exit status, standard output and standard error. Status -1 is none of the program's: the browser stopped it.
  run(words, input) {
    const end = status => { throw new Ended(status); };
    const exports = new WebAssembly.Instance(this.module, { page: { exit: end } }).exports;
    Program.give(exports, exports.page_words, ["mctower", ...words].map(word => `${word}\0`).join(""));
    Program.give(exports, exports.page_input, input);
    try {
      const status = Program.statusOf(exports);
      return { status, output: Program.kept(exports, 1), errors: Program.kept(exports, 2) };
    } catch (fault) {
      return { status: -1, output: "", errors: `the browser stopped the program: ${fault.message}\n` };
    }
  }

  // `mctower run` on a plan, for a schedule; an empty one is none.
  runPlan(plan, schedule) {
    return this.run(schedule === "" ? ["run"] : ["run", `--schedule=${schedule}`], plan);
  }

  static give(exports, room, text) {
    const bytes = new TextEncoder().encode(text), start = Number(room(BigInt(bytes.length)));
    new Uint8Array(exports.memory.buffer).set(bytes, start);
  }

  static statusOf(exports) {
    try {
      return exports.page_main();
    } catch (fault) {
      if (fault instanceof Ended) return fault.status;
      throw fault;
    }
  }

  static kept(exports, descriptor) {
    const start = Number(exports.page_kept(descriptor)), length = Number(exports.page_kept_len(descriptor));
    return new TextDecoder().decode(new Uint8Array(exports.memory.buffer, start, length));
  }
}
