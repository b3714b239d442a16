"use strict";
// Reads a TOML document, and keeps where each thing stands: so a page can show the line of a fault. It decides nothing: whether a text is a plan
// is said by the proved program.

class TomlFault extends Error {
  constructor(at, says) {
    super(says);
    this.at = at;
  }
}

const TOML_BARE = /[A-Za-z0-9_-]+/y;
const TOML_WORD = /[+-]?[A-Za-z0-9_.:+-]+(?: [0-9][0-9:.Z+-]*)?/y;
const TOML_INTEGER = /^([+-]?(0|[1-9](_?[0-9])*)|0x[0-9A-Fa-f](_?[0-9A-Fa-f])*|0o[0-7](_?[0-7])*|0b[01](_?[01])*)$/;
const TOML_FLOAT = /^[+-]?((0|[1-9](_?[0-9])*)(\.[0-9](_?[0-9])*)?([eE][+-]?[0-9](_?[0-9])*)?|inf|nan)$/;
const TOML_DATE = /^([0-9]{4}-[0-9]{2}-[0-9]{2}([Tt ][0-9:.]+([Zz]|[+-][0-9:]+)?)?|[0-9]{2}:[0-9]{2}(:[0-9.]+)?)$/;
const TOML_ESCAPES = { b: "\b", t: "\t", n: "\n", f: "\f", r: "\r", '"': '"', "\\": "\\" };
const LEAST_INTEGER = -(2n ** 63n), MOST_INTEGER = 2n ** 63n - 1n;

class TomlReader {
  constructor(text) {
    this.text = text;
    this.at = text.startsWith("\ufeff") ? 1 : 0; // a byte order mark is no part of the document
    this.top = TomlReader.table(0);
  }

  static table(at) {
    return { kind: "table", at, value: new Map(), closed: false };
  }

  document() {
    let table = this.top;
    for (this.skipLines(); this.at < this.text.length; this.skipLines()) {
      if (this.peek() === "[") table = this.header();
      else this.pair(table);
      this.endOfLine();
    }
    return this.top;
  }

  peek(count = 1) {
    return this.text.slice(this.at, this.at + count);
  }

  fail(says, at = this.at) {
    throw new TomlFault(at, says);
  }

  wants(word) {
    if (this.peek(word.length) !== word) this.fail(`${JSON.stringify(word)} is wanted here`);
    this.at += word.length;
  }

  match(pattern) {
    pattern.lastIndex = this.at;
    const found = pattern.exec(this.text)?.[0];
    if (found !== undefined) this.at += found.length;
    return found;
  }

  skipSpaces() {
    this.match(/[ \t]*/y);
  }

  skipLines() {
    this.match(/(?:[ \t\n]|\r\n|#[^\n\r]*)*/y);
  }

  endOfLine() {
    this.skipSpaces();
    this.match(/#[^\n\r]*/y);
    if (this.at < this.text.length && this.match(/\r?\n/y) === undefined) this.fail("the line has to end here");
  }

  // A table's header: [name] or [[name]]. Returns the table that the next lines fill.
  header() {
    const at = this.at, isItem = this.peek(2) === "[[";
    this.wants(isItem ? "[[" : "[");
    this.skipSpaces();
    const names = this.names(), last = names.pop(), table = this.inner(this.top, names);
    this.wants(isItem ? "]]" : "]");
    const there = table.value.get(last);
    if (!isItem) return there ? this.asTable(there, at) : this.put(table, last, TomlReader.table(at));
    const list = there ?? this.put(table, last, { kind: "array", at, value: [], isOpen: true });
    if (list.kind !== "array" || !list.isOpen) this.fail(`${last} is there already and is no list of tables`, at);
    list.value.push(TomlReader.table(at));
    return list.value.at(-1);
  }

  asTable(node, at) {
    if (node.kind !== "table" || node.closed) this.fail("this name is there already", at);
    return node;
  }

  put(table, name, node) {
    table.value.set(name, node);
    return node;
  }

  inner(table, names) {
    for (const name of names) {
      const there = table.value.get(name) ?? this.put(table, name, TomlReader.table(this.at));
      table = this.asTable(there.kind === "array" && there.isOpen ? there.value.at(-1) : there, this.at);
    }
    return table;
  }

  names() {
    const names = [this.name()];
    for (this.skipSpaces(); this.peek() === "."; this.skipSpaces()) {
      this.at++;
      this.skipSpaces();
      names.push(this.name());
    }
    return names;
  }

  name() {
    if (this.peek() === '"') return this.basicString();
    if (this.peek() === "'") return this.literalString();
    return this.match(TOML_BARE) ?? this.fail("a key is wanted here");
  }

  pair(table) {
    const at = this.at, names = this.names(), last = names.pop();
    const within = this.inner(table, names);
    this.wants("=");
    this.skipSpaces();
    if (within.value.has(last)) this.fail(`the key ${last} is there already`, at);
    this.put(within, last, { ...this.value(), keyAt: at });
  }

  value() {
    const at = this.at, letter = this.peek();
    if (letter === '"') return { kind: "string", at, value: this.peek(3) === '"""' ? this.longString('"""') : this.basicString() };
    if (letter === "'") return { kind: "string", at, value: this.peek(3) === "'''" ? this.longString("'''") : this.literalString() };
    if (letter === "[") return { kind: "array", at, value: this.items("]", () => this.value()) };
    if (letter === "{") return this.inlineTable(at);
    return this.word(at);
  }

  inlineTable(at) {
    const table = TomlReader.table(at);
    this.items("}", () => this.pair(table));
    return { ...table, closed: true };
  }

  items(end, one) {
    const found = [];
    this.at++;
    for (this.skipLines(); this.peek() !== end; this.skipLines()) {
      found.push(one());
      this.skipLines();
      if (this.peek() === ",") this.at++;
      else if (this.peek() !== end) this.fail(`"," or "${end}" is wanted here`);
    }
    this.at++;
    return found;
  }

  word(at) {
    const word = this.match(TOML_WORD);
    if (word === "true" || word === "false") return { kind: "boolean", at, value: word === "true" };
    if (word !== undefined && TOML_INTEGER.test(word)) return { kind: "integer", at, value: this.integer(word, at) };
    if (word !== undefined && TOML_FLOAT.test(word)) return { kind: "float", at, value: Number(word.replaceAll("_", "")) };
    if (word !== undefined && TOML_DATE.test(word)) return { kind: "date", at, value: word };
    return this.fail("a value is wanted here: a number, a text in quotes, a list in brackets, true or false", at);
  }

  integer(word, at) {
    const digits = word.replaceAll("_", ""), value = digits.startsWith("-") ? -BigInt(digits.slice(1)) : BigInt(digits.replace(/^\+/, ""));
    if (value < LEAST_INTEGER || value > MOST_INTEGER) this.fail("an integer has 64 bits with its sign", at);
    return value;
  }

  literalString() {
    return (this.match(/'[^'\n\r]*'/y) ?? this.fail("this text has no closing '")).slice(1, -1);
  }

  basicString() {
    const at = this.at, found = this.match(/"(?:[^"\\\n\r]|\\.)*"/y) ?? this.fail('this text has no closing "');
    return this.unescaped(found.slice(1, -1), at + 1);
  }

  longString(quotes) {
    const at = this.at, end = this.endOfLong(quotes), text = this.text.slice(at + 3, end).replace(/^\r?\n/, "");
    this.at = end + 3;
    return quotes === "'''" ? text : this.unescaped(text.replace(/\\[ \t]*\r?\n\s*/g, ""), at + 3);
  }

  endOfLong(quotes) {
    for (let end = this.at + 3; end < this.text.length; end++) {
      if (quotes === '"""' && this.text[end] === "\\") end++;
      else if (this.text.startsWith(quotes, end)) return end + /^"{0,2}|^'{0,2}/.exec(this.text.slice(end + 3))[0].length;
    }
    return this.fail(`this text has no closing ${quotes}`);
  }

  unescaped(text, at) {
    return text.replace(/\\(u[0-9A-Fa-f]{4}|U[0-9A-Fa-f]{8}|.)/gs, (whole, code) => {
      const letter = code.length > 1 ? String.fromCodePoint(parseInt(code.slice(1), 16)) : TOML_ESCAPES[code];
      return letter ?? this.fail(`${whole} is no escape of TOML`, at);
    });
  }
}

const readToml = text => new TomlReader(text).document();

// The line of a place in a text, from 1 on, and what stands in it.
function lineOf(text, at) {
  const start = text.lastIndexOf("\n", at - 1) + 1, end = text.indexOf("\n", at);
  return { number: text.slice(0, at).split("\n").length, column: at - start + 1, text: text.slice(start, end < 0 ? text.length : end) };
}
