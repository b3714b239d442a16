// What a built page has in it, taken out for tests: the module of the proved program, the data, and the scripts that draw nothing.
import { readFileSync } from 'node:fs';
import vm from 'node:vm';

const SCRIPTS = ['limits', 'look', 'markup', 'schedule', 'program', 'toml', 'plan', 'twin', 'laws', 'record', 'judge', 'where', 'session', 'ownlaw', 'tables', 'pieces', 'moves', 'groups', 'states', 'search', 'beside'];
const GLOBALS = { TextEncoder, TextDecoder, WebAssembly, Response, DecompressionStream, performance };

// The text of the page's script or data of some id.
export function elementOf(page, id) {
  const found = new RegExp(`<script[^>]* id="${id}">(.*?)</script>`, 's').exec(page);
  if (!found) throw new Error(`the page has no script ${id}`);
  return found[1];
}

// A page's scripts in a place of their own, by a function that evaluates an expression there.
export function scriptsOf(texts) {
  const context = vm.createContext({ ...GLOBALS });
  texts.forEach((text, i) => vm.runInContext(text, context, { filename: `${SCRIPTS[i]}.js` }));
  return expression => vm.runInContext(expression, context);
}

// A built page: {program, facts, lessons, evaluate}.
export async function taken(path) {
  const page = readFileSync(path, 'utf8'), evaluate = scriptsOf(SCRIPTS.map(name => elementOf(page, `script-${name}`)));
  const program = await evaluate('text => Program.unpacked(text)')(elementOf(page, 'packed'));
  return { program, evaluate, facts: JSON.parse(elementOf(page, 'facts')), lessons: JSON.parse(elementOf(page, 'lessons')) };
}

// The limits of a tree, and as a script, which web/build.py puts in front of the page's own.
export const limitsIn = root => JSON.parse(readFileSync(`${root}/plans/limits.json`, 'utf8'));
export const limitsOf = root => `"use strict";\nconst LIMITS = ${JSON.stringify(limitsIn(root))};\n`;

// The same scripts as they stand in the tree.
const sourceOf = (root, name) => (name === 'limits' ? limitsOf(root) : readFileSync(`${root}/${name === 'look' ? 'plans' : 'web/page'}/${name}.js`, 'utf8'));
export const sources = root => scriptsOf(SCRIPTS.map(name => sourceOf(root, name)));
