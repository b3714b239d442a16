// Damaged plans, schedules and texts: the same ones for the same seed.
import { limitsIn } from './taken.mjs';

const { CPUS, CAPACITY, TRACE } = limitsIn(new URL('..', import.meta.url).pathname), AT_LIMITS = [CPUS, CPUS + 1, CAPACITY + 1, TRACE + 1].map(String);
const ODD_PIECES = ['00', '01', '', '-', '-1', '+1', '1.0', 'x', '8', '9', ...AT_LIMITS, '18446744073709551615', '18446744073709551616', '9223372036854775808',
  '1e309', '"', "'", '[', ']', '{', '}', ',', '=', '#', 'true', 'r8', 'r7', '\\', '\r\n', '\u00e9', '\u0000', '<script>', '1979-05-27', 'nan', '[[thread]]'];

// A number in [0, below), of a sequence that the seed begins.
export function chooser(seed) {
  let state = seed >>> 0;
  return below => {
    state = (state + 0x6d2b79f5) >>> 0;
    let mixed = Math.imul(state ^ (state >>> 15), state | 1);
    mixed ^= mixed + Math.imul(mixed ^ (mixed >>> 7), mixed | 61);
    return ((mixed ^ (mixed >>> 14)) >>> 0) % below;
  };
}

const pieceAt = (choose, text) => {
  const start = choose(text.length + 1);
  return [start, Math.min(text.length, start + choose(4))];
};

const DAMAGES = [
  (choose, text) => { const [start, end] = pieceAt(choose, text); return text.slice(0, start) + text.slice(end); },
  (choose, text) => { const [start] = pieceAt(choose, text); return text.slice(0, start) + ODD_PIECES[choose(ODD_PIECES.length)] + text.slice(start); },
  (choose, text) => { const [start] = pieceAt(choose, text); return text.slice(0, start) + String.fromCharCode(32 + choose(95)) + text.slice(start + 1); },
  (choose, text) => { const lines = text.split('\n'); lines.splice(choose(lines.length), 1); return lines.join('\n'); },
  (choose, text) => { const lines = text.split('\n'), line = choose(lines.length); lines.splice(line, 0, lines[choose(lines.length)]); return lines.join('\n'); },
  (choose, text) => numbersIn(choose, text),
  (choose, text) => numbersIn(choose, text),
];

// Puts another number, or something odd, in the place of a number.
function numbersIn(choose, text) {
  const found = [...text.matchAll(/\d+/g)];
  if (found.length === 0) return text;
  const { 0: number, index } = found[choose(found.length)], instead = choose(2) ? ODD_PIECES[choose(ODD_PIECES.length)] : String(choose(20));
  return text.slice(0, index) + instead + text.slice(index + number.length);
}

// A text with one to three damages.
export function damaged(choose, text) {
  for (let left = 1 + choose(3); left > 0; left--) text = DAMAGES[choose(DAMAGES.length)](choose, text);
  return text;
}
