// Refusals of each kind, and the place that has to stand beside each: the line, the piece that is wrong, and a word of what is allowed there.
import { limitsIn } from './taken.mjs';

const { CPUS, THREADS, BUFFERS, CAPACITY, TRACE: ROOM } = limitsIn(new URL('..', import.meta.url).pathname);
const PLAN = `cpus = 2
trace = 4
buffers = [1]

[[thread]]
cpu = 0
program = ["recv 0 r0"]

[[thread]]
cpu = 1
program = [
  "set r0 7",
  "send 0 r0",
]
`;
const TRACE = `mctower-trace 1
buffers 1
cap 0 2
e 0 0 send 0 7 0 0
e 1 1 recv 0 7 1 0
left 0
end
`;

const edited = (text, from, to) => {
  if (!text.includes(from)) throw new Error(`${from} is not there`);
  return text.replace(from, to);
};
const plan = (from, to, error, line, piece, says) => ({ plan: edited(PLAN, from, to), error, line, piece, says });
const thread = (error, piece, says) => ({ error: `${error} thread`, line: 5, piece, says });
const schedule = (text, error, piece, says) => ({ plan: PLAN, schedule: text, error, line: undefined, piece, says });
const trace = (from, to, verdict, shown, says) => ({ text: edited(TRACE, from, to), verdict, shown, says });

export const refusals = {
  plans: [
    plan('trace = 4', 'trace 4', 'BadToml(20)', 2, '4', '"=" is wanted'),
    plan('[1]', '[1', 'BadToml(20)', 5, '[[thread]]', '"]" is wanted'),
    plan('"recv 0 r0"', '"recv 0 r0', 'BadToml(20)', 7, '"recv 0 r0]', 'no closing'),
    plan('cpus = 2', 'cpus = 2\ncpus = 3', 'BadToml(20)', 2, 'cpus = 3', 'there already'),
    plan('cpus = 2', 'cpus = 18446744073709551616', 'BadToml(20)', 1, '18446744073709551616', '64 bits'),
    plan('cpus = 2', 'cpu = 2', 'MissingKey(21) cpus', 1, 'cpu', 'no key cpus'),
    plan('cpus = 2', 'cpus = "2"', 'MissingKey(21) cpus', 1, 'cpus', `1 to ${CPUS}`),
    plan('cpus = 2', '[system]\ncpus = 2', 'MissingKey(21) cpus', 2, 'cpus', 'below a header: put it above all headers'),
    plan('trace = 4', '', 'MissingKey(21) trace', undefined, undefined, String(ROOM)),
    plan('cpus = 2', `cpus = ${CPUS + 1}`, 'OutOfRange(22) cpus', 1, 'cpus', `1 to ${CPUS}`),
    plan('[1]', `[${CAPACITY + 1}]`, 'OutOfRange(22) buffers', 3, 'buffers', `1 to ${CAPACITY}`),
    plan('cpus = 2', 'cpus = 2\nlock = "tiket"', 'OutOfRange(22) lock', 2, 'lock', '"ticket" or "grant"'),
    plan('cpu = 1', 'cpu = 2', 'OutOfRange(22) thread 1 cpu', 10, 'cpu', 'home'),
    plan('cpu = 1', 'cpuu = 1', 'MissingKey(21) thread 1 cpu', 10, 'cpuu', 'is near it and is ignored'),
    plan('cpu = 1', '', 'MissingKey(21) thread 1 cpu', 9, '[[thread]]', 'thread 1 has no key cpu'),
    plan('program = ["recv 0 r0"]', 'program = []', 'Guest(23) thread 0 line 0 Empty(15)', 7, 'program', '1 to 256'),
    plan('send 0 r0', 'sned 0 r0', 'Guest(23) thread 1 line 1 UnknownWord(10)', 13, 'sned', 'near it: send'),
    plan('send 0 r0', 'send 0', 'Guest(23) thread 1 line 1 UnknownWord(10)', 13, 'send 0', 'send b rS [k]'),
    plan('send 0 r0', 'send 0 r8', 'Guest(23) thread 1 line 1 BadRegister(11)', 13, 'r8', 'r0 to r7'),
    plan('send 0 r0', `send ${BUFFERS} r0`, 'Guest(23) thread 1 line 1 BadNumber(12)', 13, String(BUFFERS), `0 to ${BUFFERS - 1}`),
    plan('send 0 r0', 'sendm 0 9', 'Guest(23) thread 1 line 1 BadNumber(12)', 13, '9', '1 to 8'),
    plan('send 0 r0', 'jnz r0 2', 'Guest(23) thread 1 line 1 BadTarget(13)', 13, '2', 'lines 0 to 1'),
    plan('send 0 r0', 'send 1 r0', 'OutOfRange(22) thread 1 program', 13, '1', 'buffers 0 to 0'),
    plan('set r0 7', 'set r0 <b>', 'Guest(23) thread 1 line 0 BadNumber(12)', 12, '<b>', '18446744073709551615'),
    { ...thread('MissingKey(21)', 'threads', 'threads is near it and is ignored'), plan: PLAN.replaceAll('[[thread]]', '[[threads]]') },
    { ...thread('MissingKey(21)', 'thread', `1 to ${THREADS} tables`), plan: PLAN.replace(/\[\[thread\]\]\ncpu = 1[^]*/, '').replace('[[thread]]', '[thread]') },
    { ...thread('OutOfRange(22)', 'thread', `1 to ${THREADS} tables`), plan: PLAN + '[[thread]]\ncpu = 0\nprogram = ["exit"]\n'.repeat(THREADS - 1) },
    plan('cpus = 2', `\ufeffcpus = ${CPUS + 1}`, 'OutOfRange(22) cpus', 1, 'cpus', `1 to ${CPUS}`),
    schedule('0*13,,1', 'BadSchedule(9)', '', 'item 2'),
    schedule('0*13, 1', 'BadSchedule(9)', ' 1', 'Here is white space'),
    schedule('0*13;1', 'BadSchedule(9)', '0*13;1', 'A comma separates two items'),
    schedule('0*', 'BadSchedule(9)', '0*', 'A number is missing beside *'),
    schedule('0*3,21*0', 'BadSchedule(9)', '21*0', 'is 0*21 meant?'),
    schedule('rounds', 'BadSchedule(9)', 'rounds', 'The button random writes one'),
    schedule('0*13,*2', 'BadSchedule(9)', '*2', 'A number is missing beside *'),
    schedule('0\u00d713', 'BadSchedule(9)', '0\u00d713', 'no plain digit'),
    schedule('0*0', 'BadSchedule(9)', '0*0', '1 to 1048576'),
    schedule('0*1048576,1', 'BadSchedule(9)', '1', 'at most 1048576'),
    schedule('256', 'BadSchedule(9)', '256', '0 to 255'),
    schedule('0,2*3', 'BadCpu(4)', '2*3', 'CPUs 0 to 1'),
  ],
  // Plans that are taken, with keys that nobody reads.
  ignored: [
    { text: PLAN, notes: [] },
    { text: `\ufeff${PLAN}`, notes: [] },
    { text: edited(PLAN, 'trace = 4', 'trace = 4\nlocks = 1\n"a b" = 2'),
      notes: [[3, 'the key locks is ignored. Is lock meant?'], [4, 'the key a b is ignored']] },
    { text: edited(PLAN, 'cpu = 1', 'cpu = 1\nlock = "grant"\nprograms = 3'),
      notes: [[11, 'the key lock of thread 1 is ignored: it belongs above the first [[thread]]'],
        [12, 'the key programs of thread 1 is ignored. Is program meant?']] },
  ],
  texts: [
    trace('recv 0 7 1 0', 'recv 0 8 1 0', 'no 5 WrongValue(36)', 'e 1 1 recv 0 8 1 0', 'the first message of buffer 0 is 7'),
    trace('send 0 7 0 0', 'send 0 7 00 0', 'no 4 Spelling(30)', 'e 0 0 send 0 7 00 0', 'expected the op, in digits without a leading zero'),
    trace('e 1 1 recv 0 7 1 0\nleft 0\n', 'e 0 0 send 0 8 1 1\ne 0 0 send 0 9 2 2\nleft 0 7 8 9\n', 'no 6 Full(34)', 'e 0 0 send 0 9 2 2',
      'buffer 0 is full: its capacity is 2'),
    trace('send 0 7 0 0', 'send 0 7 1 0', 'no 4 Op(32)', 'e 0 0 send 0 7 1 0', 'the op is 1: expected 0'),
    trace('recv 0 7 1 0', 'recv 0 7 1 3', 'no 5 Pos(33)', 'e 1 1 recv 0 7 1 3', 'the pos is 3: expected 0'),
    trace('recv 0 7 1 0', 'recv 1 7 1 0', 'no 5 Range(31)', 'e 1 1 recv 1 7 1 0', 'the buffer is 1: expected 0 to 0'),
    trace('left 0\n', 'left 0 7\n', 'no 6 Left(37)', 'left 0 7', 'expected left 0, what the entries leave'),
    trace('trace 1', 'trace 2', 'no 7 Version(38)', 'end', 'mctower-trace 1 can spell this text'),
    trace('end\n', 'end', 'no 7 Spelling(30)', 'end', 'does not end with a line feed'),
    trace('trace 1\n', 'trace 1\r\n', 'no 1 Spelling(30)', 'mctower-trace 1\r', 'carriage return'),
    trace(TRACE, '', 'no 1 Spelling(30)', '', 'expected mctower-trace 1, but the text ends'),
  ],
};
