"use strict";
// Schedules: which CPU takes each step. `0*13,1` is 13 steps of CPU 0 and then one of CPU 1.

const MOST_SCHEDULED = 1048576, MOST_CPU_NAMED = 255; // fixed by the format
const NUMBER = /^(0|[1-9][0-9]*)$/;

// One item: its CPU and how often it steps, or what is wrong with it.
function readItem(item) {
  const [cpu, times = "1", ...more] = item.split("*");
  if (item === "") return { fault: "an item is wanted here, as 0 or 0*13: one comma stands between two items, and none at an end" };
  if (!NUMBER.test(cpu) || Number(cpu) > MOST_CPU_NAMED) return { fault: `a CPU is a number from 0 to ${MOST_CPU_NAMED} in digits, without a space or a leading zero` };
  if (more.length || !NUMBER.test(times) || Number(times) < 1 || Number(times) > MOST_SCHEDULED)
    return { fault: `behind * stands how many steps: a number from 1 to ${MOST_SCHEDULED}` };
  return { cpu: Number(cpu), times: Number(times) };
}

// The items of a schedule, or the first fault: which item (from 1 on), and what is allowed there. An empty text has no items.
function readSchedule(text) {
  const items = [];
  let total = 0;
  for (const [index, piece] of (text === "" ? [] : text.split(",")).entries()) {
    const item = readItem(piece);
    if (item.fault) return { fault: item.fault, index: index + 1 };
    total += item.times;
    if (total > MOST_SCHEDULED) return { fault: `all items together have at most ${MOST_SCHEDULED} steps`, index: index + 1 };
    items.push(item);
  }
  return { items, total };
}

const stepsOf = items => items.flatMap(({ cpu, times }) => Array(times).fill(cpu));

// Steps as the text of a schedule.
function spelledSchedule(steps) {
  const runs = [];
  for (const cpu of steps) {
    const last = runs.at(-1);
    if (last && last.cpu === cpu) last.times++;
    else runs.push({ cpu, times: 1 });
  }
  return runs.map(({ cpu, times }) => (times > 1 ? `${cpu}*${times}` : `${cpu}`)).join(",");
}

// The schedule in the first lines of a stored plan, or none.
const scheduleIn = plan => /^\ufeff?# *mctower run --schedule '(.*)' </m.exec(plan)?.[1] ?? "";
