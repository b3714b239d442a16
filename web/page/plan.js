"use strict";
// A plan as the twin takes it, from a text that the proved program has taken.

const textsOf = node => node.value.map(item => item.value);

function planOf(text) {
  const top = readToml(text).value, number = name => Number(top.get(name).value);
  return {
    cpus: number("cpus"), trace: number("trace"), buffers: textsOf(top.get("buffers")).map(Number), lock: top.get("lock")?.value ?? "grant",
    threads: top.get("thread").value.map(({ value }) => ({ cpu: Number(value.get("cpu").value), program: textsOf(value.get("program")) })),
  };
}
