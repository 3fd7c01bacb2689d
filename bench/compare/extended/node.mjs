// Reads a language tag and writes it again by Intl.getCanonicalLocales: `node node.mjs TAG TIMES`. It writes what icu.cpp
// writes, after a pass of as many times that is not counted.
const [tag, times] = [process.argv[2], Number(process.argv[3])];

function pass() {
  let written;
  for (let time = 0; time < times; time += 1) [written] = Intl.getCanonicalLocales(tag);
  return written;
}

pass();
const begin = process.cpuUsage();
const written = pass();
const { user, system } = process.cpuUsage(begin);
console.log(((user + system) * 1000 / times).toFixed(1), written);
