// The entries of the record: by their places, and those about one thing from the files that a timer writes of it.

import { Refused, read } from './asking.js';
import { grouped } from './elements.js';
import { linesOf, readStory } from './reading.js';

// The registry answers with at most so many entries, and fewer if they are long.
export const PIECE = 1000;
// So many entries are looked through before one has to ask for more.
export const GLANCE = 4000;

// The entries by their place, as far as they were read, and how many there are at least.
const entries = [];
let end = 0;

export const numbered = (first, list) => list.map((entry, at) => [first + at, entry]);

// What is asked for at this moment, so that two stories do not ask for the same.
const asked = new Map();
function once(what, asking) {
  if (!asked.has(what)) asked.set(what, asking().finally(() => asked.delete(what)));
  return asked.get(what);
}

// Reads the entries after the first `after`, and returns how many came.
const readAfter = after => once(after, async () => {
  const lines = linesOf(await read(`/history/${after}`));
  lines.forEach((line, at) => { entries[after + at] ??= JSON.parse(line); });
  if (lines.length) end = Math.max(end, after + lines.length);
  return lines.length;
});

// The text at a path, or null where the proxy has none, or not for everybody.
async function readIfThere(path) {
  try { return await read(path); } catch (why) {
    if (!(why instanceof Refused) || ![204, 403, 404].includes(why.status)) throw why;
    return null;
  }
}

// How many requests the files are made of, or null if there are none.
const readFiled = () => once('filed', async () => {
  const text = await readIfThere('/stories/head');
  return text && /^\d+\n$/.test(text) ? Number(text) : null;
});

// Where the record ends, if the server tells it: the number of requests, their digest, and the time of the last one. A
// server that does not is asked once.
let hasHead = true;
export const readHead = () => once('head', async () => {
  if (!hasHead) return null;
  try { return JSON.parse(await read('/head')); } catch (why) {
    if (!(why instanceof Refused) || ![404, 405].includes(why.status)) throw why;
    hasHead = false;
    return null;
  }
});

// Finds how many entries there are. Where no route tells it, there are those of the files at least, and none after the
// last one. After a piece that is not full there is most likely none; else the steps grow until nothing comes, and then
// the places between are halved.
export const findEnd = () => once('end', async () => {
  const told = await readHead();
  if (told !== null) return end = Math.max(end, told.requests);
  end = Math.max(end, await readFiled() ?? 0);
  let none = Infinity, step = PIECE, isLast = true;
  while (end < none) {
    const far = none === Infinity ? end + step : Math.floor((end + none) / 2), after = isLast ? end : far;
    const count = await readAfter(after);
    if (count === 0) none = after;
    isLast = count > 0 && count < PIECE;
    step *= 4;
  }
  return end;
});

// The entries from one place up to another one, oldest first.
export async function between(first, last) {
  for (let at = first; at < last; at += 1) {
    if (entries[at] === undefined && await readAfter(at) === 0) break;
  }
  return entries.slice(first, last);
}

// The entries after a place with their places, and why there may be more; null if there are too many.
async function readSince(place) {
  let last = place, lacking = '';
  try {
    for (let count = await readAfter(last); count > 0; count = await readAfter(last)) {
      last += count;
      if (last - place > GLANCE) return null;
    }
  } catch (why) { lacking = `What came after entry ${grouped(last)} cannot be read: ${why.message}`; }
  return { list: numbered(place, entries.slice(place, last)), lacking };
}

const readFile = async path => readStory(await readIfThere(`/stories/${path}`) ?? '0');

// What the files at these paths have, and all entries since, newest first, with their places; the place from which on
// that is all; and why there may be newer ones. `more` is told each entry since, and returns other files that have to
// do with it. Null where no files are there, or where they are too old. A file has all that `head` counts, so that is
// read before it.
export async function readFiles(paths, more = () => []) {
  const until = await readFiled();
  const [since, ...files] = until === null ? [null] : await Promise.all([readSince(until), ...paths.map(readFile)]);
  if (!since) return null;
  files.push(...await Promise.all([...new Set(since.list.flatMap(([, entry]) => more(entry)))].map(readFile)));
  const left = Math.max(...files.map(it => it.left)), all = new Map([...files.flatMap(it => it.list), ...since.list]);
  const list = [...all].filter(([place]) => place >= left).sort(([one], [other]) => other - one);
  return { list, left, lacking: since.lacking };
}

// Calls `heard` with each new entry, every so often, until it is no longer wanted.
const OFTEN = 5_000;
export async function follow(isWanted, heard) {
  let after = await findEnd();
  while (isWanted()) {
    await new Promise(done => setTimeout(done, OFTEN));
    if (!isWanted() || document.hidden) continue;
    const count = await readAfter(after).catch(() => 0);
    for (const it of entries.slice(after, after + count)) heard(it);
    after += count;
  }
}
