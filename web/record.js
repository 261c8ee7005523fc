// The record of accepted requests: its entries, and those about a number or a petition.

import {
  button, counted, day, facts, fault, grouped, h, note, orderLink, orgLink, pager, petitionLink, table, written,
} from './elements.js';
import { GLANCE, PIECE, between, findEnd, numbered, readFiles, readHead } from './entries.js';
import { endBy } from './orders.js';
import { readReply } from './reading.js';
import { founded, foundingVendor } from './registry.js';
import { wish } from './pieces.js';
import { reply } from './acting.js';

const PER_PAGE = 50;

// What an entry is about, in words.
function deed(entry) {
  const { order, org, title = entry.name, licence, items, of } = entry;
  const parts = order === 'ask' ? ['asked: ', ...reply(entry.done)] : reply(entry.done);
  if (order === 'import') parts.push(' for ', orgLink(org), `, from a list of ${counted(of ?? items.length, 'item')}`);
  if (title) parts.push(': ', written(title));
  if (order === 'ask') parts.push(' (', written(licence), ')');
  if (entry.reason) parts.push(': ', written(entry.reason));
  return parts;
}

const placeLink = place => h('a', { href: `#/record/${place}` }, grouped(place));

// Entries from before the registry kept times have none.
function entryTable(caption, shown) {
  const when = shown.some(([, it]) => it.at) ? [['When', 'few']] : [];
  const times = ({ at }) => when.map(() => at ? day(at) : '');
  const cells = ([at, entry]) => [placeLink(at + 1), ...times(entry), entry.caller, deed(entry)];
  return table(caption, [['No.', 'count few'], ...when, ['Who', 'few'], ['What', 'long']], shown.map(cells));
}

// Where the record ends. The digest stands for all entries: of another record it is another one.
function endFacts({ requests, digest, time }) {
  return facts(['Entries', grouped(requests)], ['Newest', time ? day(time) : null],
    ['Digest', h('code', { class: 'digest' }, digest)]);
}

function placeForm(all) {
  const pattern = '[1-9][0-9]*';
  const input = h('input', { id: 'place', class: 'short', inputmode: 'numeric', pattern, required: true });
  const onsubmit = event => {
    event.preventDefault();
    location.hash = `#/record/${Math.min(Number(input.value), all)}`;
  };
  return h('form', { class: 'bar', onsubmit }, h('label', {}, 'Entry', input), h('button', {}, 'Go to it'));
}

// The entries up to one, newest first; the newest if none is named.
export async function recordView({ place }) {
  await founded();
  const [all, head] = await Promise.all([findEnd(), readHead()]);
  const last = Math.min(Number(place ?? all), all), first = Math.max(0, last - PER_PAGE);
  const shown = numbered(first, await between(first, last)).reverse();
  const part = shown.length ? `; ${grouped(last)} down to ${grouped(first + 1)} shown` : '';
  const at = it => it >= all ? '#/record' : `#/record/${it}`;
  return [
    'Record', note('Each request that the registry accepted, newest first.'),
    h('p', { role: 'status', id: 'count' }, `${counted(all, 'entry', 'entries')}${part}`),
    h('div', { id: 'entries' }, entryTable('Entries', shown)),
    pager(['Newer', 'Older'], [last < all ? at(last + PER_PAGE) : null, first > 0 ? at(first) : null]),
    all > PER_PAGE && placeForm(all), head && endFacts(head),
  ];
}

// Reads what the files at these paths have and the entries since, and shows what is found: `look` is told each entry,
// newest first, and `show` returns what it found so far. Without the files it looks through the record from its end.
// What is older is looked through on request.
function story([paths, more], look, show, none) {
  const told = h('div', { class: 'story' }, WAITING());
  let first = null, isFound = false, lacking = '';
  const hear = list => { for (const it of list) isFound = look(it) || isFound; };
  const lookBack = async () => {
    const least = Math.max(0, first - GLANCE);
    while (first > least) {
      const before = Math.max(least, first - PIECE);
      hear(numbered(before, await between(before, first)).reverse());
      first = before;
    }
  };
  const begin = async () => {
    await founded();
    const files = await readFiles(paths, more);
    first = files ? files.left : await findEnd();
    lacking = files?.lacking;
    if (files) hear(files.list);
    else await lookBack();
  };
  const tell = () => {
    const more = () => {
      told.append(WAITING());
      return lookBack().then(tell).catch(fail);
    };
    const rest = first > 0 && h('p', {}, `${counted(first, 'older entry', 'older entries')} not looked through. `,
      button('Look further back', more));
    const there = isFound ? show() : first === 0 && note(none);
    told.replaceChildren(...[lacking && note(lacking), there, rest].flat().filter(Boolean));
  };
  const fail = why => told.replaceChildren(fault(why.message));
  begin().then(tell).catch(fail);
  return told;
}

const WAITING = () => note('The record is read …');

// The entries that pass a test, oldest first.
function storyOf(files, isAbout, none) {
  const found = [];
  const look = it => {
    if (isAbout(it[1])) found.unshift(it);
    return found.length > 0;
  };
  return story(files, look, () => entryTable('Entries', found), none);
}

// The entries about a number: who granted it, and who had asked; who amended, corrected, returned and revoked it;
// imports for its owner that name it; the spans that were reserved and released.
export function storyOfNumber(vid, pid, owner) {
  const petitions = new Set();
  const isOf = entry => (entry.vendor ?? foundingVendor()) === vid;
  // its file has the petition of each grant but those since
  const asked = entry => {
    const { number, petition } = readReply(entry.done) ?? {};
    return number === pid && petition ? [fileOfPetition(petition)] : [];
  };
  return storyOf([[`${vid}/${pid}`, `${vid}/spans`], asked], entry => {
    const { vendor, number, petition, first, last } = readReply(entry.done) ?? {};
    const isVendor = (vendor ?? foundingVendor()) === vid, isThis = isVendor && number === pid;
    if (isThis && petition) petitions.add(petition);
    if (entry.order === 'ask') return petitions.has(petition);
    if (entry.order !== 'import') return isThis || isVendor && first <= pid && pid <= last;
    return isOf(entry) && entry.org === owner && entry.items.some(([code, title]) => code === pid && title !== null);
  }, 'No entry is about this number.');
}

// A file has the entries of sixteen petitions.
const fileOfPetition = id => `petitions/${Math.floor(id / 16)}`;

// The entries about a petition: who asked, and who decided.
export function storyOfPetition(id) {
  const isAbout = entry => readReply(entry.done)?.petition === String(id);
  return storyOf([[fileOfPetition(id)]], isAbout, 'No entry is about this petition.');
}

// A petition of the record: what it asked for, and what became of it.
function petitionIn(entry, ends) {
  const id = Number(readReply(entry.done).petition), { number, vendor } = entry, vid = vendor ?? foundingVendor();
  return { ...entry, id, want: number?.toLowerCase() ?? null, vid, ...(ends.get(id) ?? { state: 'open' }) };
}

// What became of a petition by the entry that closed it.
function endOf({ order, done, caller, at, reason }) {
  const { number, vendor } = readReply(done), granted = number && `${vendor ?? foundingVendor()}:${number}`;
  return { state: endBy(order), by: caller, ended: at, granted, reason };
}

const canAskAgain = it => it.state === 'declined' || it.state === 'withdrawn';
export function askAgain({ org, want, title, licence, site, source, vendor }) {
  return orderLink('ask', 'Ask again', { org, vendor, number: want, title, licence, site, source });
}

function petitionCells(it, isKeeper) {
  const end = it.granted ? `granted ${it.granted}` : it.state;
  const told = [it.by ? `${end} by ${it.by}` : end, it.ended && [', ', day(it.ended)],
    it.reason && [': ', written(it.reason)]];
  return [petitionLink(it.id), written(it.title), wish(it), told, isKeeper && canAskAgain(it) ? askAgain(it) : ''];
}

// The petitions of an organisation in the record with what became of them, newest first. `heard` is told each that was
// granted.
export function petitionsInRecord(org, isKeeper, heard = () => {}) {
  const found = [], ends = new Map();
  const look = ([, entry]) => {
    if (endBy(entry.order)) ends.set(entry.petition, endOf(entry));
    if (entry.order !== 'ask' || entry.org !== org) return found.length > 0;
    found.push(petitionIn(entry, ends));
    if (found.at(-1).granted) heard(found.at(-1));
    return true;
  };
  const heads = [['Petition', 'few'], ['Title', 'long'], ['Wanted', 'few'], ['State', 'long'], ['', 'few']];
  const show = () => table('Petitions', heads, found.map(it => petitionCells(it, isKeeper)));
  return story([[`orgs/${org}`]], look, show, 'It never asked for a number.');
}

// What the open petitions ask for, by their numbers, as far as the files have it.
export async function openInFiles() {
  const open = new Map(), files = await readFiles(['open']);
  for (const [, entry] of files?.list.reverse() ?? []) {
    const petition = Number(readReply(entry.done)?.petition);
    if (entry.order === 'ask') open.set(petition, petitionIn(entry, new Map()));
    else if (endBy(entry.order)) open.delete(petition);
  }
  return open;
}
