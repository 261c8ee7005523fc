// What the page knows of the registry: its founding, its organisations, and each number of each vendor.

import { clock, pause, read, readDated } from './asking.js';
import { readNumbers, readOrganisations, readPetitions, readReply } from './reading.js';
import { Vendor } from './vendor.js';

// What is known is read anew for a view once it is so old.
const FRESH = 60_000;
// A report may have been read so long before it was written to its file.
const WRITTEN = 20_000;
// An own petition is listed by the report at the latest after so long.
const LISTED = 15_000;

export const known = { founding: null, vendors: new Map(), orgs: new Map() };
const closed = new Set(), opened = [];
// What was learned after the reports: each change with its time by the clock of the proxy.
let news = [];
// What was read when, by what it is: `founding` alone, or `all`.
const readings = {};

// Takes a founding, with the numbers of its vendors that were read.
function put(founding, vendors = known.vendors) {
  known.founding = founding;
  const named = ({ vendor, name }) => Object.assign(vendors.get(vendor) ?? new Vendor(vendor), { name });
  known.vendors = new Map(founding.vendors.map(it => [it.vendor, named(it)]));
}

async function readFounding() {
  put(JSON.parse(await read('/founding')));
  for (const it of news) it.put();
}

// The numbers of vendors, as they come in pieces of the report. Once many of them are there, `enough` is waited for.
const MANY = 1000;
class Numbers {
  constructor(enough) {
    Object.assign(this, { vendors: new Map(), enough, rest: '', count: 0 });
  }

  async hear(piece) {
    const end = piece.lastIndexOf('\n') + 1, lines = end ? this.rest + piece.slice(0, end) : '', before = this.count;
    this.rest = end ? piece.slice(end) : this.rest + piece;
    for (const { vid, pid, state, owner, title } of readNumbers(lines)) {
      if (!this.vendors.has(vid)) this.vendors.set(vid, new Vendor(vid));
      this.vendors.get(vid).put(pid, state, owner, title);
      this.count += 1;
    }
    if (before < MANY && this.count >= MANY) await this.enough(this.vendors);
  }
}

// Whether all was read once. Before that, many numbers may be there already.
let isWhole = false, tellMany;
const many = new Promise(done => { tellMany = done; });
export const isAllKnown = () => isWhole;

async function readAll() {
  const founding = fresh('founding', readFounding).then(() => known.founding);
  let numbers;
  const enough = async vendors => {
    if (isWhole) return;
    const it = await founding.catch(() => null);
    // the last ones may be there by now, or another try began
    if (!it || isWhole || numbers.vendors !== vendors) return;
    for (const { vendor } of it.vendors) if (!vendors.has(vendor)) vendors.set(vendor, new Vendor(vendor));
    put(it, vendors);
    for (const it of news) it.put();
    tellMany();
    // a view is shown before the others are read
    await pause(0);
  };
  const hearing = () => {
    numbers = new Numbers(enough);
    return piece => numbers.hear(piece);
  };
  const [{ asOf: ofNumbers }, organisations] =
    await Promise.all([readDated('/reports/numbers', hearing), readDated('/reports/organisations')]);
  put(await founding, numbers.vendors);
  known.orgs = new Map(readOrganisations(organisations.text));
  for (const it of known.vendors.values()) it.text = null;
  isWhole = true;
  const asOf = Math.min(ofNumbers, organisations.asOf) - WRITTEN;
  news = news.filter(it => it.at >= asOf);
  for (const it of news) it.put();
}

// Resolves once this is known, and not too old. What is old is better than nothing, if the registry does not answer.
function fresh(what, reading) {
  const is = readings[what] ??= { at: 0, now: null };
  if (!is.now || Date.now() - is.at > FRESH) {
    is.at = Date.now();
    is.now = reading().catch(fault => {
      is.now = null;
      if (!known.founding || what === 'all' && known.orgs.size === 0) throw fault;
    });
  }
  return is.now;
}

// The founding alone; and all, of which the founding is a part.
export const founded = () => readings.all?.now ?? fresh('founding', readFounding);
export const loaded = () => fresh('all', readAll);
// Resolves once many numbers are known, if not all.
export const begun = () => Promise.race([loaded(), many]);

// Has the next view read all anew.
function renew() {
  for (const it of Object.values(readings)) it.at = 0;
}

export const foundingVendor = () => known.founding.vendor;
export const isCurator = name => known.founding?.curators.includes(name) ?? false;
export const orgsKeptBy = name => [...known.orgs].filter(([, it]) => it.keeper === name).map(([slug]) => slug);
export const numbersOf = org =>
  [...known.vendors.values()].flatMap(vendor => vendor.of(org).map(pid => ({ vendor, pid })));

function learn(at, change) {
  const it = { at, put: change };
  news.push(it);
  it.put();
}

// What the registry says of a number now. It is newer than the reports.
export async function numberNow(vid, pid) {
  const { text, at } = await readDated(`/numbers/${vid}/${pid}`), got = JSON.parse(text);
  learn(at, () => known.vendors.get(vid)?.put(parseInt(pid, 16), got.state, got.org, got.title));
  return got;
}

export async function orgNow(slug) {
  const { text, at } = await readDated(`/orgs/${slug}`), got = JSON.parse(text);
  learn(at, () => known.orgs.set(slug, { keeper: got.keeper, title: got.title }));
  return got;
}

// What the registry says of a petition now. Once it is closed, its organisation may hold another number than was read.
export async function petitionNow(id) {
  await founded();
  const got = JSON.parse(await read(`/petitions/${id}`)), vid = got.vendor ?? foundingVendor();
  if (got.state !== 'open' && !closed.has(got.id)) {
    closed.add(got.id);
    renew();
  }
  if (got.granted && known.vendors.get(vid)?.isOf(got.granted, got.org) === false) await numberNow(vid, got.granted);
  return { ...got, vid };
}

// Those that were open when they were read before: what became of them is asked for once they are not listed.
let seen = [];
const MOST_GONE = 20;

async function lookAfter(open) {
  const there = new Set(open.map(it => it.id)), gone = seen.filter(it => !there.has(it.id) && !closed.has(it.id));
  seen = open;
  if (gone.length) renew();
  await Promise.all(gone.slice(0, MOST_GONE).map(it => petitionNow(it.id).catch(() => { /* a view asks again */ })));
}

// The open petitions, oldest first, with what this page did to them since the report.
export async function openPetitions() {
  await founded();
  const listed = readPetitions(await read('/reports/petitions'))
    .map(it => ({ ...it, vid: it.vendor ?? foundingVendor() }));
  const isNews = it => Date.now() - it.at < LISTED && !listed.some(other => other.id === it.id);
  const open = [...listed, ...opened.filter(isNews)];
  await lookAfter(open);
  return open.filter(it => !closed.has(it.id));
}

// Says that a petition is closed, as the record told.
export function noteClosed(id) {
  closed.add(id);
  renew();
}

// Learns from an order of this page and its reply what the reports will show later.
export async function learnOrder(order, reply) {
  await founded();
  renew();
  const { vendor, number, org, petition, first, last } = readReply(reply) ?? {}, vid = vendor ?? foundingVendor();
  if (order.petition) closed.add(order.petition);
  if (number) await numberNow(vid, number);
  else if (org) await orgNow(org);
  if (order.order === 'ask') {
    const { number: want = null, title, vendor: vid = foundingVendor() } = order;
    opened.push({ at: Date.now(), id: Number(petition), org: order.org, want, title, vid });
  }
  if (first) {
    const state = order.order === 'reserve' ? 'reserved' : 'free', span = [parseInt(first, 16), parseInt(last, 16)];
    learn(clock(), () => known.vendors.get(vid)?.putSpan(...span, state));
  }
  if (order.order === 'add-licence') learn(clock(), () => addTo('licences', order.licence));
  if (order.order === 'add-vendor') learn(clock(), () => addTo('vendors', { vendor: order.vendor, name: order.name }));
}

// Adds what an order added to the founding, unless it is there.
function addTo(list, it) {
  const same = JSON.stringify(it), there = known.founding[list].filter(other => JSON.stringify(other) !== same);
  put({ ...known.founding, [list]: [...there, it] });
}
