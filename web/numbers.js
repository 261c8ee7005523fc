// The numbers of a vendor, searched, and the page of one number.

import { isUnreached } from './asking.js';
import {
  addressOf, choices, counted, facts, fault, grouped, h, note, numberLink, orderLink, orgLink, paged, searchBar,
  searchBox, select, state, table, typedWords, written,
} from './elements.js';
import { numberIn } from './orders.js';
import {
  begun, founded, foundingVendor, isAllKnown, isCurator, known, loaded, numberNow, orgNow,
} from './registry.js';
import { FREE, HELD, RESERVED, RETURNED, STATES, hex } from './vendor.js';
import { me } from './session.js';
import { orgAndKeeper, sayOld, standingOf, termsOf, vendorChoice } from './pieces.js';
import { storyOfNumber } from './record.js';

const PER_PAGE = 50;
const SHOWN = [
  ['owned', 'held or returned', [HELD, RETURNED]], ['all', 'all numbers', [FREE, RESERVED, HELD, RETURNED]],
  ...STATES.map((name, it) => [name, name, [it]]),
];

// The words to search for: of a number as people write it, its digits, behind those of its vendor if it names one.
// Digits alone may be a part of a number.
export function wordsIn(text) {
  const wordOf = it => {
    const { vendor, number = it } = numberIn(it) ?? {};
    return vendor ? `${vendor}:${number}` : number;
  };
  return typedWords(text).map(it => /^[0-9a-f]{1,4}$/.test(it) ? it : wordOf(it));
}

// A search, whose words, state and page are in the address.
class Search {
  constructor(vendor, { q = '', state: kind = SHOWN[0][0], page = '1' }) {
    Object.assign(this, { vendor, page: Number(page) });
    this.query = searchBox(q, () => this.search());
    this.kind = select({ id: 'kind', onchange: () => this.search() }, SHOWN, kind);
    this.exact = h('p', { id: 'exact' });
    this.count = h('p', { role: 'status', id: 'count' });
    this.rows = h('div', { id: 'rows' });
    this.links = h('div');
    this.all = note();
    this.show();
  }

  // Shows all, once all is known.
  finish() {
    const vendor = this.vendor = known.vendors.get(this.vendor.vid) ?? this.vendor;
    this.all.textContent = `${vendor.counts().map((count, at) => `${grouped(count)} ${STATES[at]}`).join(', ')}.`;
    this.show();
    // before the first word is typed
    setTimeout(() => vendor.prepare(known.orgs));
  }

  address(page = '') {
    const kind = this.kind.value === SHOWN[0][0] ? '' : this.kind.value;
    return addressOf(`numbers/${this.vendor.vid}`, { q: this.query.value, state: kind, page });
  }

  search() {
    this.page = 1;
    this.show();
    history.replaceState(null, '', this.address());
  }

  show() {
    const { vendor } = this, [, , states] = SHOWN.find(([value]) => value === this.kind.value) ?? SHOWN[0];
    // a word with the digits of another vendor is no number of this one
    const asked = wordsIn(this.query.value).map(it => it.startsWith(`${vendor.vid}:`) ? it.slice(5) : it);
    const found = vendor.search(asked, states, known.orgs);
    const { shown, words, links } = paged(found, this.page, PER_PAGE, page => this.address(page));
    this.count.textContent = isAllKnown() ? `${counted(found.length, 'number')}${words}` : 'The numbers are read …';
    const cells = pid => [
      numberLink(vendor.vid, hex(pid)), written(vendor.titles[pid]),
      vendor.owners[pid] ? orgLink(vendor.owners[pid]) : '', state(STATES[vendor.states[pid]]),
    ];
    const heads = [['Number', 'code few'], ['Title', 'long'], 'Organisation', ['State', 'few']];
    this.rows.replaceChildren(table('Numbers', heads, shown.map(cells)));
    this.links.replaceChildren(...links);
    this.exact.replaceChildren(...this.one());
  }

  // The one number that is written, whatever its state and its vendor.
  one() {
    const it = isAllKnown() && numberIn(this.query.value), vid = it?.vendor ?? this.vendor.vid;
    if (!it || it.number === '0000' || !known.vendors.has(vid)) return [];
    return [numberLink(vid, it.number), ' is ', state(standingOf(vid, it.number).state), '.'];
  }
}

// The first table stands there before all numbers are read.
export async function numbersView({ vendor: vid }, given) {
  await begun();
  const vendor = known.vendors.get(vid ?? foundingVendor());
  if (!vendor) return null;
  const search = new Search(vendor, given);
  if (isAllKnown()) search.finish();
  else loaded().then(() => search.finish(), why => search.count.replaceChildren(fault(why.message)));
  return [
    ['Numbers of ', written(vendor.name)], search.all,
    searchBar(vendorChoice(vendor.vid, it => { location.hash = `#/numbers/${it}`; }),
      h('label', { class: 'wide' }, 'Search by number, title or organisation', search.query),
      h('label', {}, 'State', search.kind)),
    search.exact, search.count, search.rows, search.links,
  ];
}

// What one may do with a number, for the person that is signed in.
function deeds(got, vid, owner) {
  const given = { number: got.number, vendor: vid };
  const isKeeper = owner && owner.keeper === me()?.name, links = [];
  if (got.state === 'free') links.push(orderLink('ask', 'Ask for this number', given));
  if (got.state === 'returned' && isKeeper) {
    links.push(orderLink('ask', 'Ask for it again', { ...given, org: got.org }));
  }
  if (got.state === 'held' && isKeeper) {
    links.push(orderLink('amend', 'Change what it says', given), orderLink('return', 'Return it', given));
  }
  if (isCurator(me()?.name) && got.org) links.push(orderLink('correct', 'Correct it', given));
  if (isCurator(me()?.name) && got.state === 'held') links.push(orderLink('revoke', 'Revoke it', given));
  const span = { first: got.number, last: got.number, vendor: vid };
  if (isCurator(me()?.name) && got.state === 'free') links.push(orderLink('reserve', 'Reserve it', span));
  if (isCurator(me()?.name) && got.state === 'reserved') links.push(orderLink('release', 'Release it', span));
  return links.length > 0 && choices(...links);
}

// What the registry says of a number now; while it is down, what the reports said.
async function numberOr(vid, pid) {
  try {
    const got = await numberNow(vid, pid);
    return [got, got.org ? await orgNow(got.org) : null];
  } catch (why) {
    if (!isUnreached(why)) throw why;
    await loaded();
    const vendor = known.vendors.get(vid), { state: now, owner } = standingOf(vid, pid);
    if (!vendor) throw why;
    const title = owner ? vendor.titles[parseInt(pid, 16)] : undefined;
    return [{ number: pid, state: now, org: owner || undefined, title, isOld: true }, known.orgs.get(owner) ?? null];
  }
}

export async function numberView({ vendor: vid, number: pid }) {
  // it is asked for beside the founding; what fails is told below
  const asking = numberOr(vid, pid);
  asking.catch(() => {});
  await founded();
  if (!known.vendors.has(vid)) return null;
  const [got, owner] = await asking;
  return [
    `Number ${vid}:${got.number}`,
    facts(['State', state(got.state)], ['Title', got.title == null ? null : written(got.title)],
      ['Organisation', owner && orgAndKeeper(got.org, owner)], ...termsOf(got)),
    got.isOld && sayOld(),
    got.org && got.licence == null && !got.isOld && note('It was imported without licence, web page and source.'),
    got.state === 'returned' && note('Only its owner can get it again.'),
    deeds(got, vid, owner),
    h('h2', {}, 'What the record says'), storyOfNumber(vid, got.number, got.org),
    choices(h('a', { href: `#/numbers/${vid}` }, 'All numbers of this vendor'),
      h('a', { href: `#/map/${vid}?at=${got.number}` }, 'On the map')),
  ];
}
