// The pages of organisations, and the page of the person that is signed in.

import { isThere, isUnreached } from './asking.js';
import {
  addressOf, button, choices, counted, facts, h, later, orderLink, orgLink, note, outside, paged, petitionLink,
  searchBar, searchBox, soft, table, typedWords, written,
} from './elements.js';
import { founded, isCurator, known, loaded, numberNow, openPetitions, orgNow, orgsKeptBy } from './registry.js';
import { HELD } from './vendor.js';
import { me, signIn } from './session.js';
import { numbersTable, sayOld, wish } from './pieces.js';
import { petitionsInRecord } from './record.js';

const PER_PAGE = 100;

function heldByOrg() {
  const held = new Map();
  for (const vendor of known.vendors.values()) {
    vendor.owners.forEach((org, pid) => {
      if (org && vendor.states[pid] === HELD) held.set(org, (held.get(org) ?? 0) + 1);
    });
  }
  return held;
}

const lowerText = (slug, it) => `${slug}\n${it.title}\n${it.keeper}`.toLowerCase();

export async function orgsView(_, { q = '', page = '1' }) {
  await loaded();
  const held = heldByOrg(), all = [...known.orgs].map(([slug, it]) => ({ slug, ...it, text: lowerText(slug, it) }));
  const query = searchBox(q, () => {
    show(1);
    history.replaceState(null, '', addressOf('orgs', { q: query.value }));
  });
  const rows = h('div', { id: 'rows' }), count = h('p', { role: 'status', id: 'count' }), links = h('div');
  const cells = it => [orgLink(it.slug), written(it.title), it.keeper, String(held.get(it.slug) ?? 0)];
  const show = at => {
    const words = typedWords(query.value);
    const found = all.filter(it => words.every(word => it.text.includes(word)));
    const part = paged(found, at, PER_PAGE, page => addressOf('orgs', { q: query.value, page }));
    count.textContent = `${counted(found.length, 'organisation')}${part.words}`;
    const heads = ['Short name', ['Name', 'long'], 'Keeper', ['Holds', 'count']];
    rows.replaceChildren(table('Organisations', heads, part.shown.map(cells)));
    links.replaceChildren(...part.links);
  };
  show(Number(page));
  const bar = searchBar(h('label', { class: 'wide' }, 'Search by name or keeper', query));
  return ['Organisations', bar, count, rows, links];
}

function openList(open) {
  if (open.length === 0) return note('none');
  return h('ul', {}, open.map(it => h('li', {}, petitionLink(it.id), ': ', written(it.title), ', ', wish(it))));
}

const forKeeper = org => choices(
  orderLink('ask', 'Ask for a number', { org }), orderLink('amend-org', 'Change the organisation', { org }),
  orderLink('hand-over', 'Hand it over', { org }));

const forCurator = (org, isKeeper) => choices(
  orderLink('correct-org', 'Correct the organisation', { org }),
  !isKeeper && orderLink('hand-over', 'Hand it over', { org }));

// What an organisation has: all that is known of its numbers, and its open petitions.
const numbersOf = slug => later('The numbers are read …', async () => {
  await loaded();
  return numbersTable(slug);
});
const openOf = slug => later('The petitions are read …',
  async () => openList((await openPetitions()).filter(it => it.org === slug)));

// All petitions of an organisation. What was granted after the reports is asked for, and `changed` is told.
function allPetitions(slug, isKeeper, changed = () => {}) {
  return petitionsInRecord(slug, isKeeper, async it => {
    const [vid, pid] = it.granted.split(':');
    if (known.vendors.get(vid)?.isOf(pid, slug) !== false) return;
    await numberNow(vid, pid).then(changed, () => { /* the next view asks again */ });
  });
}

// A link to the feed of an organisation, where there is one.
function feedOf(slug) {
  const path = `/feeds/orgs/${slug}.xml`, link = h('a', { href: path }, 'What is new, as a feed');
  const place = h('p', { hidden: true }, link);
  isThere(path).then(it => { place.hidden = !it; });
  return place;
}

// What the registry says of an organisation now; while it is down, what the report said.
async function orgOr(slug) {
  try {
    return await orgNow(slug);
  } catch (why) {
    if (!isUnreached(why)) throw why;
    await loaded();
    if (!known.orgs.has(slug)) throw why;
    return { org: slug, ...known.orgs.get(slug), isOld: true };
  }
}

export async function orgView({ org: slug }) {
  await founded();
  const got = await orgOr(slug), isKeeper = me()?.name === got.keeper;
  const all = () => past.replaceChildren(allPetitions(slug, isKeeper));
  const past = h('div', {}, button('Show all its petitions', all));
  return [
    written(got.title),
    facts(['Short name', got.org], ['Web page', got.site && outside(got.site)], ['Keeper', got.keeper]),
    got.isOld && sayOld(),
    isKeeper && forKeeper(slug), isCurator(me()?.name) && forCurator(slug, isKeeper),
    h('h2', {}, 'Numbers'), numbersOf(slug), h('h2', {}, 'Open petitions'), openOf(slug), past, feedOf(slug),
  ];
}

const HOW = [
  ['Get a name and a password from the people who run this registry, and sign in.'],
  [orderLink('enrol', 'Enrol your organisation'), '. A person who makes things alone is one too.'],
  [orderLink('ask', 'Ask for a number'), ' for each product, with its title, its licence, and links to its web page ',
    'and its source.'],
  ['A curator looks at your petition, and grants you the number. This page shows it then.'],
];

function beforeSignIn() {
  const enter = async () => { if (await signIn()) dispatchEvent(new Event('hashchange')); };
  return [
    'Your page', h('p', { class: 'waits' }, 'Sign in to see your organisations, numbers and petitions.'),
    button('Sign in', enter, { class: 'main' }),
    h('h2', {}, 'How to get a number'), h('ol', {}, HOW.map(step => h('li', {}, step))),
  ];
}

function section(slug, open) {
  const numbers = h('div', {}), show = () => numbers.replaceChildren(...[numbersTable(slug)].flat().filter(Boolean));
  show();
  return h('section', { class: 'mine' },
    h('h2', {}, written(known.orgs.get(slug).title), ' ', soft('(', orgLink(slug), ')')), forKeeper(slug),
    h('h3', {}, 'Open petitions'), openList(open.filter(it => it.org === slug)),
    h('h3', {}, 'Numbers'), numbers,
    h('h3', {}, 'All petitions'), allPetitions(slug, true, show));
}

// What a maker has: organisations with their numbers and petitions.
export async function mineView() {
  if (!me()) return beforeSignIn();
  await loaded();
  const open = await openPetitions().catch(() => []), mine = orgsKeptBy(me().name);
  if (mine.length === 0) {
    return ['Your page', h('p', {}, 'You keep no organisation yet: ', orderLink('enrol', 'enrol one'), '.')];
  }
  const more = choices(orderLink('enrol', 'Enrol another organisation'), h('a', { href: '#/do' }, 'All orders'));
  return ['Your page', mine.map(slug => section(slug, open)), more];
}
