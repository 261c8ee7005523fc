// The curator's queue: the open petitions, each with what one needs to know to decide on it.

import { confirmed } from './dialogs.js';
import {
  addressOf, button, choices, counted, facts, fault, h, note, orderLink, orgLink, paged, petitionLink, searchBar,
  searchBox, select, written,
} from './elements.js';
import {
  foundingVendor, isCurator, known, loaded, noteClosed, numberNow, openPetitions, petitionNow,
} from './registry.js';
import { me } from './session.js';
import { Decision, reasonInput } from './decision.js';
import { aboutPetition, numbersTable, standingOf, termsOf, vendorChoice, wish, wishNow } from './pieces.js';
import { follow } from './entries.js';
import { openInFiles } from './record.js';
import { endBy } from './orders.js';
import { readReply } from './reading.js';
import { wordsIn } from './numbers.js';

const PER_PAGE = 20;
const OTHERS = 8;
const SORTS = [
  ['', 'oldest first', (a, b) => a.id - b.id], ['new', 'newest first', (a, b) => b.id - a.id],
  ['org', 'organisation', (a, b) => a.org.localeCompare(b.org) || a.id - b.id],
  ['number', 'wanted number', (a, b) => keyOf(a).localeCompare(keyOf(b)) || a.id - b.id],
];
const keyOf = it => `${it.vid}:${it.want ?? 'any'}`;
const KEYS = 'Keys: j and k go to the next petition and to the one before, g grants, d declines, x chooses.';

// What speaks against a wanted number: that it is not free, and who else wants it.
function warnings(petition, open) {
  if (!petition.want) return [];
  const { state, owner } = standingOf(petition.vid, petition.want), parts = [];
  const isOwn = state === 'returned' && owner === petition.org;
  if (state !== 'free' && !isOwn) parts.push(fault(`${keyOf(petition)} is not free: it is ${state}.`));
  const others = open.filter(it => it.id !== petition.id && keyOf(it) === keyOf(petition));
  const named = others.map((it, at) => [at ? ', ' : '', petitionLink(it.id), ' of ', it.org]);
  if (others.length) parts.push(fault('Also wanted by ', named, '.'));
  return parts;
}

// A petition of the queue. Its terms are asked for by itself where no file has them.
class Card {
  constructor(listed, queue) {
    Object.assign(this, { listed, queue, decision: null });
    const { id } = listed, waiting = note('It is read …');
    this.box = h('input', { type: 'checkbox', 'aria-label': `Choose petition ${id}`, onchange: () => queue.choose() });
    this.end = h('p', { class: 'soft' });
    this.warned = h('div', {}, warnings(listed, queue.stillOpen()));
    this.wants = h('span', {}, wishNow(listed));
    this.element = h('article', { class: 'card', 'aria-label': `Petition ${id}`, tabindex: -1 },
      h('div', { class: 'head' }, this.box,
        h('h2', {}, h('a', { href: `#/petition/${id}` }, `Petition ${id}`), ': ', written(listed.title))),
      this.warned, waiting, this.end);
    this.fill(waiting).catch(why => waiting.replaceWith(fault(why.message)));
  }

  async fill(waiting) {
    const { id } = this.listed, petition = this.queue.terms.get(id) ?? await petitionNow(id);
    const owner = known.orgs.get(petition.org);
    const about = facts(['Wants', this.wants], ...termsOf(petition),
      ['Organisation', [owner && written(owner.title), ' (', orgLink(petition.org), ')']], ['Keeper', owner?.keeper]);
    this.decision = new Decision(petition, {
      ended: () => this.queue.ended(this), refused: refusal => this.refused(refusal),
    });
    waiting.replaceWith(h('div', { class: 'both' }, h('div', {}, about, this.decision.element, this.end),
      h('div', {}, h('h3', {}, 'Its other numbers'), numbersTable(petition.org, OTHERS))));
    if (petition.state !== 'open') this.close(petition);
    else if (document.activeElement === this.element) this.focus();
  }

  // Says anew what the wanted number is and who else wants it, if that is not what stands there. Of a closed petition
  // that matters no more.
  tell() {
    const { listed, queue } = this, isClosed = queue.closed.has(listed.id);
    const told = {
      warned: h('div', {}, isClosed ? [] : warnings(listed, queue.stillOpen())),
      wants: h('span', {}, isClosed ? wish(listed) : wishNow(listed)),
    };
    for (const [name, it] of Object.entries(told)) {
      if (it.textContent === this[name].textContent) continue;
      this[name].replaceWith(it);
      this[name] = it;
    }
  }

  // The petition was closed by somebody else.
  close(how) {
    const isHere = this.element.contains(document.activeElement);
    this.say(how);
    this.decision?.end();
    this.queue.ended(this, false);
    // its buttons are gone: the keys are heard on
    if (isHere) this.element.focus();
  }

  say({ state, by, reason }) {
    const told = by ? `It was ${state} by ${by}` : `It is ${state}`;
    this.end.replaceChildren(...(reason ? [`${told}: `, written(reason)] : [`${told}.`]));
  }

  async refused({ refused }) {
    const { id, vid, want } = this.listed;
    if (refused === 7) this.close(await petitionNow(id));
    else if (want) await numberNow(vid, want).then(() => this.queue.tell(), () => { /* a view asks again */ });
  }

  // Chooses the card: its first button, once that is there.
  focus() {
    (this.decision?.isOpen ? this.decision.first : this.element).focus();
    this.element.scrollIntoView({ block: 'nearest' });
  }
}

class Queue {
  constructor(open, terms, { q = '', vendor = '', sort = '', page = '1' }) {
    Object.assign(this, { open, terms, vendor, page: Number(page), cards: [], closed: new Set() });
    this.query = searchBox(q, () => this.filter());
    const sorts = SORTS.map(([value, words]) => [value, words]);
    this.sort = select({ id: 'sort', onchange: () => this.filter() }, sorts, sort);
    this.count = h('p', { role: 'status', id: 'count' });
    this.list = h('div', { class: 'cards', onkeydown: event => this.pressed(event) });
    this.links = h('div');
    this.chosen = h('div', { class: 'buttons', id: 'chosen', hidden: true });
    this.show();
  }

  address(page = '') {
    const { query, sort, vendor } = this;
    return addressOf('decide', { q: query.value, vendor, sort: sort.value, page });
  }

  filter(vendor = this.vendor) {
    Object.assign(this, { vendor, page: 1 });
    history.replaceState(null, '', this.address());
    this.show();
  }

  stillOpen() {
    return this.open.filter(it => !this.closed.has(it.id));
  }

  // The petitions that pass the filter, sorted.
  found() {
    const words = wordsIn(this.query.value), [, , order] = SORTS.find(([it]) => it === this.sort.value) ?? SORTS[0];
    const text = it => `${keyOf(it)} ${it.org} ${known.orgs.get(it.org)?.title ?? ''} ${it.title}`.toLowerCase();
    return this.stillOpen().filter(it => (!this.vendor || it.vid === this.vendor)
      && words.every(word => text(it).includes(word))).sort(order);
  }

  show() {
    const found = this.found();
    const { shown, words, links } = paged(found, this.page, PER_PAGE, page => this.address(page));
    this.cards = shown.map(it => new Card(it, this));
    this.list.replaceChildren(...this.cards.map(it => it.element));
    this.links.replaceChildren(...links);
    this.part = { words, isAll: found.length === this.open.length - this.closed.size };
    this.tell();
    this.choose();
  }

  tell() {
    const open = this.open.length - this.closed.size, { words, isAll } = this.part;
    const decided = this.closed.size ? `; ${counted(this.closed.size, 'petition')} closed since` : '';
    const told = isAll ? '' : `; ${this.found().length} found`;
    this.count.textContent = `${counted(open, 'open petition')}${told}${words}${decided}.`;
    for (const it of this.cards) it.tell();
  }

  // A card's petition is closed: the count follows, and after one's own decision the next one gets the focus, or else
  // the one before: on the last one, whose buttons are gone, the keys would be heard no more.
  ended(card, isOwn = true) {
    this.closed.add(card.listed.id);
    card.box.checked = false;
    card.box.disabled = true;
    this.tell();
    this.choose();
    if (isOwn && !this.isMany) (this.step(card, 1) ?? this.step(card, -1) ?? card.element).focus();
  }

  // The next open card, or the one before.
  step(card, way) {
    const open = it => !this.closed.has(it.listed.id), at = this.cards.indexOf(card);
    return way > 0 ? this.cards.slice(at + 1).find(open) : this.cards.slice(0, Math.max(at, 0)).findLast(open);
  }

  pressed(event) {
    if (event.ctrlKey || event.metaKey || event.altKey) return;
    const card = this.cards.find(it => it.element.contains(event.target)), { decision } = card ?? {};
    const acts = {
      j: () => this.step(card, 1)?.focus(), k: () => this.step(card, -1)?.focus(), x: () => card.box.click(),
      g: () => decision?.isOpen && decision.grant(), d: () => decision?.isOpen && decision.decline(),
    };
    if (!card || !Object.hasOwn(acts, event.key)) return;
    event.preventDefault();
    acts[event.key]();
  }

  // The row of buttons for all that are chosen.
  choose() {
    const chosen = this.cards.filter(it => it.box.checked), words = counted(chosen.length, 'petition');
    this.chosen.hidden = chosen.length === 0;
    this.chosen.replaceChildren(`${words} chosen:`,
      button('Grant them', () => this.decideAll('grant', `Grant ${words}?`, chosen)),
      button('Decline them', () => this.decideAll('decline', `Decline ${words}?`, chosen)));
  }

  // Decides on several, each by an order of its own, whose answer stands at its petition.
  async decideAll(kind, question, chosen) {
    const ready = chosen.filter(it => it.decision?.isOpen);
    const list = h('div', { class: 'list' }, ready.map(it => aboutPetition(it.decision.petition)));
    const { input, parts = [] } = kind === 'decline' ? reasonInput() : {};
    if (!await confirmed(question, [list, parts], kind === 'grant' ? 'Grant them' : 'Decline them')) return;
    this.isMany = true;
    for (const it of ready) if (it.decision.isOpen) await it.decision.send(kind, { reason: input?.value });
    this.isMany = false;
    this.count.scrollIntoView();
    ready[0]?.element.focus({ preventScroll: true });
  }

  // What somebody else did, as the record tells: to wanted numbers, and to petitions.
  heard({ order, petition, caller, reason, done }) {
    const { vendor = foundingVendor(), number, first = number, last = number } = readReply(done) ?? {};
    const isTouched = ({ vid, want }) => vid === vendor && first <= want && want <= last;
    const touched = new Set(this.cards.map(it => it.listed).filter(isTouched).map(it => it.want));
    for (const it of touched) numberNow(vendor, it).then(() => this.tell(), () => { /* a view asks again */ });
    if (!endBy(order)) return;
    noteClosed(petition);
    const card = this.cards.find(it => it.listed.id === petition), how = { state: endBy(order), by: caller, reason };
    // closed by a refusal, which names nobody
    if (this.closed.has(petition)) {
      if (card?.end.hasChildNodes()) card.say(how);
      return;
    }
    if (!this.open.some(it => it.id === petition)) return;
    if (card) card.close(how);
    else {
      this.closed.add(petition);
      this.tell();
    }
  }
}

const OTHER_ORDERS = [
  orderLink('reserve', 'Reserve numbers'), orderLink('release', 'Release numbers'),
  orderLink('revoke', 'Revoke a number'), orderLink('correct', 'Correct a number'),
  orderLink('add-licence', 'Allow a licence'), orderLink('add-vendor', 'Add a vendor'),
];

export async function decideView(_, given) {
  await loaded();
  if (!isCurator(me()?.name)) {
    return ['Decide', h('p', { class: 'waits' }, 'This page is for curators. Sign in as one.')];
  }
  const terms = openInFiles().catch(() => new Map()), open = await openPetitions();
  const queue = new Queue(open, await terms, given);
  const isWanted = () => queue.list.isConnected || !queue.wasShown;
  follow(isWanted, it => queue.heard(it)).catch(() => { /* a view asks again */ });
  setTimeout(() => { queue.wasShown = true; }, 1000);
  return [
    'Decide', choices(...OTHER_ORDERS), searchBar(
      vendorChoice(given.vendor ?? '', it => queue.filter(it), [['', 'all']]),
      h('label', { class: 'wide' }, 'Filter by number, title or organisation', queue.query),
      h('label', {}, 'Sort', queue.sort)),
    queue.count, note(KEYS), queue.chosen, queue.list, queue.links,
  ];
}
