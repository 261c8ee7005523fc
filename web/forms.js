// The form of an order, made from the table of orders.

import { confirmed } from './dialogs.js';
import { button, facts, fault, h, note, orderLink, soft, written } from './elements.js';
import { draftOf, dropDraft, keepDraft, nameOf } from './drafts.js';
import { fieldsIn, orderOf, ORDERS } from './orders.js';
import { fieldsOf, inWords } from './reading.js';
import { foundingVendor, founded, isCurator, known, loaded, numberNow, orgNow, orgsKeptBy } from './registry.js';
import { me } from './session.js';
import { order, placeForAnswer } from './acting.js';
import { about } from './pieces.js';
import { Field, FreeNumbers } from './fields.js';

// What is there already, for an order that changes it.
async function whatIsThere(kind, given) {
  if (['amend-org', 'correct-org'].includes(kind) && given.org) return { ...await orgNow(given.org), ...given };
  if (!['amend', 'correct'].includes(kind) || !given.number) return given;
  return { ...await numberNow(given.vendor ?? foundingVendor(), given.number), ...given };
}

// What to do next, after an order was accepted.
function next(kind, body) {
  const mine = h('a', { href: '#/me' }, 'your page');
  if (kind === 'enrol') return orderLink('ask', 'Ask for a number for it', { org: body.org });
  if (kind !== 'ask') return h('a', { href: '#/me' }, 'Your page');
  return ['A curator decides on it. It stands on ', mine, ' until then. ',
    orderLink('ask', 'Ask for another number', { org: body.org })];
}

class OrderForm {
  constructor(kind, values, given) {
    Object.assign(this, { kind, words: ORDERS[kind].words, name: nameOf(kind, given) });
    const draft = draftOf(this.name), isNeeded = it => it.from !== 'vendors' || known.vendors.size > 1;
    const firstOf = it => it.from === 'vendors' ? foundingVendor() : '';
    const valueOf = it => given[it.name] ?? draft?.[it.name] ?? values[it.name] ?? firstOf(it);
    this.fields = ORDERS[kind].fields.filter(isNeeded).map(it => new Field(it, valueOf(it)));
    this.answer = placeForAnswer();
    this.send = h('button', { class: 'main' }, this.words);
    this.begun = draft ? this.aboutDraft() : null;
    this.element = h('form', {
      class: 'order', novalidate: true, onsubmit: event => this.submit(event), oninput: event => this.typed(event),
    }, this.begun, this.fields.map(it => it.element), this.send, this.answer);
    const wanted = this.field('number');
    if (wanted?.field.from === 'free') this.offered = new FreeNumbers(wanted, this.field('vendor'));
  }

  aboutDraft() {
    const anew = button('Throw it away', () => {
      dropDraft(this.name);
      dispatchEvent(new Event('hashchange'));
    });
    return h('p', { class: 'note', id: 'begun' }, 'You began this form earlier. ', anew);
  }

  field(name) {
    return this.fields.find(it => it.field.name === name);
  }

  // A number that names its vendor chooses it.
  typed(event) {
    const named = this.fields.find(it => it.input === event.target)?.namedVendor, vendor = this.field('vendor');
    if (named && vendor?.field.from && known.vendors.has(named) && vendor.input.value !== named) {
      vendor.input.value = named;
      this.offered?.show();
    }
    keepDraft(this.name, this.written());
  }

  // What is written in each field, as it is written.
  written() {
    return Object.fromEntries(this.fields.map(it => [it.field.name, it.input.value]));
  }

  // The founding vendor is that of an order that names none.
  body() {
    const texts = Object.fromEntries(this.fields.map(it => [it.field.name, it.text]));
    if (this.field('vendor')?.field.from && texts.vendor === foundingVendor()) delete texts.vendor;
    return orderOf(this.kind, texts);
  }

  disable(isDisabled) {
    for (const it of this.element.elements) it.disabled = isDisabled;
  }

  // Whether a field is right. A number that names its vendor is one of the vendor of the form.
  isRight(it) {
    if (!it.isRight()) return false;
    const chosen = this.field('vendor')?.text || foundingVendor(), named = it.namedVendor;
    return !named || named === chosen || it.blame(`This is a number of vendor ${named}, and not of ${chosen}.`);
  }

  // Asks before an order that cannot be taken back. The question says what the registry says now; the fields alone, if
  // the order is about nothing that is there, or if that cannot be read.
  async isSure(body) {
    const { sure } = ORDERS[this.kind];
    if (!sure) return true;
    const fields = facts(...fieldsIn(body).map(([name, value]) => [name, written(value)]));
    const told = await about(body).catch(why => {
      if (why.body?.refused) throw why;
      return [fields, fault(why.message)];
    });
    return confirmed(sure, told ?? fields, this.words);
  }

  async submit(event) {
    event.preventDefault();
    const wrong = this.fields.filter(it => !this.isRight(it));
    if (wrong.length) return wrong[0].input.focus();
    const body = this.body();
    try {
      if (!await this.isSure(body)) return null;
    } catch (why) { return this.refused(why.body); }
    return this.sent(body);
  }

  // A draft ends once it is sent; a refused one is begun again.
  async sent(body) {
    const texts = this.written();
    this.disable(true);
    dropDraft(this.name);
    const got = await order(body, this.answer);
    if (got.done != null) return this.finish(body);
    this.disable(false);
    if (!got.key) keepDraft(this.name, texts);
    return got.refusal ? this.refused(got.refusal) : this.element.isConnected && this.send.focus();
  }

  // A refusal in words, beside the field that it is about.
  refused(refusal) {
    const blamed = fieldsOf(refusal).map(name => this.field(name)).find(Boolean);
    if (!blamed) return;
    blamed.blame(inWords(0, refusal));
    blamed.input.focus();
  }

  // Nobody gives an order twice by pressing its button twice.
  finish(body) {
    const after = h('p', { tabindex: -1 }, next(this.kind, body));
    this.send.remove();
    this.begun?.remove();
    this.answer.after(after);
    after.focus();
  }
}

// Whether the form has choices among all numbers and organisations.
const needsAll = kind => ORDERS[kind].fields.some(it => ['free', 'orgs', 'handed'].includes(it.from));

// The view of an order's form, or of all orders.
export async function orderView({ order: kind }, given) {
  await founded();
  if (!kind) return allOrders();
  if (needsAll(kind)) await loaded();
  const { words, told, isCurators } = ORDERS[kind];
  if (isCurators && !isCurator(me()?.name)) {
    return [words, h('p', { class: 'waits' }, 'This order is for curators. Sign in as one.')];
  }
  if (given.vendor && kind !== 'add-vendor' && !known.vendors.has(given.vendor)) return null;
  const form = new OrderForm(kind, await whatIsThere(kind, given), given);
  const isFirst = kind === 'ask' && me() && orgsKeptBy(me().name).length === 0;
  return [words, note(told),
    isFirst && h('p', {}, 'You keep no organisation yet: ', orderLink('enrol', 'enrol one first'), '.'), form.element];
}

function allOrders() {
  const of = isCurators => h('ul', {}, Object.entries(ORDERS).filter(([, it]) => Boolean(it.isCurators) === isCurators)
    .map(([kind, it]) => h('li', {}, orderLink(kind, it.words), ': ', soft(it.told))));
  return ['All orders', of(false), isCurator(me()?.name) && [h('h2', {}, 'For curators'), of(true)]];
}
