// An order on its way: what is said of it, and the orders at the top of the page that have no answer yet.

import { confirmed } from './dialogs.js';
import { button, byId, facts, h, numberLink, orgLink, petitionLink, written } from './elements.js';
import { isSending, kept, send, sendKept } from './kept.js';
import { fieldsIn, wordsOf } from './orders.js';
import { jsonOr, readReply } from './reading.js';
import { foundingVendor, learnOrder } from './registry.js';

// The words of a reply, with links. That to a new licence has its name, which is anybody's text.
export function reply(done) {
  const { deed, vendor, number, org, keeper, petition } = readReply(done) ?? {};
  if (number) {
    const by = petition ? [' to ', orgLink(org), ' by ', petitionLink(petition)] : [];
    return [`${deed} `, numberLink(vendor ?? foundingVendor(), number), ...by];
  }
  if (org) return [`${deed} `, orgLink(org), keeper && ` over to ${keeper}`].filter(Boolean);
  return petition ? [deed && `${deed} `, petitionLink(petition)] : [written(done)];
}

// Where an order is told of. It is read aloud when it changes.
export const placeForAnswer = () => h('p', { class: 'answer', role: 'status' });

// A place at the top of the page, for an order whose own place went with its view.
function placeAtTop(what) {
  const place = placeForAnswer(), article = h('article', { class: 'note' }, h('h2', {}, what), place,
    h('div', { class: 'buttons' }, button('Close', () => article.remove())));
  byId('news').append(article);
  return place;
}

// What is known of a kept order, as it is kept now: also another window may have tried it.
const UNSURE = 'It may have been acted on. Sending it again cannot do it twice.';
const SURE = 'It was not acted on.';
const GONE = 'It has its answer by now, or was forgotten.';
const knownOf = key => {
  const it = kept.get(key);
  return it ? it.doubts > 0 ? UNSURE : SURE : GONE;
};
const knownPlace = key => h('span', { 'data-known': key }, knownOf(key));

function showKnown() {
  for (const it of document.querySelectorAll('[data-known]')) {
    if (it.textContent !== knownOf(it.dataset.known)) it.textContent = knownOf(it.dataset.known);
  }
}

const STANDS = ' The order is kept at the top of the page: send it again later.';

// What is said of the end of an order.
function ending({ done, words, key }) {
  if (done != null) return ['good', 'Done: ', ...reply(done), '.'];
  return ['fault', words, ...(key && kept.get(key) ? [' ', knownPlace(key), STANDS] : [])];
}

// Says in a place of the page what becomes of an order, and returns what `sending` does. If the place goes with its
// view, it is said at the top.
async function act(what, place, sending) {
  const tell = (kind, ...parts) => {
    if (!place.isConnected) place = placeAtTop(what);
    place.className = `answer ${kind}`;
    place.replaceChildren(...parts);
  };
  tell('', 'Sending …');
  const got = await sending(text => tell('', text));
  tell(...ending(got));
  return got;
}

const titleOf = (caller, body) => `${caller}: ${wordsOf(body)}`;

// What is not learned now is asked for by the next view.
const learn = (body, done) => learnOrder(body, done).catch(() => {});

// Sends an order and tells of it in a place of the page.
export async function order(body, place) {
  const got = await act(wordsOf(body), place, tell => send(body, tell));
  if (got.done != null) await learn(body, got.done);
  showPending();
  return got;
}

// Sends a kept order again, and takes its buttons away once it is kept no more.
async function sendAgain({ key, caller }, body, place, { again, parts }) {
  again.disabled = true;
  const got = await act(titleOf(caller, body), place, tell => sendKept({ key, caller }, tell));
  again.disabled = false;
  if (!kept.get(key)) for (const it of parts) it.remove();
  showKnown();
  if (got.done != null) await learn(body, got.done);
}

async function forget(key) {
  const told = kept.get(key)?.doubts > 0
    ? 'It may have been acted on. Look whether it was before you give the same order again.' : SURE;
  if (!await confirmed('Forget this order?', h('p', {}, told), 'Forget it')) return;
  kept.drop(key);
  showPending();
}

function pendingOrder({ key, caller, ...it }) {
  const body = jsonOr(it.body, {}), place = placeForAnswer(), parts = [];
  const known = h('p', {}, 'This order has no answer yet. ', knownPlace(key));
  const again = button('Send it again',
    () => sendAgain({ key, caller }, body, place, { again, parts }), { class: 'main' });
  parts.push(known, h('div', { class: 'buttons' }, again, button('Forget it', () => forget(key))));
  return h('article', { class: 'note', 'data-key': key }, h('h2', {}, titleOf(caller, body)), known,
    facts(...fieldsIn(body).map(([name, value]) => [name, written(value)])), parts[1], place);
}

// Shows the orders without an answer. Those that stand there stay as they are, with what was told of them.
export function showPending() {
  showKnown();
  if (isSending()) return;
  const section = byId('pending'), there = new Map([...section.children].map(it => [it.dataset.key, it]));
  section.replaceChildren(...kept.all().map(it => there.get(it.key) ?? pendingOrder(it)));
  section.hidden = section.children.length === 0;
}

addEventListener('storage', showPending);
addEventListener('beforeunload', event => { if (isSending()) event.preventDefault(); });
