// The page: which view is shown at which address, and what stands around it.

import { addressAt, readAddress } from './address.js';
import { Refused, isThere, onDown } from './asking.js';
import { button, byId, h, note, spelt } from './elements.js';
import { founded, isCurator, known } from './registry.js';
import { me, onSession, signIn, signOut } from './session.js';
import { showPending } from './acting.js';
import { numberView, numbersView } from './numbers.js';
import { mapView } from './map.js';
import { mineView, orgView, orgsView } from './makers.js';
import { petitionView } from './petition.js';
import { recordView } from './record.js';
import { decideView } from './decide.js';
import { orderView } from './forms.js';
import { rules, rulesView } from './rules.js';

// Each view takes the values of its address, and returns a heading and elements, or null.
const VIEWS = {
  numbers: numbersView, number: numberView, map: mapView, orgs: orgsView, org: orgView, petition: petitionView,
  record: recordView, me: mineView, decide: decideView, do: orderView, rules: rulesView,
};

const NONE = ['No such page', h('p', {}, h('a', { href: '#/' }, 'All numbers'))];

// What an address shows, whichever vendor it names: a view, or the form of an order.
const kindOf = address => address?.view === 'do' ? `do/${address.values.order}` : address?.view;

async function viewNow(address) {
  try {
    return address && await VIEWS[address.view](address.values, address.given) || NONE;
  } catch (why) {
    // what the registry does not have
    if (why instanceof Refused && why.status === 404 && why.body.refused) return [NONE[0], note(why.message), NONE[1]];
    const words = why instanceof Refused ? why.message : `A fault of the page: ${why.message}`;
    return ['This cannot be shown', h('p', { class: 'fault', role: 'alert' }, words), button('Try again', () => go())];
  }
}

// Shows the view at this address, unless another one was asked for meanwhile. Its heading gets the focus if one came
// here by a link, so that it is read aloud.
let turn = 0;
async function go(isFollowed = false, isForOrder = false) {
  const mine = turn += 1, address = readAddress(location.hash);
  for (const link of document.querySelectorAll('header nav a')) {
    const isHere = address && kindOf(readAddress(link.hash)) === kindOf(address);
    if (isHere) link.setAttribute('aria-current', 'page');
    else link.removeAttribute('aria-current');
  }
  byId('main').setAttribute('aria-busy', 'true');
  // the proxy holds a question for a while if the server is down
  const slow = setTimeout(() => { if (mine === turn) byId('main').prepend(note('It is read …')); }, 1000);
  const [heading, ...parts] = await viewNow(address);
  clearTimeout(slow);
  if (mine !== turn) return;
  const head = h('h1', { tabindex: -1 }, heading);
  document.title = `${spelt(head.textContent)} – ${nameOfAll()}`;
  byId('main').replaceChildren(head, ...parts.flat(Infinity).filter(it => it != null && it !== false));
  byId('main').setAttribute('aria-busy', 'false');
  if (!isForOrder) showPending();
  if (!isFollowed) return;
  scrollTo(0, 0);
  head.focus();
}

const nameOfAll = () => spelt(known.founding?.name ?? 'USB numbers');

async function showSession() {
  byId('me').hidden = byId('sign-out').hidden = me() === null;
  byId('sign-in').hidden = me() !== null;
  byId('me').replaceChildren(h('span', {}, 'Signed in as '), h('b', {}, me()?.name ?? ''));
  if (me()) await founded().catch(() => { /* the view says so */ });
  byId('to-decide').hidden = !isCurator(me()?.name);
}

byId('sign-in').addEventListener('click', async () => { if (await signIn()) go(true); });
byId('sign-out').addEventListener('click', () => {
  signOut();
  go(true);
});
onSession(showSession);
// A view that waits for a person is shown once somebody signed in, also for an order at the top of the page, whose
// answer stays there.
onSession(() => { if (me() && document.querySelector('main .waits')) go(false, true); });
onDown(isDown => { byId('down').hidden = !isDown; });
addEventListener('hashchange', () => go(true));
// A link to the view that is shown shows it anew.
document.addEventListener('click', event => {
  const link = event.target.closest?.('a[href^="#/"]');
  const isPlain = event.button === 0 && !event.ctrlKey && !event.metaKey && !event.shiftKey;
  if (link && isPlain && link.hash === (location.hash || '#/')) go(true);
});
document.querySelector('.skip').addEventListener('click', event => {
  event.preventDefault();
  byId('main').focus();
});
if (addressAt(location.pathname)) history.replaceState(null, '', `/${location.hash || addressAt(location.pathname)}`);
const showName = () => { document.querySelector('.brand a').textContent = nameOfAll(); };
founded().then(showName, () => { /* the view says so */ });
rules().then(text => { byId('to-rules').hidden = text === ''; });
showSession();
go().then(() => isThere('/feeds/all.xml')).then(it => { byId('to-feed').hidden = !it; });
