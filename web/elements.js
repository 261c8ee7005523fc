// Elements of the page. No element is made from text: what people wrote is only ever shown as text.

// An element with attributes, and children that are elements or texts. An attribute whose name begins with `on` is a
// listener; null, false and undefined stand for no attribute and no child.
export function h(tag, attributes = {}, ...children) {
  const element = document.createElement(tag);
  for (const [name, value] of Object.entries(attributes)) {
    if (value == null || value === false) continue;
    if (name.startsWith('on')) element.addEventListener(name.slice(2), value);
    else element.setAttribute(name, value === true ? '' : value);
  }
  add(element, children);
  return element;
}

function add(element, children) {
  for (const it of children) {
    if (Array.isArray(it)) add(element, it);
    else if (it != null && it !== false) element.append(it);
  }
}

export const byId = id => document.getElementById(id);

// Characters without a look of their own, and those that turn the direction of what follows: controls, formats, blanks
// other than the space, private and unassigned ones. A title may hide another one with them. Marks pile up on a
// letter, and reach over the lines beside it: after three they are one of these too.
const ODD = /([\p{C}\p{Zl}\p{Zp}\p{Default_Ignorable_Code_Point}\u2800]|(?! )\p{Zs}|(?<=\p{M}{3})\p{M}+)/u;
const codeOf = character => 'U+' + character.codePointAt(0).toString(16).toUpperCase().padStart(4, '0');
const toldOf = odd => /^\p{M}/u.test(odd) && !/^\p{Default_Ignorable_Code_Point}/u.test(odd) ? '…' : codeOf(odd);
// Most texts are plain ASCII, and quicker to see as such.
const partsOf = text => /^[ -~]*$/.test(text) ? [text] : text.split(ODD);

// What people wrote, with the odd characters as codes, and kept from turning the direction of its neighbours.
export function written(text) {
  return h('bdi', {}, partsOf(text).map((part, at) => at % 2 ? h('span', { class: 'odd' }, toldOf(part)) : part));
}

// The same where no element can stand, as in the title of the window.
export const spelt = text => partsOf(text).map((part, at) => at % 2 ? `<${toldOf(part)}>` : part).join('');

// A link to elsewhere, with the host that it leads to beside it: a link may have a name and a password in front of the
// host, or a host in letters that look like others. What is no link of the web is only shown.
export function outside(text) {
  let url;
  try { url = new URL(text); } catch { return written(text); }
  if (!/^https?:$/.test(url.protocol)) return written(text);
  const isOdd = url.username !== '' || url.password !== '' || /(^|\.)xn--/.test(url.hostname);
  return h('span', { class: 'outside' },
    h('a', { href: url.href, rel: 'noopener noreferrer nofollow ugc' }, written(text)), ' ',
    h('span', { class: isOdd ? 'host fault' : 'host' }, isOdd ? `leads to ${url.host}` : `at ${url.host}`));
}

// The day of a time of the record, as it is here; who points at it sees the whole time. A day that its month does not
// have is only shown.
const FORM = { day: 'numeric', month: 'short', year: 'numeric' };
let days;
export function day(at) {
  const time = new Date(at);
  if (Number.isNaN(time.getTime())) return written(at);
  days ??= new Intl.DateTimeFormat('en-GB', FORM);
  return h('time', { datetime: at, title: at }, days.format(time));
}

// Links inside the page.
export const numberLink = (vid, pid) => h('a', { href: `#/number/${vid}/${pid}`, class: 'code' }, `${vid}:${pid}`);
export const orgLink = org => h('a', { href: `#/org/${org}` }, org);
export const petitionLink = id => h('a', { href: `#/petition/${id}` }, `petition ${id}`);
export const orderLink = (order, words, given = {}) => h('a', { href: addressOf(`do/${order}`, given) }, words);

// The address of a view, with what follows the question mark. What is empty is left out.
export function addressOf(path, given = {}) {
  const there = Object.entries(given).filter(([, value]) => value != null && value !== '');
  return `#/${path}${there.length ? `?${new URLSearchParams(there)}` : ''}`;
}

export const state = name => h('span', { class: `state ${name}` }, name);
export const soft = (...parts) => h('span', { class: 'soft' }, parts);
export const note = (...parts) => h('p', { class: 'soft' }, parts);
export const fault = (...parts) => h('p', { class: 'fault' }, parts);
export const grouped = count => String(count).replace(/\B(?=(\d{3})+$)/g, ',');
export const counted = (count, one, many = `${one}s`) => `${grouped(count)} ${count === 1 ? one : many}`;

export function button(words, onclick, attributes = {}) {
  return h('button', { type: 'button', onclick, ...attributes }, words);
}

// What one may do here, in a row.
export const choices = (...links) => h('ul', { class: 'choices' }, links.filter(Boolean).map(it => h('li', {}, it)));

// What one searches with. It searches while one types, so Enter does nothing.
export function searchBar(...labels) {
  return h('form', { class: 'bar', role: 'search', onsubmit: event => event.preventDefault() }, labels);
}

export function searchBox(value, oninput) {
  return h('input', { type: 'search', id: 'query', autocomplete: 'off', spellcheck: 'false', value, oninput });
}

// The words that were typed there, in lower case.
export const typedWords = text => text.toLowerCase().split(/\s+/).filter(Boolean);

// A choice among values with words for each.
export function select(attributes, options, chosen) {
  return h('select', attributes, options.map(([value, words]) =>
    h('option', { value, selected: value === chosen }, words)));
}

// Links to the pages before and after the one that is shown, from their addresses: null where there is none.
export function pager(names, addresses) {
  const link = (name, address) => address
    ? h('a', { href: address, class: 'leaf' }, name) : h('span', { class: 'leaf', 'aria-disabled': 'true' }, name);
  return h('nav', { class: 'buttons', 'aria-label': 'More' }, names.map((name, at) => link(name, addresses[at])));
}

// What a page with so many things shows of a list, from page 1 on, in words and as links to its neighbours. The address
// of the first page names none.
export function paged(list, page, most, address) {
  const last = Math.max(1, Math.ceil(list.length / most)), now = Math.min(Math.max(page, 1), last);
  const first = (now - 1) * most, shown = list.slice(first, first + most);
  const words = list.length > most ? `; ${grouped(first + 1)} to ${grouped(first + shown.length)} shown` : '';
  const at = it => it >= 1 && it <= last ? address(it > 1 ? it : '') : null;
  return { shown, words, links: last > 1 ? [pager(['Previous', 'Next'], [at(now - 1), at(now + 1)])] : [] };
}

// Names and their values, without those that have none.
export function facts(...pairs) {
  const there = pairs.filter(([, value]) => value != null);
  return h('dl', {}, there.map(([name, value]) => [h('dt', {}, name), h('dd', {}, value)]));
}

const cellOf = (cell, [name, kind]) => h('td', { class: kind, 'data-head': name }, cell);

// A table with a caption for those who hear it. A head is a text, or a text and the classes of its column: `few` for
// short texts, `long` for the longest.
export function table(caption, heads, rows) {
  const columns = heads.map(it => [it].flat());
  return h('div', { class: 'wide-table' }, h('table', {},
    h('caption', { class: 'unseen' }, caption),
    h('thead', {}, h('tr', {}, columns.map(([name, kind]) => h('th', { scope: 'col', class: kind }, name)))),
    h('tbody', {}, rows.map(cells => h('tr', {}, cells.map((cell, at) => cellOf(cell, columns[at])))))));
}

// What comes later, in its place: a note until then, and a way to try again if it does not come.
export function later(waiting, making) {
  const place = h('div', {}, note(waiting));
  const fill = async () => {
    try {
      place.replaceChildren(...[await making()].flat(Infinity).filter(it => it != null && it !== false));
    } catch (why) { place.replaceChildren(fault(why.message), button('Try again', fill)); }
  };
  fill();
  return place;
}
