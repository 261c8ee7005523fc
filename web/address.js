// Addresses of views. Each is read once, into one value for each of its parts, numbers and names in lower case; or it
// is the address of no view.

import { check, ORDERS } from './orders.js';

// The parts of the address of a view, and what may follow the question mark: the kind of each. A part whose name ends
// in `?` may be missing.
const page = { page: 'petition' };
const FORMS = {
  numbers: [{ 'vendor?': 'id' }, { q: 'text', state: 'text', ...page }],
  number: [{ vendor: 'id', number: 'id' }, {}],
  map: [{ 'vendor?': 'id' }, { at: 'id' }],
  orgs: [{}, { q: 'text', ...page }],
  org: [{ org: 'slug' }, {}],
  petition: [{ petition: 'petition' }, {}],
  record: [{ 'place?': 'petition' }, {}],
  me: [{}, {}],
  rules: [{}, {}],
  decide: [{}, { q: 'text', vendor: 'id', sort: 'text', ...page }],
  do: [{ 'order?': 'text' }, {}],
};

// The value of a text of a kind, or null if it is none.
function valueOf(kind, text) {
  if (kind === 'text' || kind === 'title' || kind === 'link') return text;
  const value = text.toLowerCase();
  return check(kind, value) === '' ? value : null;
}

// The value of each name that is there. The texts and the kinds have the same names.
function valuesOf(kinds, texts) {
  const values = Object.entries(kinds).filter(([name]) => texts[name] !== undefined)
    .map(([name, kind]) => [name, valueOf(kind, texts[name])]);
  return values.some(([, value]) => value === null) ? null : Object.fromEntries(values);
}

function partsOf(kinds, parts) {
  const names = Object.keys(kinds), isMissing = parts.length < names.filter(it => !it.endsWith('?')).length;
  if (isMissing || parts.length > names.length) return null;
  const plain = names.map(it => it.replace('?', ''));
  return valuesOf(Object.fromEntries(plain.map((it, at) => [it, Object.values(kinds)[at]])),
    Object.fromEntries(plain.map((it, at) => [it, parts[at]])));
}

// The fields of an order that its address may give.
const fieldsOf = order => Object.fromEntries(ORDERS[order].fields.map(it => [it.name, it.kind]));

// The name of a view, the values of the parts of its address, and those that follow the question mark. Null if no view
// has this address.
export function readAddress(hash) {
  const [path, query = ''] = hash.replace(/^#?\/?/, '').split(/\?([^]*)/);
  const [name = '', ...parts] = path.split('/'), view = name || 'numbers';
  if (!Object.hasOwn(FORMS, view)) return null;
  const [kinds, more] = FORMS[view], values = partsOf(kinds, parts);
  if (values?.order !== undefined && !Object.hasOwn(ORDERS, values.order)) return null;
  const kindsGiven = values?.order ? fieldsOf(values.order) : more;
  const given = valuesOf(kindsGiven, Object.fromEntries(new URLSearchParams(query)));
  return values && given && { view, values, given };
}

// The address in the page of an address of the server: a number, a vendor or an organisation, as at pid.codes.
export function addressAt(path) {
  const [, vendor, number] = path.match(/^\/([0-9a-f]{4})(?:\/([0-9a-f]{4}))?\/?$/i) ?? [];
  const [, org] = path.match(/^\/org\/([a-z0-9-]{1,32})\/?$/i) ?? [];
  if (org) return `#/org/${org}`;
  if (!vendor) return '';
  return number ? `#/number/${vendor}/${number}` : `#/numbers/${vendor}`;
}
