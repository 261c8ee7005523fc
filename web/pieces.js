// Pieces that several views show.

import { counted, facts, note, numberLink, orgLink, outside, select, state, table, written, h } from './elements.js';
import { known, numberNow, numbersOf, orgNow, petitionNow, foundingVendor } from './registry.js';
import { STATES, hex } from './vendor.js';

// A choice between the vendors, if there are several, which is told of each change.
export function vendorChoice(vid, chosen, more = []) {
  if (known.vendors.size < 2) return null;
  const options = [...known.vendors.values()].map(it => [it.vid, `${it.vid} ${it.name}`]);
  const onchange = event => chosen(event.target.value);
  return h('label', {}, 'Vendor', select({ onchange }, [...more, ...options], vid));
}

// The numbers of an organisation.
export function numbersTable(org, most = Infinity) {
  const owned = numbersOf(org);
  if (owned.length === 0) return note('none');
  const cells = ({ vendor, pid }) =>
    [numberLink(vendor.vid, hex(pid)), written(vendor.titles[pid]), state(STATES[vendor.states[pid]])];
  return [
    table('Numbers', [['Number', 'code few'], ['Title', 'long'], ['State', 'few']], owned.slice(0, most).map(cells)),
    owned.length > most && note(`and ${counted(owned.length - most, 'other')}`),
  ];
}

// What a number is now, as far as is known.
export function standingOf(vid, digits) {
  const vendor = known.vendors.get(vid), pid = parseInt(digits, 16);
  return { state: STATES[vendor?.states[pid] ?? 0], owner: vendor?.owners[pid] ?? '' };
}

// What stands where the registry could not be asked.
export const sayOld = () => note('The registry is down: this is what the last reports said.');

// The number that a petition wants, as it is shown, and where all numbers are known what it is now.
const wished = (it, shown) => it.want ? shown(it.vid, it.want) : `any number of ${it.vid}`;
export const wish = it => wished(it, numberLink);
export function wishNow(petition) {
  if (!petition.want) return wish(petition);
  const now = standingOf(petition.vid, petition.want);
  return [wish(petition), ', now ', state(now.state), now.owner && [' by ', orgLink(now.owner)]];
}

// An organisation with its keeper, as a page says it.
export function orgAndKeeper(slug, { title, keeper }) {
  return [written(title), ' (', orgLink(slug), '), kept by ', keeper];
}

// What a petition asks for, but for the number.
export const termsOf = it => [
  ['Licence', it.licence == null ? null : written(it.licence)],
  ['Web page', it.site == null ? null : outside(it.site)], ['Source', it.source == null ? null : outside(it.source)],
];

// An organisation in a question, where nothing is a link.
const named = (slug, org) => org ? [written(org.title), ` (${slug})`] : slug;

// What a question about a petition says, and more facts of the order.
export function aboutPetition(it, org = known.orgs.get(it.org), ...more) {
  const wants = wished(it, (vid, number) => `${vid}:${number}, now ${standingOf(vid, number).state}`);
  return facts(['Petition', String(it.id)], ['Organisation', named(it.org, org)], ['Title', written(it.title)],
    ['Wants', wants], ...more);
}

// What a question about a number says, and more facts of the order.
function aboutNumber(vid, it, org, ...more) {
  return facts(['Number', `${vid}:${it.number}`], ['State', it.state],
    ['Title', it.title == null ? null : written(it.title)], ['Organisation', it.org ? named(it.org, org) : null],
    ...more);
}

// What a question about handing an organisation over says.
async function aboutKeeper({ org: slug, keeper }) {
  const org = await orgNow(slug);
  return facts(['Organisation', named(slug, org)], ['Keeper', org.keeper], ['New keeper', keeper]);
}

// What a question about an order says of the number, the organisation or the petition that it names, as the registry
// says it now.
export async function about(body) {
  if (body.keeper) return aboutKeeper(body);
  const reason = ['Reason', body.reason ? written(body.reason) : null];
  if (body.petition) {
    const it = await petitionNow(body.petition), org = await orgNow(it.org);
    return aboutPetition(it, org, ['Number to grant', body.number ? `${it.vid}:${body.number}` : null], reason);
  }
  if (!body.number) return null;
  const vid = body.vendor ?? foundingVendor(), it = await numberNow(vid, body.number);
  const org = it.org ? await orgNow(it.org) : null;
  return aboutNumber(vid, it, org, reason);
}
