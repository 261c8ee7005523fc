// What the registry answers, in the forms of docs/requests.md: refusals in words, replies, and reports.

import { ORDERS } from './orders.js';

// A refusal of the registry by its number: the words for it, and the fields that it may be about.
const REFUSALS = {
  1: [() => 'This key was used for another order.'],
  2: [() => 'Only a curator can do this.'],
  3: [() => 'Only the keeper of the organisation can do this.', 'org', 'number', 'petition'],
  4: [() => 'No such organisation is enrolled.', 'org'],
  5: [() => 'This short name is taken by another organisation.', 'org'],
  6: [() => 'There is no such petition.', 'petition'],
  7: [() => 'This petition is closed already.', 'petition'],
  8: [() => 'This number is reserved.', 'number'],
  9: [owner => `This number belongs to ${owner}.`, 'number'],
  10: [() => 'The organisation holds this number already.', 'number'],
  11: [() => 'Nobody holds this number.', 'number'],
  12: [() => 'No number is free.', 'number'],
  13: [() => 'The registry does not allow this licence.', 'licence'],
  14: [() => 'This organisation has 16 open petitions. Wait for a curator, or withdraw one.', 'org'],
  15: [pid => `The number ${pid} of this span has an owner.`, 'first'],
  16: [() => 'A number of this span is reserved for good.', 'first'],
  17: [() => 'A number of this span is not reserved.', 'first'],
  18: [() => 'The registry is full.'],
  26: [() => 'The registry does not take your name as a name.'],
  28: [name => `The registry does not take this: ${name}.`],
  30: [() => 'The registry had a fault.'],
  31: [() => 'The registry ran out of memory.'],
  33: [() => 'The registry has this vendor already.', 'vendor'],
  34: [() => 'The registry has no such vendor.', 'vendor'],
  35: [() => 'This licence is allowed already.', 'licence'],
};

const STATUSES = {
  0: 'There was no whole answer: the connection failed.',
  400: 'The registry could not read the message.',
  401: 'The name or the password is wrong.',
  403: 'This is not for everybody.',
  413: 'This is too long.',
  429: 'There were too many messages from you.',
  502: 'The registry is down for the moment.',
  503: 'The registry has too many messages for the moment.',
  504: 'The registry took too long.',
};

export function inWords(status, body) {
  if (!body.refused) return STATUSES[status] ?? `The answer has status ${status}.`;
  const [words] = REFUSALS[body.refused] ?? [() => `The registry refused this: ${body.name}.`];
  return words(body.detail);
}

// The names of the fields that a refusal may be about; that of a bad field is its detail.
export function fieldsOf(body) {
  return body.refused === 28 ? [body.detail] : REFUSALS[body.refused]?.slice(1) ?? [];
}

export function jsonOr(text, otherwise) {
  try { return JSON.parse(text) ?? otherwise; } catch { return otherwise; }
}

// What a reply may name: how it is written, and the names of its parts. A number of the founding vendor stands alone.
const NAMED = {
  number: ['(?:(.{4}):)?([0-9a-f]{4})', 'vendor', 'number'],
  span: ['(?:(.{4}):)?([0-9a-f]{4})-([0-9a-f]{4})', 'vendor', 'first', 'last'],
  org: ['(\\S+)', 'org'], keeper: ['(\\S+)', 'keeper'], petition: ['petition (\\d+)', 'petition'],
};

// The deed of a reply, which stands before all that it names, its whole form, and the names of the parts.
function formOf(reply) {
  const parts = reply.split(/\{(\w+)\}/), written = parts.map((it, at) => at % 2 ? NAMED[it][0] : it);
  const names = parts.flatMap((it, at) => at % 2 ? NAMED[it].slice(1) : []);
  return { deed: parts[0].trim(), form: new RegExp(`^${written.join('')}$`), names };
}

const REPLIES = Object.values(ORDERS).filter(it => it.reply).map(it => formOf(it.reply));

// What a reply names: the deed, and the vendor unless it is the founding one, the number, the organisation, the
// petition or the span. Null if it names none of them.
export function readReply(done) {
  for (const { deed, form, names } of REPLIES) {
    const parts = done.match(form);
    if (parts) return { deed, ...Object.fromEntries(names.map((name, at) => [name, parts[at + 1]])) };
  }
  return null;
}

// Lines end at line feeds only: a title may have U+0085 or U+2028.
export const linesOf = text => text.split('\n').filter(line => line !== '');

// `VVVV  PPPP  STATE`, and for a number with an owner its organisation in 32 columns, and its title. Everything before
// the title is ASCII.
export function* readNumbers(text) {
  for (const line of linesOf(text)) {
    yield {
      vid: line.slice(0, 4), pid: parseInt(line.slice(6, 10), 16), state: line.slice(12, 20).trimEnd(),
      owner: line.slice(22, 54).trimEnd(), title: line.slice(56),
    };
  }
}

// The slug in 32 columns, the keeper in 32 columns, and the title.
export const readOrganisations = text => linesOf(text).map(line =>
  [line.slice(0, 32).trimEnd(), { keeper: line.slice(34, 66).trimEnd(), title: line.slice(68) }]);

// The number of the petition, the organisation, the number that it wants, and the title. No column but the last has
// spaces, and it begins with none.
export const readPetitions = text => linesOf(text)
  .map(line => line.match(/^ *(\d+) +(\S+) +(?:([0-9a-f]{4}):)?(any|[0-9a-f]{4}) +([^]*)$/))
  .map(([, id, org, vendor, want, title]) =>
    ({ id: Number(id), org, vendor, want: want === 'any' ? null : want, title }));

// A file of entries: the place up to which it leaves out what is older, and below it each entry behind its number.
export function readStory(text) {
  const [left, ...lines] = linesOf(text);
  const entryOf = line => {
    const at = line.indexOf(' ');
    return [Number(line.slice(0, at)) - 1, JSON.parse(line.slice(at + 1))];
  };
  return { left: Number(left), list: lines.map(entryOf) };
}
