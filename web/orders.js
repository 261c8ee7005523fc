// The orders that a person may give, as one table: the words for each, its fields with the rules that can be checked
// while one types, and its reply. Forms, their addresses and the reading of replies come from it, and so do the tests
// of these. The registry checks all rules again.

const bytesOf = text => new TextEncoder().encode(text).length;

// A number as people write it, such as 1209:0011, 1209/0011, VID_1209&PID_0011, 0x0011 or 11, also with a stop behind
// it: its digits, and those of its vendor if it names one. Null if it is none.
export function numberIn(text) {
  const it = text.trim().replace(/[.,;/]+$/, '').toLowerCase();
  const [, vendor, number] = it.match(/^(?:usb\\)?vid_([0-9a-f]{4})&pid_([0-9a-f]{4})(?:[&\\].*)?$/)
    ?? it.match(/^(?:0x)?([0-9a-f]{4})[:/](?:0x)?([0-9a-f]{1,4})$/)
    ?? it.match(/^()(?:0x|pid_)?([0-9a-f]{1,4})$/) ?? [];
  return number === undefined ? null : { vendor: vendor || null, number: number.padStart(4, '0') };
}

const CHECKS = {
  slug: text => /^[a-z0-9-]{1,32}$/.test(text) ? '' : 'Use 1 to 32 of the characters a to z, 0 to 9 and -.',
  title(text) {
    if (bytesOf(text) > 200) return `This has ${bytesOf(text)} bytes; at most 200 are kept.`;
    if (/[\u0000-\u001f\u007f]/.test(text)) return 'This has a control character, such as a tab.';
    return /^ | $/.test(text) ? 'This begins or ends with a space.' : '';
  },
  link(text) {
    if (bytesOf(text) > 4096) return 'This is longer than 4,096 bytes.';
    if (!URL.canParse(text)) return 'This is not a whole web address. It begins with https:// or http://.';
    const url = new URL(text);
    if (!/^https?:$/.test(url.protocol)) return 'A web address begins with https:// or http://.';
    if (url.href.length <= 400) return '';
    return `As it would be kept, this has ${url.href.length} characters; at most 400 are kept.`;
  },
  id(text) {
    if (!/^[0-9a-f]{4}$/i.test(text)) return 'Use four hexadecimal digits, such as 00ab.';
    return text === '0000' ? '0000 is no number.' : '';
  },
  petition(text) {
    return /^[1-9][0-9]{0,9}$/.test(text) && Number(text) < 2 ** 32 ? '' : 'Use a whole number from 1 on.';
  },
};

// Says what is wrong with a text of this kind, or nothing.
export const check = (kind, text) => CHECKS[kind](text);

// The kind names the check, and `from` where the form has choices from, if it has any.
const field = (name, kind, label, hint, more = {}) => ({ name, kind, label, hint, ...more });

const DIGITS = 'Four hexadecimal digits.';
const newOrg = field('org', 'slug', 'Short name',
  'It stands in addresses and lists, and stays for good: a to z, 0 to 9 and -.');
const orgFrom = from => field('org', 'slug', 'Organisation', 'Its short name.', { from });
const org = orgFrom('orgs');
const orgTitle = field('title', 'title', 'Name', 'The name that people see, at most 200 bytes.');
const title = field('title', 'title', 'Title', 'The name of the product, as hosts show it; at most 200 bytes.');
const site = field('site', 'link', 'Web page', 'It begins with https:// or http://.');
const source = field('source', 'link', 'Source', 'Where the design files or the program text are.');
const licence = field('licence', 'title', 'Licence', 'One that the registry allows.', { from: 'licences' });
const newLicence = field('licence', 'title', 'Licence', 'As it is to be written, such as MIT.');
const vendor = field('vendor', 'id', 'Vendor', 'Whose numbers.', { from: 'vendors', optional: true });
const newVendor = field('vendor', 'id', 'Vendor ID', DIGITS);
const vendorName = field('name', 'title', 'Name', 'The name that hosts show, at most 200 bytes.');
const number = field('number', 'id', 'Number', DIGITS);
const wanted = field('number', 'id', 'Number',
  `${DIGITS} Leave it empty for the least free number.`, { from: 'free', optional: true });
const granted = field('number', 'id', 'Number',
  'Leave it empty for the one that is wanted, or the least free one.', { optional: true });
const petition = field('petition', 'petition', 'Petition', 'Its number.');
const keeper = field('keeper', 'slug', 'New keeper', 'The name that this person signs in with.');
const reason = field('reason', 'title', 'Reason', 'It stands in the record, for all to read; at most 200 bytes.');
const whyNot = { ...reason, hint: 'The maker and all others can read it; at most 200 bytes.', optional: true };
const first = field('first', 'id', 'First number', DIGITS);
const last = field('last', 'id', 'Last number', DIGITS);

const terms = [title, licence, site, source];

// What a reply names stands in braces; a reply that names nothing is left out. `ends` is the state in which an order
// leaves its petition, and `sure` the question before an order that cannot be taken back.
const order = (words, told, fields, reply, more = {}) => ({ words, told, fields, reply, ...more });
const curators = { isCurators: true };
const sure = (question, more = {}) => ({ sure: question, ...more });
const ends = (state, more = {}) => ({ ends: state, ...more });

export const ORDERS = {
  enrol: order('Enrol an organisation', 'You become its keeper: only you can ask for numbers for it.',
    [newOrg, orgTitle, site], 'enrolled {org}'),
  'amend-org': order('Change an organisation', 'Only its keeper can.', [org, orgTitle, site],
    'amended organisation {org}'),
  'hand-over': order('Hand an organisation over', 'Its keeper can, and so can a curator if the keeper is gone.',
    [orgFrom('handed'), keeper], 'handed {org} over to {keeper}', sure('Hand this organisation over?')),
  ask: order('Ask for a number', 'A curator looks at your petition, and grants or declines it.',
    [org, vendor, wanted, ...terms], '{petition}'),
  amend: order('Change what a number says', 'Only the keeper of its organisation can.', [vendor, number, ...terms],
    'amended {number}'),
  return: order('Return a number', 'It stays with its organisation: nobody else can get it.', [vendor, number],
    'returned {number}', sure('Return this number?')),
  withdraw: order('Withdraw a petition', 'Only the keeper of its organisation can.', [petition],
    'withdrawn {petition}', sure('Withdraw this petition?', ends('withdrawn'))),
  grant: order('Grant a petition', 'Its organisation then holds the number.', [petition, granted],
    'granted {number} to {org} by {petition}', sure('Grant this petition?', ends('granted', curators))),
  decline: order('Decline a petition', 'Say why: the maker can ask again.', [petition, whyNot],
    'declined {petition}', sure('Decline this petition?', ends('declined', curators))),
  correct: order('Correct a number', 'It puts right what the number of any organisation says.',
    [vendor, number, ...terms], 'corrected {number}', curators),
  'correct-org': order('Correct an organisation', 'It puts right the name or the web page of any organisation.',
    [orgFrom(null), orgTitle, site], 'corrected organisation {org}', curators),
  revoke: order('Revoke a number', 'Its organisation no longer holds it, and nobody else can get it.',
    [vendor, number, reason], 'revoked {number}', sure('Revoke this number?', curators)),
  reserve: order('Reserve numbers', 'Nobody gets a reserved number until it is released.', [vendor, first, last],
    'reserved {span}', curators),
  release: order('Release numbers', 'Released numbers are free again.', [vendor, first, last],
    'released {span}', curators),
  'add-licence': order('Allow a licence', 'No order takes it back.', [newLicence], null,
    sure('Allow this licence for good?', curators)),
  'add-vendor': order('Add a vendor', 'No order takes it back.', [newVendor, vendorName], null,
    sure('Add this vendor for good?', curators)),
};

// Says what is wrong with the text of a field, or nothing.
export function wrongIn(field, text) {
  if (text === '') return field.optional ? '' : 'This is needed.';
  return check(field.kind, text);
}

// The value that is written into a field: of a number its four digits, however it is written. Blanks around all but a
// title may have been copied with it.
export function valueIn(field, text) {
  if (field.kind === 'title') return text;
  return field.kind === 'id' ? numberIn(text)?.number ?? text.trim() : text.trim();
}

// The order of what was written into its fields. What is empty is left out.
export function orderOf(kind, texts) {
  const order = { order: kind };
  for (const { name } of ORDERS[kind].fields) {
    if (texts[name]) order[name] = name === 'petition' ? Number(texts[name]) : texts[name];
  }
  return order;
}

// The state in which an order leaves its petition, if it closes one.
export const endBy = kind => ORDERS[kind]?.ends;

// The words for an order, and the names and values of its fields.
export const wordsOf = body => ORDERS[body.order]?.words ?? 'An order';
export const fieldsIn = body => (ORDERS[body.order]?.fields ?? [])
  .filter(it => body[it.name] != null).map(it => [it.label, String(body[it.name])]);
