// Tests what of the page needs no browser, by `node --test`: the page's table of orders against that of docs/requests.md, and
// from it the forms, their addresses and the reading of replies; the reading of numbers, refusals and reports. `in_node.py`
// runs it, with the folder of the page in the variable WEB and that of the repository in TOP.

import assert from 'node:assert/strict';
import { readFileSync } from 'node:fs';
import { test } from 'node:test';

const { WEB, TOP } = process.env;
const { ORDERS, check, endBy, fieldsIn, numberIn, orderOf, valueIn, wordsOf, wrongIn } = await import(`${WEB}/orders.js`);
const {
  fieldsOf, inWords, jsonOr, readNumbers, readOrganisations, readPetitions, readReply, readStory,
} = await import(`${WEB}/reading.js`);
const { addressAt, readAddress } = await import(`${WEB}/address.js`);
const { linksIn, partsOf } = await import(`${WEB}/rules.js`);

const requests = readFileSync(`${TOP}/docs/requests.md`, 'utf8');
// The rows of the table of orders: name, fields, and a reply as an example.
const rows = [...requests.matchAll(/^\| `([a-z-]+)` \| ([a-z?, ]+) \| `([^`]+)` \|$/gm)]
  .map(([, name, fields, reply]) => ({ name, fields: fields.split(', '), reply }));
const refusals = [...requests.matchAll(/^\| (\d+) \| (\w+) \| (\d+) \|/gm)].map(([, number]) => Number(number));

// A text of each kind that is right as it is, and some that are wrong.
const KINDS = {
  slug: ['acme-1', '', 'Acme', 'a'.repeat(33)],
  title: ['x', ' x', 'x ', 'a\tb', 'é'.repeat(101)],
  link: ['https://a.example/', 'acme.example', 'ftp://a.example/', `https://a.example/${'x'.repeat(400)}`],
  id: ['00ab', '0000', '11', 'zzzz'],
  petition: ['4294967295', '0', '4294967296', '1.0'],
};
// What a reply may name, as it is read and as it is written.
const NAMED = {
  number: [{ vendor: undefined, number: '00ab' }, '00ab'],
  span: [{ vendor: 'cafe', first: '2000', last: '20ff' }, 'cafe:2000-20ff'],
  org: [{ org: 'acme-1' }, 'acme-1'], keeper: [{ keeper: 'bob' }, 'bob'], petition: [{ petition: '12' }, 'petition 12'],
};

test('the forms have the orders of the table, and their fields', () => {
  assert.deepEqual(rows.map(it => it.name).sort(), Object.keys(ORDERS).sort());
  for (const { name, fields } of rows) {
    const here = ORDERS[name].fields.map(it => it.name + (it.optional ? '?' : ''));
    assert.deepEqual(here.sort(), [...fields].sort(), name);
  }
});

test('each order has the fields that are written, and no others', () => {
  for (const [name, { fields, words }] of Object.entries(ORDERS)) {
    const texts = Object.fromEntries(fields.map(it => [it.name, KINDS[it.kind][0]]));
    const valueOf = it => it.kind === 'petition' ? Number(texts[it.name]) : texts[it.name];
    const bodyOf = some => ({ order: name, ...Object.fromEntries(some.map(it => [it.name, valueOf(it)])) });
    assert.deepEqual(orderOf(name, { ...texts, other: 'x' }), bodyOf(fields), name);
    const needed = fields.filter(it => !it.optional), left = fields.filter(it => it.optional).map(it => [it.name, '']);
    assert.deepEqual(orderOf(name, { ...texts, ...Object.fromEntries(left) }), bodyOf(needed), name);
    assert.equal(wordsOf(bodyOf(fields)), words);
    assert.deepEqual(fieldsIn(bodyOf(needed)), needed.map(it => [it.label, texts[it.name]]), name);
    const address = `#/do/${name}?${new URLSearchParams(texts)}`;
    assert.deepEqual(readAddress(address), { view: 'do', values: { order: name }, given: texts }, address);
  }
});

test('each field takes what the registry takes, and says what is wrong', () => {
  for (const field of Object.values(ORDERS).flatMap(it => it.fields)) {
    const [right, ...wrong] = KINDS[field.kind];
    assert.equal(wrongIn(field, right), '', field.name);
    assert.equal(wrongIn(field, ''), field.optional ? '' : 'This is needed.', field.name);
    for (const text of wrong.filter(Boolean)) assert.notEqual(wrongIn(field, text), '', `${field.name}: ${text}`);
    assert.equal(valueIn(field, right), right, field.name);
  }
  for (const [kind, [, ...wrong]] of Object.entries(KINDS)) for (const it of wrong) assert.notEqual(check(kind, it), '', it);
  assert.equal(check('id', '00AB'), '');
  assert.equal(valueIn({ kind: 'id' }, ' 1209:11. '), '0011');
  assert.equal(valueIn({ kind: 'title' }, ' x'), ' x');
  assert.equal(valueIn({ kind: 'slug' }, ' x'), 'x');
});

test('the reply to each order is read', () => {
  const named = Object.values(ORDERS).filter(it => it.reply);
  assert.equal(new Set(named.map(it => it.reply)).size, named.length);
  for (const { reply } of named) {
    const parts = [...reply.matchAll(/\{(\w+)\}/g)].map(([, name]) => NAMED[name][0]), [deed] = reply.split('{');
    const text = reply.replace(/\{(\w+)\}/g, (_, name) => NAMED[name][1]);
    assert.deepEqual(readReply(text), Object.assign({ deed: deed.trim() }, ...parts), text);
    for (const none of [`${text} `, ` ${text}`, `${text}\n`]) assert.equal(readReply(none), null, none);
  }
  // what is read of those of docs/requests.md makes them again
  const number = it => `${it.vendor ? `${it.vendor}:` : ''}${it.number ?? `${it.first}-${it.last}`}`;
  const texts = { number, span: number, org: it => it.org, keeper: it => it.keeper, petition: it => `petition ${it.petition}` };
  for (const { name, reply } of rows) {
    const read = readReply(reply), form = ORDERS[name].reply;
    if (form === null) assert.equal(read, null, reply);
    else assert.equal(form.replace(/\{(\w+)\}/g, (_, part) => texts[part](read)), reply);
  }
  const grant = { deed: 'granted', vendor: 'cafe', number: '00ab', org: 'acme', petition: '12' };
  assert.deepEqual(readReply('granted cafe:00ab to acme by petition 12'), grant);
  const span = { deed: 'released', vendor: undefined, first: '2010', last: '2010' };
  assert.deepEqual(readReply('released 2010-2010'), span);
  const none = ['granted 00ab', 'amended 00AB', 'amended :00ab', 'added licence petition 1', 'imported fresh 0'];
  for (const text of none) assert.equal(readReply(text), null, text);
});

test('an order that closes a petition says how', () => {
  const closing = rows.filter(({ name }) => ORDERS[name].fields.some(it => it.kind === 'petition'));
  for (const { name, reply } of closing) assert.equal(endBy(name), reply.split(' ')[0]);
  assert.deepEqual(Object.keys(ORDERS).filter(endBy).sort(), closing.map(it => it.name).sort());
  assert.equal(endBy('import'), undefined);
});

test('each refusal has words of its own, but those of a message and of an import', () => {
  const rest = new Set([19, 20, 21, 22, 23, 24, 25, 27, 29, 32]);
  assert.ok(refusals.length > 20);
  for (const refused of refusals.filter(it => !rest.has(it))) {
    assert.doesNotMatch(inWords(409, { refused, name: 'ItsName', detail: 'x' }), /ItsName|undefined/, String(refused));
  }
  assert.equal(inWords(409, { refused: 9, name: 'NumberOwned', detail: 'acme' }), 'This number belongs to acme.');
  assert.equal(inWords(418, {}), 'The answer has status 418.');
  assert.equal(inWords(409, { refused: 99, name: 'New' }), 'The registry refused this: New.');
  assert.deepEqual(fieldsOf({ refused: 28, detail: 'site' }), ['site']);
  assert.deepEqual(fieldsOf({ refused: 13 }), ['licence']);
  assert.deepEqual(fieldsOf({ refused: 99 }), []);
});

test('a number is read as people write it', () => {
  const of = text => numberIn(text) && `${numberIn(text).vendor ?? ''}:${numberIn(text).number}`;
  const right = {
    '1209:0011': '1209:0011', '0x0011': ':0011', 11: ':0011', 'VID_1209&PID_0011': '1209:0011',
    '1209/0011': '1209:0011', '0011.': ':0011', ' 00aB ': ':00ab', 'USB\\VID_CAFE&PID_00AB&REV_0100': 'cafe:00ab',
    '0x1209:0x11': '1209:0011', '1209/0011/': '1209:0011', pid_0011: ':0011',
    'USB\\VID_1209&PID_0011\\6&2A&0&1': '1209:0011',
  };
  for (const [text, is] of Object.entries(right)) assert.equal(of(text), is, text);
  const none = ['', 'zz', '00110', '1209:', ':0011', '1209:00110', '12 09', 'VID_1209'];
  for (const text of none) assert.equal(of(text), null, text);
});

test('an address is read once, in lower case, or is none', () => {
  const is = (view, values, given = {}) => ({ view, values, given });
  assert.deepEqual(readAddress(''), is('numbers', {}));
  assert.deepEqual(readAddress('#/number/CAFE/3ABC'), is('number', { vendor: 'cafe', number: '3abc' }));
  assert.deepEqual(readAddress('#/do/return?number=3ABC&vendor=CAFE&x=1'),
    is('do', { order: 'return' }, { number: '3abc', vendor: 'cafe' }));
  const search = readAddress('#/numbers/cafe?q=A%20b&page=2');
  assert.deepEqual(search, is('numbers', { vendor: 'cafe' }, { q: 'A b', page: '2' }));
  const none = ['number/1209', 'number/1209/zz', 'petition/0', 'do/constructor', 'do/return?number=zz', '__proto__',
    '%', 'orgs/x', 'numbers/1209/0011', 'org/A%2f'];
  for (const it of none) assert.equal(readAddress(`#/${it}`), null, it);
  assert.equal(addressAt('/1209/00AB/'), '#/number/1209/00AB');
  assert.equal(addressAt('/org/acme'), '#/org/acme');
  for (const it of ['/', '/1209/00110/', '/org/a/b', '/list']) assert.equal(addressAt(it), '', it);
});

test('numbers are read as they come, and again if they are cut', async () => {
  const { begun, isAllKnown, known, loaded } = await import(`${WEB}/registry.js`);
  const digits = at => at.toString(16).padStart(4, '0');
  const line = at => `1209  ${digits(at + 1)}  held      acme                              \u00fcber ${at}\n`;
  const lines = Array.from({ length: 1500 }, (_, at) => line(at));
  let tries = 0, goOn;
  const rest = new Promise(done => { goOn = done; });
  // the number 0005 is free by the second try
  const numbers = isCut => {
    const bytes = new TextEncoder().encode((isCut ? lines : lines.filter((_, at) => at !== 4)).join(''));
    let at = 0;
    const pull = async it => {
      if (at > 0 && isCut) return it.error(new Error('cut'));
      if (at > 0) await rest;
      const end = at === 0 ? 75001 : at + 997;
      it.enqueue(bytes.slice(at, end));
      at = end;
      return at < bytes.length || it.close();
    };
    return new ReadableStream({ pull });
  };
  const vendors = [{ vendor: '1209', name: 'Shared' }, { vendor: 'beef', name: 'Beef' }];
  const founding = JSON.stringify({ vendor: '1209', curators: [], licences: [], vendors });
  const org = 'acme                              ann                               Acme\n';
  globalThis.fetch = async path => {
    if (path === '/reports/numbers') return new Response(numbers((tries += 1) === 1));
    return new Response(path === '/founding' ? founding : org);
  };
  await begun();
  assert.equal(isAllKnown(), false);
  assert.equal(known.vendors.get('1209').titles[1000], '\u00fcber 999');
  setTimeout(goOn, 700);
  await loaded();
  assert.deepEqual([tries, isAllKnown()], [2, true]);
  const { titles, owners } = known.vendors.get('1209');
  assert.deepEqual([titles.filter(Boolean).length, titles[5]], [1499, '']);
  assert.deepEqual([titles[1500], owners[1500]], ['\u00fcber 1499', 'acme']);
  assert.deepEqual([...known.vendors.keys(), known.orgs.get('acme').title], ['1209', 'beef', 'Acme']);
});

test('rules are read as parts, and links of the web in them', () => {
  const text = '# One\r\n\r\nTwo\nlines\n- a\n  b\n\nThree\n2) c\n#4\n### Five\nSix';
  assert.deepEqual(partsOf(text).map(it => [it.kind, it.text]), [
    ['h2', 'One'], ['p', 'Two lines'], ['ul', 'a b'], ['p', 'Three'], ['ol', 'c #4'], ['h3', 'Five'], ['p', 'Six'],
  ]);
  const link = 'https://a.example/';
  assert.deepEqual(linksIn(`See [it](${link}x), ${link}. [No](ftp://a.example/)`),
    ['See ', { words: 'it', link: `${link}x` }, ', ', { words: '', link }, '. [No](ftp://a.example/)']);
  assert.deepEqual(linksIn('[x](javascript:alert(1))'), ['[x](javascript:alert(1))']);
  assert.deepEqual(linksIn(`(${link}a?b=c), "${link}"`),
    ['(', { words: '', link: `${link}a?b=c` }, '), "', { words: '', link }, '"']);
});

test('reports are read by their columns', () => {
  const numbers = '1209  0010  reserved\n1209  00ab  held      acme                              A  title\u0085 here\n';
  assert.deepEqual([...readNumbers(numbers)], [
    { vid: '1209', pid: 16, state: 'reserved', owner: '', title: '' },
    { vid: '1209', pid: 171, state: 'held', owner: 'acme', title: 'A  title\u0085 here' },
  ]);
  assert.deepEqual(readOrganisations('acme                              ann                               Acme Tools\n'),
    [['acme', { keeper: 'ann', title: 'Acme Tools' }]]);
  const petitions = '      1  acme                              any   Lamp\n'
    + '     12  bobs-boards                       cafe:any  any  thing\n'
    + '1000000  acme                              00ab  \u00e9\n';
  assert.deepEqual(readPetitions(petitions), [
    { id: 1, org: 'acme', vendor: undefined, want: null, title: 'Lamp' },
    { id: 12, org: 'bobs-boards', vendor: 'cafe', want: null, title: 'any  thing' },
    { id: 1000000, org: 'acme', vendor: undefined, want: '00ab', title: '\u00e9' },
  ]);
  assert.deepEqual(readStory('7\n8 {"title":"A  b\u2028"}\n12 {}\n'), { left: 7, list: [[7, { title: 'A  b\u2028' }], [11, {}]] });
  assert.deepEqual(readStory('0'), { left: 0, list: [] });
  assert.equal(jsonOr('{', 7), 7);
  assert.equal(jsonOr('null', 7), 7);
});
