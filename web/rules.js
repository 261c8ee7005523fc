// The rules of this registry's own: a text that its operators wrote, in a little of Markdown. Headings, lists and links
// become elements; all else is shown as it is written.

import { read } from './asking.js';
import { h, outside, written } from './elements.js';

// Resolves to the text, which is empty where there is none.
let text = null;
export const rules = () => text ??= read('/rules').catch(() => {
  text = null;
  return '';
});

// What a line begins with that is a heading, or an item of a list.
const HEADS = [[/^#{1,2} +/, 'h2'], [/^#{3,6} +/, 'h3'], [/^[-*+] +/, 'ul'], [/^\d{1,9}[.)] +/, 'ol']];

// The headings, paragraphs and items of a text, in their order. Any other line goes on with the one above it.
export function partsOf(text) {
  const parts = [];
  let isOpen = false;
  for (const line of text.split('\n').map(it => it.trim())) {
    const [head, kind] = HEADS.find(([head]) => head.test(line)) ?? [/^/, 'p'];
    if (kind === 'p' && line && isOpen) parts.at(-1).text += ` ${line}`;
    else if (line) parts.push({ kind, text: line.replace(head, '') });
    isOpen = line !== '' && !['h2', 'h3'].includes(kind);
  }
  return parts;
}

// A link of the web, with words in front of it or by itself.
const LINK = /\[([^[\]]+)\]\((https?:\/\/[^\s()]+)\)|https?:\/\/[^\s<>()[\]"]*[^\s<>()[\]".,;:!?']/gi;

// The texts of a part and its links, each with the words that it has.
export function linksIn(text) {
  const parts = [];
  let end = 0;
  for (const it of text.matchAll(LINK)) {
    parts.push(text.slice(end, it.index), { words: it[1] ?? '', link: it[2] ?? it[0] });
    end = it.index + it[0].length;
  }
  return [...parts, text.slice(end)].filter(it => it !== '');
}

// The address of a link stands behind its words: these may be another address.
function shown(text) {
  return linksIn(text).map(it => {
    if (typeof it === 'string') return written(it);
    return it.words ? [written(it.words), ' (', outside(it.link), ')'] : outside(it.link);
  });
}

// The elements of a text. Items that follow each other are one list.
function elementsOf(text) {
  const elements = [];
  for (const it of partsOf(text)) {
    const isItem = ['ul', 'ol'].includes(it.kind), last = elements.at(-1);
    if (!isItem) elements.push(h(it.kind, {}, shown(it.text)));
    else if (last?.localName === it.kind) last.append(h('li', {}, shown(it.text)));
    else elements.push(h(it.kind, {}, h('li', {}, shown(it.text))));
  }
  return elements;
}

export async function rulesView() {
  const text = await rules();
  return text && ['Rules', ...elementsOf(text)];
}
