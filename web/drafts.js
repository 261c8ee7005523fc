// Forms that were begun: what was written into each is kept in the browser until it is sent or thrown away.

import { jsonOr } from './reading.js';

const PREFIX = 'usbreg-draft-';

// A form is known by its order, and by the number, organisation or petition that its address gave.
export const nameOf = (kind, { org, vendor, number, petition }) =>
  [kind, org, vendor, number, petition].filter(Boolean).join('/');

export function draftOf(name) {
  try { return jsonOr(localStorage.getItem(PREFIX + name), null); } catch { return null; }
}

// Keeps the texts of a form, by the names of its fields. A browser that keeps nothing loses them with the view.
export function keepDraft(name, texts) {
  try { localStorage.setItem(PREFIX + name, JSON.stringify(texts)); } catch { /* nothing is kept */ }
}

export function dropDraft(name) {
  try { localStorage.removeItem(PREFIX + name); } catch { /* nothing was kept */ }
}
