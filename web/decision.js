// The decision on a petition, for curators alone.

import { confirmed } from './dialogs.js';
import { button, h, note } from './elements.js';
import { ORDERS, numberIn, orderOf, wrongIn } from './orders.js';
import { foundingVendor, isCurator } from './registry.js';
import { me } from './session.js';
import { order, placeForAnswer } from './acting.js';
import { aboutPetition } from './pieces.js';

// Says what is wrong with the number to grant for a petition, or nothing.
function wrongNumber(text, petition) {
  const it = numberIn(text);
  if (text.trim() === '') return '';
  if (!it || it.number === '0000') return 'Use four hexadecimal digits, such as 00ab.';
  return it.vendor && it.vendor !== petition.vid ? `The petition asks for a number of ${petition.vid}.` : '';
}

// Asks for the number to grant, where the petition leaves it open.
function numberInput(petition) {
  const input = h('input', { name: 'number', class: 'short', autocomplete: 'off' });
  input.addEventListener('input', () => input.setCustomValidity(wrongNumber(input.value, petition)));
  return input;
}

// Asks for the reason to decline, which may be empty.
const WHY_NOT = ORDERS.decline.fields.find(it => it.name === 'reason');
export function reasonInput() {
  const input = h('input', { name: 'reason', autocomplete: 'off' });
  input.addEventListener('input', () => input.setCustomValidity(wrongIn(WHY_NOT, input.value)));
  const parts = [h('p', {}, h('label', {}, 'Reason (may be empty) ', input)), note(WHY_NOT.hint)];
  return { input, parts };
}

// The buttons that decide on a petition. `ended` is told once it is decided, and `refused` when the registry refuses.
export class Decision {
  constructor(petition, { ended = () => {}, refused = () => {} } = {}) {
    Object.assign(this, { petition, ended, refused, place: placeForAnswer(), isOpen: true });
    const { id } = petition;
    this.first = button('Grant', () => this.grant(), { class: 'main', 'aria-label': `Grant petition ${id}` });
    this.buttons = h('div', { class: 'buttons' }, this.first,
      button('Decline', () => this.decline(), { 'aria-label': `Decline petition ${id}` }));
    this.element = h('div', { class: 'decision' }, this.buttons, this.place);
  }

  async grant() {
    const input = numberInput(this.petition), label = h('label', {}, 'Number (empty: the least free one) ', input);
    const parts = this.petition.want ? [] : [h('p', {}, label)];
    if (await this.asks('Grant', parts)) await this.send('grant', { number: numberIn(input.value)?.number });
  }

  async decline() {
    const { input, parts } = reasonInput();
    if (await this.asks('Decline', parts)) await this.send('decline', { reason: input.value });
  }

  asks(words, parts) {
    return confirmed(`${words} petition ${this.petition.id}?`, [aboutPetition(this.petition), ...parts], words);
  }

  // Sends the order, with what is given, and says whether the petition is decided.
  async send(kind, given) {
    const had = document.activeElement;
    this.disable(true);
    const got = await order(orderOf(kind, { petition: this.petition.id, ...given }), this.place);
    if (got.done != null) this.end();
    else {
      this.disable(false);
      if (this.buttons.contains(had)) had.focus();
    }
    if (got.done != null) this.ended(kind);
    else if (got.refusal) this.refused(got.refusal);
    return got.done != null;
  }

  disable(isDisabled) {
    for (const it of this.buttons.children) it.disabled = isDisabled;
  }

  // Takes the buttons away: the petition is closed.
  end() {
    this.isOpen = false;
    this.buttons.remove();
  }
}

// The decision on a petition, if it is a curator's to decide.
export const decision = (petition, told) =>
  isCurator(me()?.name) ? new Decision({ vid: foundingVendor(), ...petition }, told) : { element: null };
