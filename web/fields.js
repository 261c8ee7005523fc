// A field of a form: its input, its hint, and what is wrong with it.

import { button, h, orgLink, petitionLink, soft, state, written } from './elements.js';
import { numberIn, valueIn, wrongIn } from './orders.js';
import { foundingVendor, isCurator, known, openPetitions, orgsKeptBy } from './registry.js';
import { STATES, hex } from './vendor.js';
import { me } from './session.js';

// The values that a field may have, or null if it is free. A curator may hand any organisation over.
const CHOICES = {
  orgs: () => me() && orgsKeptBy(me().name).length ? orgsKeptBy(me().name).map(it => [it, it]) : null,
  handed: () => isCurator(me()?.name) ? null : CHOICES.orgs(),
  licences: () => known.founding.licences.map(it => [it, it]),
  vendors: () => [...known.vendors.values()].map(it => [it.vid, `${it.vid} ${it.name}`]),
};

// The options of a field. A value that is none of them is one too: a form has no other value than it was given.
function optionsOf(choices, value) {
  const none = (!value && choices.length > 1) && h('option', { value: '' }, 'Choose one');
  const all = !value || choices.some(([it]) => it === value) ? choices : [[value, value], ...choices];
  return [none, all.map(([it, text]) => h('option', { value: it, selected: it === value }, text))];
}

export class Field {
  constructor(field, value) {
    this.field = field;
    const { name, kind, from, optional } = field, choices = CHOICES[from]?.();
    const attributes = {
      id: `f-${name}`, name, 'aria-describedby': `h-${name} e-${name}`, 'aria-required': String(!optional),
      autocomplete: 'off', class: ['id', 'petition'].includes(kind) && !choices ? 'short' : null,
      oninput: () => this.typed(),
    };
    this.input = choices
      ? h('select', attributes, optionsOf(choices, value))
      : h('input', { ...attributes, value, spellcheck: String(kind === 'title'), autocapitalize: 'none' });
    this.hint = h('small', { id: `h-${name}` }, field.hint);
    this.fault = h('small', { id: `e-${name}`, class: 'fault' });
    this.more = h('div', { class: 'more' });
    const label = h('label', { for: `f-${name}` }, field.label, optional && !choices && soft(' (may be empty)'));
    this.element = h('div', { class: 'field' }, label, this.input, this.hint, this.fault, this.more);
  }

  get text() {
    return valueIn(this.field, this.input.value);
  }

  // The vendor that the number names, if it names one.
  get namedVendor() {
    return this.field.kind === 'id' && this.field.name !== 'vendor' ? numberIn(this.input.value)?.vendor : null;
  }

  blame(words) {
    this.fault.textContent = words;
    this.input.setAttribute('aria-invalid', String(words !== ''));
    return words === '';
  }

  isRight() {
    return this.blame(wrongIn(this.field, this.text));
  }

  // What is empty is only blamed when the form is sent.
  typed() {
    if (this.text === '') return this.blame('');
    if (!this.isRight()) return false;
    if (this.field.kind === 'link') this.hint.replaceChildren('Kept as ', written(new URL(this.text).href), '.');
    return true;
  }
}

// Below the field of the number that is asked for: what it is now, who else asks for it, and free ones to take.
const SOME = 8;
export class FreeNumbers {
  constructor(number, vendor) {
    Object.assign(this, { number, vendor, after: 0, open: [], said: h('div'), offered: h('div') });
    number.more.replaceChildren(this.said, this.offered);
    for (const it of [number, vendor]) {
      it?.input.addEventListener('input', () => {
        this.after = 0;
        this.show();
      });
    }
    this.show();
    // the numbers stay as they are: one of them may have the focus by now
    openPetitions().then(it => {
      this.open = it;
      this.tell();
    }, () => { /* it is said of the number alone */ });
  }

  get vid() {
    return this.vendor?.text || foundingVendor();
  }

  get numbers() {
    return known.vendors.get(this.vid);
  }

  get isWhole() {
    return this.number.text !== '' && wrongIn(this.number.field, this.number.text) === '';
  }

  show() {
    this.tell();
    this.offer();
  }

  tell() {
    const told = () => h('p', { id: 'its-state', role: 'status' }, this.told(parseInt(this.number.text, 16)));
    this.said.replaceChildren(this.isWhole ? told() : '');
  }

  offer() {
    const free = this.numbers.free(this.isWhole ? '' : this.number.text, this.after + SOME).slice(this.after);
    const taken = pid => button(hex(pid), () => this.take(hex(pid)), { class: 'code' });
    const more = button('Others', () => {
      this.after += SOME;
      this.show();
    });
    this.offered.replaceChildren(h('div', { class: 'buttons free', role: 'group', 'aria-label': 'Free numbers' },
      soft(free.length ? 'Free:' : 'No other number is free.'), free.map(taken), free.length === SOME && more));
  }

  take(digits) {
    this.number.input.value = digits;
    this.number.input.dispatchEvent(new Event('input', { bubbles: true }));
    this.number.input.focus();
  }

  told(pid) {
    const { numbers } = this, owner = numbers.owners[pid];
    const others = this.open.filter(it => it.vid === this.vid && it.want === hex(pid));
    return [
      hex(pid), ' is ', state(STATES[numbers.states[pid]]), owner && [' and belongs to ', orgLink(owner)], '.',
      others.map(it => [' Also ', petitionLink(it.id), ' of ', orgLink(it.org), ' asks for it.']),
    ];
  }
}
