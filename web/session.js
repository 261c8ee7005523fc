// Who is signed in. The password stays in memory, and goes out with orders only; the browser asks for none and keeps
// none.

import { asked, close } from './dialogs.js';
import { button, h } from './elements.js';
import { inWords } from './reading.js';
import { check } from './orders.js';

let person = null;
const listeners = [];

export const me = () => person;
export const onSession = listener => listeners.push(listener);

function become(it) {
  person = it;
  for (const listener of listeners) listener();
}

export const signOut = () => become(null);

// The password of a name in the way of HTTP, which takes bytes.
function authorizationOf(name, password) {
  return `Basic ${btoa(String.fromCharCode(...new TextEncoder().encode(`${name}:${password}`)))}`;
}

// Asks the proxy whether the password is right, and returns what is wrong, or nothing.
async function tryPassword(name, password) {
  if (check('slug', name)) return 'A name has only the characters a to z, 0 to 9 and -.';
  const authorization = authorizationOf(name, password);
  const how = { credentials: 'omit', cache: 'no-store', headers: { authorization } };
  const response = await fetch('/web/me.json', how).catch(() => ({ ok: false, status: 0 }));
  if (!response.ok) return inWords(response.status, {});
  become({ name, authorization });
  return '';
}

// Tries what was written, once at a time.
async function submitted(form, fault, main) {
  const { name, password } = form.elements;
  if (main.disabled) return;
  main.disabled = true;
  fault.textContent = '';
  fault.textContent = await tryPassword(name.value, password.value);
  main.disabled = false;
  if (fault.textContent === '') close('in');
  else password.select();
}

const input = (label, attributes) => h('p', {}, h('label', {}, label, h('input', { required: true, ...attributes })));

function inputs(name) {
  return [
    input('Name', {
      name: 'name', value: name, autocomplete: 'username', autocapitalize: 'none', spellcheck: 'false',
      readonly: name !== '', autofocus: name === '',
    }),
    input('Password', {
      name: 'password', type: 'password', autocomplete: 'current-password', autofocus: name !== '',
    }),
  ];
}

// Asks for a name and a password in a dialog, and says whether somebody is signed in at its end.
export async function signIn(name = '') {
  const fault = h('p', { class: 'fault', role: 'alert' }), main = h('button', { class: 'main' }, 'Sign in');
  const onsubmit = event => {
    event.preventDefault();
    submitted(event.target, fault, main);
  };
  await asked(h('form', { onsubmit },
    h('h2', { id: 'dialog-title' }, 'Sign in'), inputs(name), fault,
    h('p', { class: 'soft' }, 'Names and passwords are given by the people who run this registry.'),
    h('div', { class: 'buttons' }, main, button('Cancel', () => close()))));
  return person !== null && (name === '' || person.name === name);
}
