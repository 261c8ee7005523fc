// Questions, one at a time, in the dialog of the page.

import { button, byId, h } from './elements.js';

let before = Promise.resolve();

function show(parts) {
  const dialog = byId('dialog');
  dialog.replaceChildren(...parts);
  dialog.returnValue = '';
  return new Promise(tell => {
    dialog.addEventListener('close', () => {
      dialog.replaceChildren();
      tell(dialog.returnValue);
    }, { once: true });
    dialog.showModal();
  });
}

// Shows these parts, after what is shown already, and resolves to the value that the dialog is closed with: nothing
// after the key Escape. Nothing stays of them: a password may have been among them.
export const asked = (...parts) => before = before.then(() => show(parts));

// What was in it goes at once: the event comes later.
export function close(value = '') {
  byId('dialog').close(value);
  byId('dialog').replaceChildren();
}

// Asks a question, and says whether the answer was yes. The parts stand between the question and the buttons; the one
// that says no is chosen first.
export async function confirmed(question, parts, yes) {
  const end = event => {
    event.preventDefault();
    close('yes');
  };
  const no = button('Cancel', () => close('no'), { autofocus: true });
  return await asked(h('form', { onsubmit: end },
    h('h2', { id: 'dialog-title' }, question), parts,
    h('div', { class: 'buttons' }, h('button', { class: 'main' }, yes), no))) === 'yes';
}
