// The numbers of a vendor: for each its state and, if it has an owner, that and the title.

export const STATES = ['free', 'reserved', 'held', 'returned'];
export const [FREE, RESERVED, HELD, RETURNED] = STATES.keys();
export const ALL = 65536;
export const hex = pid => pid.toString(16).padStart(4, '0');

export class Vendor {
  constructor(vid, name = '') {
    Object.assign(this, { vid, name, states: new Uint8Array(ALL), last: 0, text: null });
  }

  // Texts for all numbers are made once they are asked for: most vendors of a founding are replaced by those of a
  // report.
  get owners() {
    return this.allOwners ??= new Array(ALL).fill('');
  }

  get titles() {
    return this.allTitles ??= new Array(ALL).fill('');
  }

  // The greatest number that was put is `last`: those after it are free.
  put(pid, state, owner = '', title = '') {
    this.states[pid] = STATES.indexOf(state);
    this.last = Math.max(this.last, pid);
    if (this.owners[pid] === owner && this.titles[pid] === title) return;
    this.owners[pid] = owner;
    this.titles[pid] = title;
    this.text = null;
  }

  putSpan(first, last, state) {
    for (let pid = first; pid <= last; pid += 1) this.put(pid, state);
  }

  // Whether the number of these digits belongs to the organisation, as far as is known.
  isOf(digits, org) {
    return this.owners[parseInt(digits, 16)] === org;
  }

  counts(first = 1, last = ALL - 1) {
    const counts = STATES.map(() => 0);
    for (let pid = first; pid <= last; pid += 1) counts[this.states[pid]] += 1;
    return counts;
  }

  // Makes the text that is searched: a line for each number, with its digits, organisation and title. One long text is
  // searched faster than many short ones. No title has a line feed.
  prepare(orgs) {
    if (this.text !== null) return;
    const line = (owner, pid) =>
      owner ? `${hex(pid)} ${owner} ${orgs.get(owner)?.title ?? ''} ${this.titles[pid]}\n` : `${hex(pid)}\n`;
    this.text = this.owners.map(line).join('').toLowerCase();
    this.ends = new Uint32Array(ALL);
    for (let pid = 0, at = -1; pid < ALL; pid += 1) this.ends[pid] = at = this.text.indexOf('\n', at + 1);
  }

  // For each number whether its line has the word.
  having(word) {
    const has = new Uint8Array(ALL), { text, ends } = this;
    for (let pid = 0, at = text.indexOf(word); at >= 0; at = text.indexOf(word, ends[pid])) {
      while (ends[pid] < at) pid += 1;
      has[pid] = 1;
    }
    return has;
  }

  // The numbers that have all the words and one of the states, in order.
  search(words, states, orgs) {
    if (words.length) this.prepare(orgs);
    const wanted = words.map(word => this.having(word)), found = [];
    const end = states.includes(FREE) ? ALL : this.last + 1;
    for (let pid = 1; pid < end; pid += 1) {
      if (states.includes(this.states[pid]) && wanted.every(has => has[pid])) found.push(pid);
    }
    return found;
  }

  // The first free numbers whose digits begin so.
  free(digits, most) {
    const found = [];
    for (let pid = 1; pid < ALL && found.length < most; pid += 1) {
      if (this.states[pid] === FREE && hex(pid).startsWith(digits)) found.push(pid);
    }
    return found;
  }

  of(org) {
    return this.owners.flatMap((owner, pid) => owner === org ? [pid] : []);
  }
}
