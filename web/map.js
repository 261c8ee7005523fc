// The map: each number of a vendor is a square, 256 in a row. A row has the numbers with the same first two digits.

import { confirmed } from './dialogs.js';
import { button, counted, grouped, h, note, numberLink, orgLink, state, written } from './elements.js';
import { foundingVendor, isCurator, known, loaded } from './registry.js';
import { ALL, FREE, HELD, RESERVED, RETURNED, STATES, hex } from './vendor.js';
import { me } from './session.js';
import { order, placeForAnswer } from './acting.js';
import { vendorChoice } from './pieces.js';

const CELL = 3, EDGE = 26, SIDE = 256 * CELL;
// Whether a dot of a square is inked: each state has a pattern, so that colours are not needed to tell them apart.
const PATTERNS = {
  [FREE]: () => false, [RESERVED]: (x, y) => (x + y) % 3 === 0, [HELD]: () => true, [RETURNED]: (_, y) => y % 3 !== 2,
};
const STEPS = {
  ArrowLeft: -1, ArrowRight: 1, ArrowUp: -256, ArrowDown: 256, PageUp: -4096, PageDown: 4096, Home: -ALL, End: ALL,
};
const ABOUT = 'Map of the numbers. Arrow keys go to the next number or row, Page Up and Page Down 16 rows; '
  + 'with Shift they choose a span. Enter opens the number.';

const HOW = 'Each square is a number; a row has those with the same first two digits. Click one, or use the arrow '
  + 'keys. Draw, or hold Shift, to choose a span.';

// The colours of the style sheet, which knows whether the page is dark.
const colour = name => getComputedStyle(document.documentElement).getPropertyValue(`--${name}`).trim();
const channels = name => colour(name).match(/[0-9a-f]{2}/gi).map(it => parseInt(it, 16));
const dotOf = name => new Uint32Array(new Uint8ClampedArray([...channels(name), 255]).buffer)[0];

function paintSquares(context, vendor) {
  const image = context.createImageData(SIDE, SIDE), dots = new Uint32Array(image.data.buffer);
  const inks = STATES.map(dotOf), blank = dotOf('free');
  for (let y = 0, at = 0; y < SIDE; y += 1) {
    const row = Math.floor(y / CELL) * 256;
    for (let x = 0; x < SIDE; x += 1, at += 1) {
      const kind = vendor.states[row + Math.floor(x / CELL)];
      dots[at] = PATTERNS[kind](x, y) ? inks[kind] : blank;
    }
  }
  context.putImageData(image, EDGE, EDGE);
}

// The first two digits at the left, the last two at the top.
function paintDigits(context) {
  context.fillStyle = colour('soft');
  context.font = '11px ui-monospace, "DejaVu Sans Mono", monospace';
  context.textBaseline = 'top';
  for (let at = 0; at < 256; at += 16) {
    const digits = at.toString(16).padStart(2, '0');
    context.fillText(digits, 4, EDGE + at * CELL);
    context.fillText(digits, EDGE + at * CELL, 8);
  }
}

function paintSpan(context, first, last) {
  context.strokeStyle = colour('cursor');
  context.lineWidth = 2;
  for (let row = first >> 8; row <= last >> 8; row += 1) {
    const from = row === first >> 8 ? first & 255 : 0, to = row === last >> 8 ? last & 255 : 255;
    context.strokeRect(EDGE + from * CELL - 2, EDGE + row * CELL - 2, (to - from + 1) * CELL + 4, CELL + 4);
  }
}

function legend(vendor) {
  const counts = vendor.counts();
  return h('ul', { class: 'legend' }, [HELD, RESERVED, RETURNED, FREE].map(kind => {
    const sample = h('canvas', { width: 24, height: 15, 'aria-hidden': 'true' }), context = sample.getContext('2d');
    for (let y = 0; y < 15; y += 1) {
      for (let x = 0; x < 24; x += 1) {
        context.fillStyle = colour(PATTERNS[kind](x, y) ? STATES[kind] : 'free');
        context.fillRect(x, y, 1, 1);
      }
    }
    return h('li', {}, sample, STATES[kind], h('b', {}, grouped(counts[kind])));
  }));
}

class Picture {
  constructor(vid, at) {
    Object.assign(this, { vid, anchor: at, at });
    this.canvas = h('canvas', {
      id: 'map', width: SIDE + EDGE, height: SIDE + EDGE, tabindex: 0, role: 'application', 'aria-label': ABOUT,
      'aria-describedby': 'told', onkeydown: event => this.pressed(event), onpointerdown: event => this.pointed(event),
      onpointermove: event => this.moved(event), ondblclick: () => this.open(),
    });
    this.box = h('div', { class: 'map-box' }, this.canvas);
    this.legend = h('div');
    this.told = h('div', { class: 'told', id: 'told', role: 'status' });
    this.place = placeForAnswer();
    this.choices = h('div', { class: 'buttons' });
    this.choose(at, false);
  }

  // The vendor as it is known now: it may have been read anew since the view was made.
  get vendor() {
    return known.vendors.get(this.vid);
  }

  get span() {
    return [Math.max(1, Math.min(this.anchor, this.at)), Math.max(this.anchor, this.at)];
  }

  choose(pid, isSpan) {
    this.at = Math.max(1, Math.min(ALL - 1, pid));
    if (!isSpan) this.anchor = this.at;
    this.paint();
    this.tell();
  }

  paint() {
    const context = this.canvas.getContext('2d');
    context.fillStyle = colour('page');
    context.fillRect(0, 0, SIDE + EDGE, SIDE + EDGE);
    paintSquares(context, this.vendor);
    paintDigits(context);
    paintSpan(context, ...this.span);
    this.legend.replaceChildren(legend(this.vendor));
  }

  tell() {
    const [first, last] = this.span;
    this.told.replaceChildren(...(first === last ? this.aboutOne(first) : this.aboutSpan(first, last)));
    if (!isCurator(me()?.name)) return;
    this.choices.replaceChildren(button('Reserve', () => this.order('reserve')),
      button('Release', () => this.order('release')));
  }

  aboutOne(pid) {
    const { states, titles, owners } = this.vendor;
    const parts = [h('p', {}, numberLink(this.vid, hex(pid)), ' ', state(STATES[states[pid]]))];
    if (owners[pid]) parts.push(h('p', {}, written(titles[pid])), h('p', {}, 'of ', orgLink(owners[pid])));
    return parts;
  }

  aboutSpan(first, last) {
    const counts = this.vendor.counts(first, last)
      .map((count, kind) => count && `${grouped(count)} ${STATES[kind]}`).filter(Boolean);
    return [
      h('p', {}, `${this.vid}:${hex(first)} to ${hex(last)}`),
      h('p', {}, `${counted(last - first + 1, 'number')}: ${counts.join(', ')}`),
    ];
  }

  // Reserves or releases the span.
  async order(kind) {
    const [first, last] = this.span, { vid } = this, words = kind === 'reserve' ? 'Reserve' : 'Release';
    if (!await confirmed(`${words} ${vid}:${hex(first)} to ${hex(last)}?`, this.aboutSpan(first, last), words)) return;
    const vendor = vid === foundingVendor() ? {} : { vendor: vid };
    await order({ order: kind, first: hex(first), last: hex(last), ...vendor }, this.place);
    this.choose(this.at, true);
  }

  open() {
    location.hash = `#/number/${this.vid}/${hex(this.at)}`;
  }

  under(event) {
    const x = Math.floor((event.offsetX - EDGE) / CELL), y = Math.floor((event.offsetY - EDGE) / CELL);
    return x >= 0 && y >= 0 && x < 256 && y < 256 ? y * 256 + x : null;
  }

  pointed(event) {
    const pid = this.under(event);
    if (pid) this.choose(pid, event.shiftKey);
  }

  // With a mouse one draws a span; a finger moves the map.
  moved(event) {
    const pid = this.under(event);
    if (pid && event.buttons === 1 && event.pointerType === 'mouse') this.choose(pid, true);
    this.canvas.title = pid ? `${hex(pid)} ${STATES[this.vendor.states[pid]]}` : '';
  }

  pressed(event) {
    if (event.key === 'Enter') this.open();
    const step = STEPS[event.key];
    if (step == null) return;
    event.preventDefault();
    this.choose(this.at + step, event.shiftKey);
    this.show();
  }

  // Moves the number into the part of the map that is seen.
  show() {
    const x = EDGE + (this.at & 255) * CELL, y = EDGE + (this.at >> 8) * CELL, { box } = this;
    if (x < box.scrollLeft || x > box.scrollLeft + box.clientWidth - 10) box.scrollLeft = x - box.clientWidth / 2;
    const top = this.canvas.getBoundingClientRect().top + y;
    if (top < 0 || top > innerHeight - 10) scrollBy(0, top - innerHeight / 2);
  }
}

let shown = null;
matchMedia('(prefers-color-scheme: dark)').addEventListener('change', () => shown?.paint());

export async function mapView({ vendor: vid }, { at = '0001' }) {
  await loaded();
  const vendor = known.vendors.get(vid ?? foundingVendor());
  if (!vendor) return null;
  shown = new Picture(vendor.vid, parseInt(at, 16));
  const to = it => { location.hash = `#/map/${it}`; };
  return [
    ['Map of ', written(vendor.name)], h('form', { class: 'bar' }, vendorChoice(vendor.vid, to)),
    h('div', { class: 'both map' }, shown.box,
      h('div', {}, shown.legend, shown.told, shown.choices, shown.place, note(HOW))),
  ];
}
