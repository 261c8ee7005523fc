// The page of a petition.

import { choices, facts, h, numberLink, orderLink, written } from './elements.js';
import { orgNow, petitionNow } from './registry.js';
import { me } from './session.js';
import { decision } from './decision.js';
import { orgAndKeeper, termsOf, wish } from './pieces.js';
import { askAgain, storyOfPetition } from './record.js';

const factsOf = (got, owner) => facts(
  ['State', got.state], ['Reason', got.reason == null ? null : written(got.reason)],
  ['Title', written(got.title)], ['Organisation', orgAndKeeper(got.org, owner)],
  ['Wants', wish(got)], ['Granted', got.granted ? numberLink(got.vid, got.granted) : null], ...termsOf(got));

export async function petitionView({ petition: id }) {
  const got = await petitionNow(id), owner = await orgNow(got.org);
  const isOpen = got.state === 'open', isKeeper = owner.keeper === me()?.name;
  const about = h('div', {}, factsOf(got, owner)), story = h('div', {}, storyOfPetition(id));
  // once it is decided, here or by somebody else
  const anew = async () => {
    about.replaceChildren(factsOf(await petitionNow(id), owner));
    story.replaceChildren(storyOfPetition(id));
    decided.end();
    decided.place.focus();
  };
  const decided = isOpen ? decision(got, { ended: anew, refused: it => it.refused === 7 && anew() }) : {};
  if (decided.place) decided.place.tabIndex = -1;
  return [
    `Petition ${id}`,
    about,
    isOpen && isKeeper && choices(orderLink('withdraw', 'Withdraw it', { petition: id })),
    ['declined', 'withdrawn'].includes(got.state) && isKeeper && choices(askAgain(got)),
    decided.element,
    h('h2', {}, 'What the record says'), story,
  ];
}
