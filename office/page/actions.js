// The actions on a release that the role, the person and the phase allow. Each asks for confirmation first.
import { button, confirmed, h, hint, notice } from './dom.js';
import { session } from './desk.js';
import { ask, drop, keep, kept } from './asking.js';
import { findingsList, unsaid } from './board.js';
import { look, picture, releaseOf } from './picture.js';
import { amount, clock, phaseText, refusal } from './words.js';

const DONE = { prepare: 'Revision N is prepared. Read the text, then sign it.', sign: 'You signed revision N. The captain concurs next.',
  concur: 'You concurred. Revision N is now in force.', depart: 'Departure recorded.', arrive: 'Arrival recorded.', cancel: 'Release cancelled.',
  acknowledge: 'Alert acknowledged.', purge: 'Release purged.', draft: 'Draft filed.', amend: 'Amendment filed as revision N.', admit: 'Report accepted.',
  defer: 'Deferral entered.', clear: 'Deferral cleared.', sweep: 'Swept.' };
// What the desk has done, with the revision that its reply names.
export const doneText = (name, { revision }) => DONE[name].replace('revision N', `revision ${revision}`).replace('Revision N', `Revision ${revision}`);
const CHECKS = {
  same: 'This browser computed the same digest from the text shown.',
  other: 'STOP: this browser computed ANOTHER DIGEST from the text shown. The page doesn’t sign it. Call your administrator.',
  none: 'This browser can’t compute the digest. Open the page with https.',
};

export function digestLine({ check, digest }) {
  return h('p', { class: `digest ${check}` }, 'Digest ', h('code', { title: digest }, digest.match(/.{8}/g).join(' ')), h('small', {}, CHECKS[check]));
}

// Asks for confirmation, makes the call, and keeps a refusal to show it on the page.
async function act(page, it, question, buttons, ...body) {
  if (!await confirmed(question, buttons, ...body)) return null;
  const reply = await ask(it);
  await look();
  // (19: the dispatcher has signed this text before, in another tab)
  if (it.do === 'sign' && (reply.done || reply.refused === 19)) keep('signed', page.id, { digest: it.digest, at: reply.done && clock(picture.moment) });
  if (reply.done) {
    drop('refused', page.id);
    notice(doneText(it.do, reply.done));
  } else {
    const release = await releaseOf(page.id);
    keep('refused', page.id, { name: question, at: clock(picture.moment), reply, plan: (it.do === 'depart' ? release.active : release.pending)?.plan });
  }
  if (it.do === 'purge' && reply.done) location.hash = '#/board';
  else await page.refresh(true);
  return reply.done;
}

function sign(page, name, revision) {
  const question = `${name === 'sign' ? 'Sign' : 'Concur with'} revision ${revision.number}`;
  if (revision.check === 'other') return notice(CHECKS.other, 'bad');
  return act(page, { digest: revision.digest, do: name, release: page.id, revision: revision.number }, question, { yes: question },
    h('p', {}, `${session.get().name} signs this text of ${revision.plan.flight}, release ${page.id}, revision ${revision.number}:`), digestLine(revision),
    h('pre', { class: 'text', tabindex: '0' }, revision.text));
}

function move(page, name, row, { active, phase: { leg } }) {
  const it = active.plan.legs[leg - 1];
  const what = name === 'depart' ? 'departure' : 'arrival';
  const fuel = name === 'depart' ? ` Fuel on board ${amount(it.onboard)} lb.` : '';
  return act(page, { do: name, leg, release: page.id }, `Report ${what} of leg ${leg}`, { yes: `Confirm ${what}` },
    h('p', {}, `${active.plan.flight}, leg ${leg} ${it.from}–${it.to}, by revision ${active.number}, which is in force.${fuel} The desk records its current minute.`),
    row?.pending > active.number && h('p', {}, `The desk discards revision ${row.pending}, which isn’t signed by both.`));
}

const prepare = (page, row) => act(page, { do: 'prepare', release: page.id }, `Prepare revision ${row.pending}`, { yes: `Prepare revision ${row.pending}` },
  h('p', {}, 'The desk attaches the latest weather of its stations and makes the text to sign. An earlier signature on this revision becomes void.'));
const acknowledge = (page, { alert }, plan) => act(page, { do: 'acknowledge', release: page.id, version: alert.version }, `Acknowledge alert v${alert.version}`,
  { yes: `Acknowledge alert v${alert.version}` },
  h('p', {}, 'This records that you have seen it. The alert stays until a captain concurs with a revision, the release is cancelled, or the last leg arrives.'),
  alert.findings.length ? findingsList(alert.findings, plan) : h('p', {}, 'No rule fails now.'));
const cancel = (page, row, phase) => act(page, { do: 'cancel', release: page.id }, `Cancel release ${page.id}`,
  { yes: `Cancel release ${page.id}`, no: 'Keep it' }, h('p', {}, `${row.flight} ${row.tail}: ${phaseText(phase, picture.moment)}. A cancelled release can’t be restored.`),
  phase.name === 'FLYING' && h('p', { class: 'refusal' }, `${row.flight} is in the air. The desk then watches it no longer, and raises no more alerts for it. To change its release, go back and amend.`));
const purge = (page) => act(page, { do: 'purge', release: page.id }, `Purge release ${page.id}`,
  { yes: `Purge release ${page.id}`, no: 'Keep it' }, h('p', {}, 'It disappears from every view and can’t be restored.'));

// Where the buttons are: those that come and go are on the right of those that stay, so that none moves to where another one was.
const PLACES = ['amend', 'print', 'depart', 'arrive', 'prepare', 'sign', 'concur', 'acknowledge'];
// What can't be restored is apart, at the other end.
const APART = ['cancel', 'purge'];

// The buttons; the one of the next step is filled. `isStale`: a newer report isn't attached to the pending revision.
export function actions(page, row, release, isStale) {
  const me = session.get();
  const { phase, pending, active } = release;
  const holds = me.role === 'D' && row?.holder === me.name;
  const moves = holds || (me.role === 'C' && active?.plan.captain === me.name);
  const signed = kept('signed', page.id);
  const isSigned = pending && signed?.digest === pending.digest;
  const concurs = me.role === 'C' && pending?.plan.captain === me.name;
  const isOpen = row?.alert && !row.alert.seen;
  const isNext = !row?.pending && !row?.alert?.findings.length;
  const made = new Map();
  const add = (test, name, text, make, first = true) => {
    if (test) made.set(name, button(text, make, { id: `do-${name}`, class: made.size || !first ? null : 'first' }));
  };
  const group = (names, kind) => {
    const found = names.flatMap((name) => made.get(name) ?? []);
    return found.length > 0 && h('p', { class: kind }, found);
  };
  add(holds && row.pending && (!pending || isStale), 'prepare', `Prepare revision ${row?.pending}${pending ? ' again' : ''}`, () => prepare(page, row));
  add(holds && pending && !isSigned, 'sign', `Sign revision ${pending?.number}`, () => sign(page, 'sign', pending));
  add(concurs, 'concur', `Concur with revision ${pending?.number}`, () => sign(page, 'concur', pending));
  add(holds && isOpen, 'acknowledge', `Acknowledge alert v${row?.alert?.version}`, () => acknowledge(page, row, active?.plan));
  add(holds && !phase.ended, 'amend', 'Amend', () => { location.hash = `#/release/${page.id}/amend`; }, row?.alert && !row.pending);
  add(moves && ['READY', 'STOPPED'].includes(phase.name), 'depart', `Report departure of leg ${phase.leg}`, () => move(page, 'depart', row, release), isNext);
  add(moves && phase.name === 'FLYING', 'arrive', `Report arrival of leg ${phase.leg}`, () => move(page, 'arrive', row, release), isNext);
  add(holds && pending && !isStale, 'prepare', `Prepare revision ${pending?.number} again`, () => prepare(page, row), false);
  add(holds && !phase.ended, 'cancel', `Cancel release ${page.id}`, () => cancel(page, row, phase), false);
  add(me.role === 'S' && phase.ended, 'purge', `Purge release ${page.id}`, () => purge(page), false);
  add(pending || active, 'print', 'Print', () => print(), false);
  return h('section', { class: 'actions', 'aria-label': 'Actions' }, group(PLACES, 'buttons'), group(APART, 'buttons apart'),
    isStale && hint('A newer report has arrived for one of its stations. The dispatcher prepares the revision again before it can be signed.'),
    concurs && row && hint(`${unsaid(row)} If not, it refuses your concurrence, which changes nothing.`),
    isSigned && hint(`You signed revision ${pending.number}${signed.at ? ` at ${signed.at}` : ''}. Captain ${pending.plan.captain} concurs next.`),
    'DC'.includes(me.role) && row && !holds && !phase.ended && hint(`Only ${row.holder} can amend, prepare, sign or cancel this release.`));
}

// The latest refusal in words, shown until another action succeeds.
export function refused(page, plan) {
  const last = kept('refused', page.id);
  return last && h('section', { class: 'refusal', role: 'alert' }, h('p', {}, h('strong', {}, `The desk refused “${last.name}” at ${last.at}. `), refusal(last.reply)),
    last.reply.findings && findingsList(last.reply.findings, last.plan ?? plan, true));
}
