// The page of a release: its alert, actions, texts, weather and deferrals.
import { h, hint, notice, show, title } from './dom.js';
import { kept, seen } from './asking.js';
import { Refused, Unreached } from './desk.js';
import { actions, digestLine, refused } from './actions.js';
import { alertKind, badge, filedOf, findingsList } from './board.js';
import { hasNewerWeather, look, noteReports, picture, releaseOf, rowOf } from './picture.js';
import { planPage } from './plan_form.js';
import { emptyPlan } from './plans.js';
import * as texts from './texts.js';
import { amount, clock, hoursText, near, phaseText, reading, stamp, standing, viewRefusal } from './words.js';

// Compares the digest of a text, computed here, with the one that the desk names.
async function check({ text, digest }) {
  const bytes = await crypto.subtle?.digest('SHA-256', new TextEncoder().encode(text));
  if (!bytes) return 'none';
  const made = [...new Uint8Array(bytes)].map((byte) => byte.toString(16).padStart(2, '0')).join('');
  return made === digest ? 'same' : 'other';
}

// The weather of the stations of a plan, and the open deferrals of its aircraft.
async function around(plan, phase) {
  const stations = [];
  for (const station of texts.stationsOf(plan, phase)) {
    const { text, why } = await seen(`/weather/${station}`);
    const said = why ? [] : texts.weather(text);
    if (!why) noteReports(station, said);
    stations.push({ station, why, said });
  }
  const { text, why } = await seen(`/deferred/${plan.tail}`);
  return { stations, deferred: why ? null : texts.deferred(text) };
}

function alertPart(row, release) {
  if (!row?.alert) return null;
  const whole = picture.alerts.find((it) => it.id === row.id);
  const plan = release.active?.plan;
  const { findings, version } = row.alert;
  return h('section', { class: `alert ${alertKind(row.alert)}`, 'aria-label': 'Alert' },
    h('p', {}, badge(row.alert), ` version ${version}`, whole && `, opened ${near(whole.opened, picture.moment)}`),
    findings.length ? findingsList(findings, plan, true) : h('p', {}, 'No rule fails now, but the signed release failed one since the alert opened. Acknowledge the alert.'),
    whole?.ever.length > findings.length && h('details', {}, h('summary', {}, 'Every rule that failed since the alert opened'), findingsList(whole.ever, plan)));
}

// What a sheet shows first, in large letters. On the screen only an ended release has it: the rest is told in a sentence.
function stamped(phase, isSigned) {
  const words = stamp(phase, picture.moment, isSigned);
  return words.length > 0 && h('p', { class: `stamp ${phase.ended ? '' : 'printed'}` }, words.map((it) => h('strong', {}, `${it} `)));
}

// A revision as the sheet that is signed and printed.
function paper(id, revision, phase, isPending) {
  if (!revision) return null;
  const { number, dispatcher, signed, captain, concurred, hours } = revision;
  const signs = isPending ? 'Not signed by both. Not valid for dispatch.'
    : `Dispatcher ${dispatcher} signed at ${signed}. Captain ${captain} (${hoursText(hours)}) concurred at ${concurred}.`;
  return h('article', { class: `paper ${isPending ? 'pending' : 'signed'}` }, stamped(phase, !isPending),
    h('h2', {}, `Revision ${number}, ${standing(phase, isPending)}`), h('p', { class: 'signs' }, signs),
    h('pre', { class: 'text', tabindex: '0' }, revision.text), digestLine(revision),
    h('p', { class: 'printed' }, `Release ${id} at ${picture.moment}, the desk’s time. The digest is the SHA-256 of the text.`));
}

// The sheet of a release without a text: a draft that isn't prepared, or was cancelled.
const blank = (id, phase) => h('article', { class: `paper ${phase.ended ? '' : 'printed'}` }, stamped(phase, false),
  h('p', { class: 'printed' }, `Release ${id} at ${picture.moment}, the desk’s time.`));

function legs({ number, plan }, stands) {
  const other = (it) => `${it.station} ${it.minutes} min${it.fuel === undefined ? '' : ` ${amount(it.fuel)} lb`}`;
  const fuel = (leg) => `burn ${amount(leg.burn)}, extra ${amount(leg.extra)}, minimum ${amount(leg.minimum)}, on board ${amount(leg.onboard)} lb`;
  return h('section', {}, h('h2', {}, `Legs of revision ${number}, ${stands}`), plan.legs.map((leg, place) => h('p', {},
    h('b', {}, `${place + 1} ${leg.from}–${leg.to}`), ` ${near(leg.etd, picture.moment)} to ${clock(leg.eta)}, ${leg.minutes} min. `,
    `Alternates: ${leg.alternates.map(other).join(', ') || 'none'}. `, leg.takeoff_alternate && `Takeoff alternate: ${other(leg.takeoff_alternate)}. `,
    `Fuel: ${fuel(leg)}.`)));
}

// The latest reports of each station in words, and the report itself if it is attached. `attaches`: the newest revision is prepared, so that it attaches reports.
function weather(stations, reports, attaches) {
  const one = (it) => {
    const raw = reports.find((report) => report.id === it.id);
    return h('div', {}, h('p', {}, h('b', {}, it.kind), ` ${reading(it, picture.moment)}`),
      raw ? h('p', { class: 'raw' }, raw.text) : attaches && h('p', { class: 'newer' }, `Report ${it.id} is newer and isn’t attached.`));
  };
  return stations.length > 0 && h('section', {}, h('h2', {}, 'Weather at its stations'), stations.map(({ station, why, said }) => h('div', { class: 'station' },
    h('h3', {}, station), why && h('p', {}, why), !why && said.length === 0 && hint('No reports.'), said.map(one))));
}

export function deferredList(items, more = (_) => null) {
  const due = (it) => (it.due === '-' ? 'not in this type’s equipment list' : `due ${near(it.due, picture.moment)}`);
  return items.length ? h('ul', { class: 'deferred' }, items.map((it) => h('li', {}, h('b', {}, `${it.id}: ${it.item}`),
    ` found ${near(it.found, picture.moment)}, ${due(it)} `, more(it)))) : hint('No open deferrals.');
}

export function releasePage(place, id, isAmending) {
  const page = { id, refresh };
  let shown = '';
  let text = '';
  const draw = (row, release, newest, { stations, deferred }) => {
    const { phase, pending, active } = release;
    const plan = newest?.plan;
    const names = plan ? `${plan.flight} ${plan.tail}` : row && `${row.flight} ${row.tail}`;
    const isStale = hasNewerWeather(release);
    show(place,
      title(`Release ${id}${names ? ` · ${names}` : ''}`, h('span', { class: `phase ${phase.name.toLowerCase()}` }, phaseText(phase, picture.moment)),
        row && h('span', { class: 'hint' }, `held by ${row.holder}`)),
      alertPart(row, release), actions(page, row, release, isStale), refused(page, plan),
      h('div', { class: 'columns' },
        h('div', {}, paper(id, pending, phase, true), paper(id, active, phase, false), !pending && !active && blank(id, phase),
          row?.pending > 0 && !pending && h('p', { class: 'note' }, `Revision ${row.pending} is filed. It isn’t valid for dispatch. Prepare it to make the text that is signed.`)),
        h('div', { class: 'aside' }, newest && legs(newest, newest.text ? standing(phase, newest === pending) : 'not prepared'),
          weather(stations, [...(pending?.reports ?? []), ...(active?.reports ?? [])], newest?.text),
          deferred && h('section', {}, h('h2', {}, `Deferred equipment of ${plan.tail}`), deferredList(deferred)))));
  };
  const failed = (fault) => {
    if (fault instanceof Unreached) notice('No connection to the desk.', 'bad');
    else if (!(fault instanceof Refused)) throw fault;
    else if (!shown || fault.reply.refused === 10) {
      shown = '';
      text = '';
      show(place, title(`Release ${id}`), h('p', {}, viewRefusal(fault.reply)));
    }
  };
  // Gets the view of the release. If it or the board is new, gets the other views too, and redraws what changed.
  async function refresh(isAnew = false, isNew = true) {
    const release = await releaseOf(id);
    const isChanged = release.text !== text;
    if (!isAnew && !isNew && !isChanged) return;
    text = release.text;
    // The board may be older than this view, and only the board names a pending revision that isn't prepared.
    if (isChanged) await look();
    const row = rowOf(id);
    for (const it of [release.pending, release.active]) if (it) it.check = await check(it);
    const filed = row && filedOf(row);
    const newest = release.pending ?? (filed ? { number: row.pending, plan: filed } : release.active);
    const more = newest && !release.phase.ended ? await around(newest.plan, release.phase) : { stations: [], deferred: null };
    const all = JSON.stringify([row, release, more, kept('refused', id), kept('signed', id)]);
    if (isAnew || all !== shown) draw(row, release, newest, more);
    shown = all;
  }
  // The form of an amendment, filled with the newest plan that this tab knows. It waits for the board, which names the pending revision.
  const amend = async () => {
    if (place.querySelector('form')) return;
    const release = await releaseOf(id);
    await look();
    const row = rowOf(id);
    if (!row || place.querySelector('form')) return;
    planPage(place, row, filedOf(row) ?? (release.pending ?? release.active)?.plan ?? emptyPlan());
  };
  const draws = isAmending ? amend : refresh;
  draws().catch(failed);
  return (isNew) => draws(false, isNew).catch(failed);
}
