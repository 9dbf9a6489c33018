// The board: a row for each release, alerts first.
import { h, show, title } from './dom.js';
import { kept } from './asking.js';
import { session } from './desk.js';
import { hasNewerWeather, knownOf, picture } from './picture.js';
import { clock, finding, near, phaseText } from './words.js';

const HEADS = ['Flight', 'Aircraft', 'Route', 'Phase', 'Revision', 'Next step', 'Holder', 'Alert'];
const ORDER = ['FLYING', 'STOPPED', 'READY', 'DRAFTED', 'COMPLETED', 'CANCELLED'];
const BADGES = { open: 'Alert', seen: 'Acknowledged', over: 'No rule fails now' };
const LEGEND = [
  ['Route', 'the stations, and ETD → ETA of the leg in bold. All times are UTC'],
  ['Phase', '“Draft”: no captain has concurred. “Ready”: both have signed, and leg 1 is next. “Flying leg 1”. “Stopped before leg 2”, with the time of the last arrival. “Completed”: the last leg has arrived. “Cancelled”'],
  ['Revision', 'the revision in force, which dispatcher and captain have signed. A dash: none yet'],
  ['Next step', 'what the pending revision or the alert needs. “Sign”: the holder signs, then the captain concurs. “Sign or concur”: the desk doesn’t show whether the holder has signed, and only the tab in which the holder signed knows. “Newer weather”: a report has arrived that isn’t attached, so the desk accepts no signature until it is'],
  ['Holder', 'the dispatcher who drafted the release. Only this dispatcher can amend, prepare, sign, cancel or acknowledge'],
  ['Alert', 'the active release fails a rule. v2 is the second version of the alert'],
  ['Acknowledged', 'the holder has seen this version of the alert'],
  ['No rule fails now', 'the alert remains until a captain concurs, the release is cancelled, or the last leg arrives'],
];
const EVERYTHING = { text: '', mine: false, ended: false };
const filter = { ...EVERYTHING };
export const forgetFilter = () => Object.assign(filter, EVERYTHING);
export const alertKind = (alert) => (!alert ? 'none' : alert.findings.length === 0 ? 'over' : alert.seen ? 'seen' : 'open');
export const badge = (alert) => h('strong', { class: `badge ${alertKind(alert)}` }, BADGES[alertKind(alert)]);

// Findings in words, with names and times of the plan; with advice if wanted.
export function findingsList(codes, plan, withAdvice = false) {
  return h('ul', { class: 'findings' }, codes.map((code) => {
    const said = finding(code, plan);
    return h('li', { title: code }, h('b', {}, `${said.leg}:`), ` ${said.text}. `, h('cite', {}, said.section),
      withAdvice && h('span', { class: 'advice' }, said.advice));
  }));
}

const rank = (row) => ['open', 'over', 'seen', 'none'].indexOf(alertKind(row.alert)) * 10 + ORDER.indexOf(row.phase.name);
// The plan that this tab filed as the pending revision: no view shows it until that is prepared.
export function filedOf(row) {
  const filed = kept('filed', row.id);
  return filed?.revision === row.pending ? filed.plan : undefined;
}
const planOf = (row) => (knownOf(row)?.active ?? knownOf(row)?.pending)?.plan ?? filedOf(row);

// The stations of the flight. The leg that is next or in flight is bold, with its times.
function route(row) {
  const plan = planOf(row);
  if (!plan) return '';
  const place = Math.min(Math.max(row.phase.leg, 1), plan.legs.length) - 1;
  const stations = [plan.legs[0].from, ...plan.legs.map((leg) => leg.to)];
  const named = stations.flatMap((it, number) => [number ? '–' : '', number === place || number === place + 1 ? h('b', {}, it) : it]);
  const { etd, eta } = plan.legs[place];
  return [h('span', { class: 'route' }, named), h('span', { class: 'times' }, ` ${near(etd, picture.moment)} → ${clock(eta)}`)];
}

export const unsaid = (row) => `The desk doesn’t show whether ${row.holder} has signed.`;

// What to do next. No view shows whether the holder has signed: only the tab in which the holder did knows. For anybody else it comes with the reason.
function nextStep(row) {
  if (!row.pending && row.alert) return !row.alert.seen ? 'Acknowledge alert' : row.alert.findings.length ? 'Amend' : '';
  if (!row.pending) return '';
  const known = knownOf(row);
  if (!known) return `Rev ${row.pending}`;
  const { pending } = known;
  if (hasNewerWeather({ pending, phase: row.phase })) return `Newer weather: prepare rev ${row.pending}`;
  if (!pending) return `Prepare rev ${row.pending}`;
  if (kept('signed', row.id)?.digest === pending.digest) return `Captain: concur, rev ${row.pending}`;
  const { name } = session.get();
  if (row.holder === name) return `Sign rev ${row.pending}`;
  return h('span', { title: unsaid(row) }, `Sign or concur, rev ${row.pending}`, pending.plan.captain === name && h('small', {}, ` ${unsaid(row)}`));
}

function rowOf(row) {
  const phase = row.phase.name.toLowerCase();
  const cell = (name, ...content) => h('td', { 'data-name': name, class: name.toLowerCase() }, ...content);
  return h('tr', { class: `${alertKind(row.alert)} ${phase}`, onclick: () => { location.hash = `#/release/${row.id}`; } },
    h('th', { scope: 'row' }, h('a', { href: `#/release/${row.id}`, id: `row-${row.id}`, class: 'row' }, row.flight), h('small', {}, ` ${row.id}`)),
    cell('Aircraft', row.tail),
    cell('Route', route(row)),
    cell('Phase', h('span', { class: `phase ${phase}` }, phaseText(row.phase, picture.moment))),
    cell('Revision', row.rev ? String(row.rev) : '–'),
    cell('Step', nextStep(row)),
    cell('Holder', row.holder),
    cell('Alert', row.alert && h('div', { class: 'said' }, h('span', {}, badge(row.alert), h('small', {}, ` v${row.alert.version}`)),
      findingsList(row.alert.findings, planOf(row)))));
}

// The wall shows every release that hasn't ended, whatever the filter of the board.
function isShown(row, me, isWall) {
  if (isWall) return !row.phase.ended;
  if (row.phase.ended && !filter.ended) return false;
  const plan = planOf(row);
  if (filter.mine && row.holder !== me.name && plan?.captain !== me.name) return false;
  const stations = (plan?.legs ?? []).flatMap((leg) => [leg.from, leg.to]);
  const names = [row.id, row.flight, row.tail, row.holder, row.phase.name, plan?.captain, ...stations];
  return names.join(' ').toLowerCase().includes(filter.text.toLowerCase());
}

function summary() {
  const count = (test) => picture.releases.filter(test).length;
  const alerts = Object.entries(BADGES).map(([kind, name]) => [kind, count((row) => alertKind(row.alert) === kind), name]);
  const phases = ['Flying', 'Stopped', 'Ready', 'Draft'].map((name) => ['', count((row) => row.phase.name.startsWith(name.toUpperCase())), name]);
  return h('ul', { class: 'summary', 'aria-label': 'Number of releases' },
    [...alerts, ...phases].map(([kind, number, name]) => h('li', { class: number ? kind : 'zero' }, `${name} `, h('b', {}, String(number)))));
}

export function boardPage(place, isWall) {
  const me = session.get();
  const body = h('tbody');
  const numbers = h('div');
  const fill = () => {
    const rows = picture.releases.filter((row) => isShown(row, me, isWall)).sort((one, other) => rank(one) - rank(other) || one.id - other.id);
    const empty = picture.at ? 'No releases to show.' : 'Loading …';
    show(numbers, summary());
    show(body, rows.length ? rows.map(rowOf) : h('tr', { class: 'empty' }, h('td', { colspan: HEADS.length }, empty)));
  };
  const change = (name, value) => { filter[name] = value; fill(); };
  const box = (name, text) => h('label', { class: 'box' },
    h('input', { type: 'checkbox', checked: filter[name], onchange: (event) => change(name, event.target.checked) }), ` ${text}`);
  const find = h('input', { id: 'find', type: 'search', value: filter.text, size: 30, placeholder: 'flight, aircraft, station, name',
    oninput: (event) => change('text', event.target.value) });
  show(place,
    title('Board', numbers, !isWall && h('div', { class: 'filter' }, h('label', { for: 'find' }, 'Find'), find, box('mine', 'My flights only'), box('ended', 'Show ended'))),
    h('div', { class: 'scroll' }, h('table', { class: 'board' },
      h('thead', {}, h('tr', {}, HEADS.map((name) => h('th', { scope: 'col' }, name)))), body)),
    !isWall && h('details', { class: 'hint' }, h('summary', {}, 'Legend'), LEGEND.map(([name, text]) => h('p', {}, h('b', {}, name), `: ${text}.`))));
  fill();
  return (isNew) => isNew && fill();
}
