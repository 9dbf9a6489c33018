// The pages Weather, Equipment and Records.
import { confirmed, h, hint, notice, plainButton, show, title } from './dom.js';
import { session } from './desk.js';
import { asked, seen } from './asking.js';
import { MOMENT } from './plans.js';
import { look, picture } from './picture.js';
import { deferredList } from './release.js';
import * as texts from './texts.js';
import { reading } from './words.js';

const CODE = { class: 'capitals', autocomplete: 'off', spellcheck: 'false' };
const UTC = { size: 18, placeholder: '2026-11-12T14:50Z', pattern: MOMENT.source.slice(1, -1) };
const field = (id, label, props = {}, name = 'input') => h('p', { class: `field ${name}` }, h('label', { for: id }, label), h(name, { id, required: true, ...props }));

// A form. `done` gets the values of its fields by their ids.
function form(heading, yes, fields, done) {
  const submit = (event) => {
    event.preventDefault();
    return done(Object.fromEntries([...event.target.querySelectorAll('input, textarea')].map((it) => [it.id, it.value.trim()])), event.target);
  };
  return h('form', { class: 'page', onsubmit: submit }, h('h2', {}, heading), h('div', { class: 'fields' }, fields, h('button', { class: 'first' }, yes)));
}

export function weatherPage(place, station) {
  const { role } = session.get();
  const said = h('div');
  const fill = async () => {
    if (!station) return;
    const { text, why } = await seen(`/weather/${encodeURIComponent(station)}`);
    const found = why ? [] : texts.weather(text);
    const one = (it) => h('p', {}, h('b', {}, it.kind), ` ${reading(it, picture.moment)}`, h('small', {}, ` (report ${it.id})`));
    show(said, h('h2', {}, station), why && h('p', {}, why), found.map(one), !why && !found.length && hint('No reports for this station.'));
  };
  // Hands in a report, and shows the latest ones of its station: a report that the desk held before keeps its place.
  const admit = async ({ report }, made) => {
    const done = await asked({ do: 'admit', text: report }, (it) => `Accepted as report ${it.report}.`);
    if (!done) return;
    made.reset();
    const [, of = station] = /\b([A-Z][A-Z0-9]{3}) \d{6}Z/.exec(report) ?? [];
    const { text } = await seen(`/weather/${of}`);
    const isLatest = text === undefined || texts.weather(text).some((it) => it.id === done.report);
    if (!isLatest) notice(`Report ${done.report} isn’t the latest of ${of}: the desk has a newer one, or held this one before. Handing it in again doesn’t make it the latest.`, 'bad');
    location.hash = `#/weather/${of}`;
    if (of === station) await fill();
  };
  show(place, title('Weather'), form('Latest reports of a station', 'Show weather', [field('station', 'Station', { ...CODE, size: 6, value: station, pattern: '[A-Za-z][A-Za-z0-9]{3}' })],
    (values) => { location.hash = `#/weather/${values.station.toUpperCase()}`; }), said,
  'FD'.includes(role) && form('Hand in a report', 'Hand in report', [field('report', 'METAR, SPECI or TAF, exactly as received', { rows: 4, maxlength: 4000, spellcheck: 'false' }, 'textarea')], admit));
  fill();
  return (isNew) => isNew && fill();
}

export function equipmentPage(place, tail) {
  const mends = session.get().role === 'M';
  const said = h('div');
  const fill = async () => {
    if (!tail) return;
    const { text, why } = await seen(`/deferred/${encodeURIComponent(tail)}`);
    show(said, h('h2', {}, tail), why ? h('p', {}, why) : deferredList(texts.deferred(text), (it) => mends && plainButton(`Clear deferral ${it.id}`, () => clear(it))));
  };
  const clear = async (it) => {
    if (!await confirmed(`Clear deferral ${it.id}`, { yes: `Clear deferral ${it.id}`, no: 'Keep it' }, h('p', {}, `${tail}, item ${it.item}. Clear it only when the item is repaired.`))) return;
    await asked({ do: 'clear', deferral: it.id }, () => `Deferral ${it.id} cleared.`);
    await fill();
  };
  const defer = async ({ item, found }, made) => {
    const ask = { do: 'defer', found: found || `${new Date().toISOString().slice(0, 16)}Z`, item: item.toUpperCase(), tail };
    if (await asked(ask, (done) => `Entered as deferral ${done.deferral}.`)) made.reset();
    await look();
    await fill();
  };
  show(place, title('Deferred equipment'), form('Open deferrals of an aircraft', 'Show deferrals', [field('tail', 'Aircraft', { ...CODE, size: 9, value: tail, pattern: '[A-Za-z0-9\\-]{1,8}' })],
    (values) => { location.hash = `#/equipment/${values.tail.toUpperCase()}`; }), said,
  mends && tail && form(`Defer an item of ${tail}`, 'Defer item', [field('item', 'Item', { ...CODE, size: 16, maxlength: 16 }),
    field('found', 'Found, UTC (empty: now)', { ...UTC, required: null })], defer));
  fill();
  return (isNew) => isNew && fill();
}

export function recordsPage(place) {
  const sweep = async ({ before }) => {
    const what = `The desk removes reports and stored replies from before ${before}. It keeps the latest reports of each station, and those attached to a release.`;
    if (!await confirmed('Sweep old reports and replies', { yes: 'Sweep', no: 'Keep them' }, h('p', {}, what))) return;
    await asked({ do: 'sweep', before }, (done) => `Swept ${done.reports} reports and ${done.kept} stored replies.`);
  };
  show(place, title('Records'), form('Sweep old reports and replies', 'Sweep', [field('before', 'Older than, UTC (at least three days ago)', UTC)], sweep),
    hint('To purge an ended release, open it from the board: tick “Show ended”.'));
  return () => {};
}
