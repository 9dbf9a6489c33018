// The page's copy of the board, the alerts and the releases it has viewed, and its age.
import { Refused, Unreached, view } from './desk.js';
import * as texts from './texts.js';

// Milliseconds after which a pending release, and the weather of its stations, are viewed again; and how many of each are viewed at once.
const OLD = 30000;
const [RELEASES_AT_ONCE, STATIONS_AT_ONCE] = [8, 4];
// `trouble` is when the page first failed to get the board, and `reply` the desk's refusal of it, if it answered.
const EMPTY = { moment: '', releases: [], alerts: [], at: 0, trouble: null, reply: null };
export const picture = { ...EMPTY };
const seen = { board: '', alerts: '' };
const known = new Map();
// Of each station viewed: when, and the ids of its latest reports.
const latest = new Map();
export const age = () => (picture.at ? Math.round((Date.now() - picture.at) / 1000) : 0);
const stateOf = (row) => [row.rev, row.pending, ...Object.values(row.phase)].join();
// Gets the board, and the alerts if the board shows that they changed. Answers whether anything is new.
export async function look() {
  try {
    const text = await view('/board');
    const board = texts.board(text);
    const alerts = board.releases.map((row) => `${row.id} ${row.alert?.version} ${row.alert?.seen}`).join();
    if (alerts !== seen.alerts) picture.alerts = texts.alerts(await view('/alerts'));
    const isNew = text !== seen.board || picture.trouble !== null;
    Object.assign(seen, { board: text, alerts });
    Object.assign(picture, board, { at: Date.now(), trouble: null, reply: null });
    return isNew;
  } catch (fault) {
    if (fault.endsSession) throw fault;
    if (!(fault instanceof Unreached || fault instanceof Refused)) console.error(fault);
    picture.trouble ??= Date.now();
    picture.reply = fault.reply ?? null;
    return false;
  }
}

export const rowOf = (id) => picture.releases.find((row) => row.id === id);
export const knownOf = (row) => known.get(row.id)?.release;

export async function releaseOf(id) {
  const text = await view(`/release/${id}`);
  const release = texts.release(text);
  const row = rowOf(id);
  if (row) known.set(id, { state: stateOf(row), at: Date.now(), release });
  return { ...release, text };
}

export const noteReports = (station, said) => latest.set(station, { at: Date.now(), ids: said.map((it) => it.id) });

// Whether a station of the pending revision has a report that came after those that are attached, as far as this page has viewed them: ids rise.
export function hasNewerWeather({ pending, phase }) {
  const last = Math.max(0, ...(pending?.reports ?? []).map((it) => it.id));
  return Boolean(pending) && texts.stationsOf(pending.plan, phase).some((station) => latest.get(station)?.ids.some((id) => id > last));
}

// Gets the releases that changed on the board, some at once, so that rows can name stations and times. Answers whether there are any.
async function lookAtReleases() {
  const stale = picture.releases.filter((row) => {
    const one = known.get(row.id);
    const isWaiting = row.pending > 0 && (!one?.release.pending || hasNewerWeather(one.release));
    return !row.phase.ended && (!one || one.state !== stateOf(row) || (isWaiting && Date.now() - one.at > OLD));
  });
  stale.sort((one, other) => Number(Boolean(other.alert)) - Number(Boolean(one.alert)));
  for (const row of stale.slice(0, RELEASES_AT_ONCE)) await releaseOf(row.id);
  return stale.length > 0;
}

// Gets the latest reports of the stations of prepared revisions, some at once. Answers whether any is new.
async function lookAtWeather() {
  const viewed = (station) => latest.get(station)?.at ?? 0;
  const waiting = picture.releases.filter((row) => row.pending > 0 && !row.phase.ended && knownOf(row)?.pending);
  const stations = new Set(waiting.flatMap((row) => texts.stationsOf(knownOf(row).pending.plan, row.phase)));
  const old = [...stations].filter((it) => Date.now() - viewed(it) > OLD).sort((one, other) => viewed(one) - viewed(other));
  let isNew = false;
  for (const station of old.slice(0, STATIONS_AT_ONCE)) {
    const before = latest.get(station)?.ids ?? [];
    latest.set(station, { at: Date.now(), ids: before });
    noteReports(station, texts.weather(await view(`/weather/${station}`)));
    isNew ||= String(latest.get(station).ids) !== String(before);
  }
  return isNew;
}

// Views what the board alone doesn't show. Answers whether anything is new.
export async function lookCloser() {
  let isNew = false;
  for (const part of [lookAtReleases, lookAtWeather]) {
    try {
      isNew = await part() || isNew;
    } catch (fault) {
      if (!(fault instanceof Unreached || fault instanceof Refused)) throw fault;
    }
  }
  return isNew;
}

export function forget() {
  known.clear();
  latest.clear();
  Object.assign(seen, { board: '', alerts: '' });
  Object.assign(picture, EMPTY);
}
