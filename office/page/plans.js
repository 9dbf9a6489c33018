// Plans as a dispatcher types them, and the limits that the desk sets for each field.

const AMOUNT = 1000000;
export const FUELS = ['burn', 'extra', 'minimum', 'onboard'];
export const MOMENT = /^(20\d\d)-(\d\d)-(\d\d)T(\d\d):(\d\d)Z$/;
export const emptyLeg = (from = '') => ({ alternates: [], burn: '', eta: '', etd: '', extra: '', from, minimum: '', minutes: '', onboard: '', takeoff_alternate: null, to: '' });
export const emptyPlan = (captain = '') => ({ captain, flight: '', kind: 'domestic', legs: [emptyLeg()], tail: '' });
const isMoment = (text) => MOMENT.test(text) && !Number.isNaN(Date.parse(text)) && new Date(Date.parse(text)).toISOString().startsWith(text.slice(0, 16));

// Reads a typed moment: `1530` or `15:30` is the first such time from `from` on (or from six hours ago). Other texts stay.
export function moment(typed, from, now = Date.now()) {
  const text = typed.trim().toUpperCase();
  const time = /^(\d\d):?(\d\d)Z?$/.exec(text);
  if (!time) return text;
  const least = isMoment(from ?? '') ? Date.parse(from) : now - 6 * 3600000;
  const day = new Date(least);
  day.setUTCHours(Number(time[1]), Number(time[2]), 0, 0);
  if (Number(time[1]) > 23 || Number(time[2]) > 59) return text;
  if (day.getTime() < least) day.setUTCDate(day.getUTCDate() + 1);
  return `${day.toISOString().slice(0, 16)}Z`;
}

// Reads a typed number: `14000`, `14,000` and `14 000` are the same. Other texts stay, also `13,5`, which might mean 13.5.
export function wholeNumber(typed) {
  const digits = /^\d{1,3}([,\s]\d{3})+$/.test(typed) ? typed.replace(/[,\s]/g, '') : typed;
  return /^\d{1,9}$/.test(digits) ? Number(digits) : typed;
}

const isWhole = (value, least, most) => Number.isInteger(value) && value >= least && value <= most;
const isStation = (text) => /^[A-Z][A-Z0-9]{3}$/.test(text);

function legFaults(leg, at, before, add) {
  const station = (value, place) => isStation(value) || add(`${at}.${place}`, 'Type four letters, such as KSEA.');
  station(leg.from, 'from');
  station(leg.to, 'to');
  if (leg.from && leg.from === leg.to) add(`${at}.to`, 'From and To are the same.');
  if (before && before.to !== leg.from) add(`${at}.from`, `The previous leg ends at ${before.to}.`);
  for (const place of ['etd', 'eta']) if (!isMoment(leg[place])) add(`${at}.${place}`, 'Type 1530 or 2026-11-12T15:30Z.');
  const between = (Date.parse(leg.eta) - Date.parse(leg.etd)) / 60000;
  if (between <= 0) add(`${at}.eta`, 'ETA must be after ETD.');
  if (before && Date.parse(leg.etd) < Date.parse(before.eta)) add(`${at}.etd`, 'The previous leg arrives later.');
  if (!isWhole(leg.minutes, 1, 1440)) add(`${at}.minutes`, 'Type 1 to 1,440 minutes.');
  else if (leg.minutes > between) add(`${at}.minutes`, `ETD to ETA is only ${between} minutes.`);
  for (const fuel of FUELS) if (!isWhole(leg[fuel], 0, AMOUNT)) add(`${at}.${fuel}`, 'Type 0 to 1,000,000 lb.');
  const other = leg.takeoff_alternate;
  if (other) {
    station(other.station, 'takeoff.station');
    if (other.station === leg.from) add(`${at}.takeoff.station`, 'This is the departure airport.');
    if (!isWhole(other.minutes, 1, 600)) add(`${at}.takeoff.minutes`, 'Type 1 to 600 minutes.');
  }
  leg.alternates.forEach((it, place) => {
    station(it.station, `alternates.${place}.station`);
    if (it.station === leg.to) add(`${at}.alternates.${place}.station`, 'This is the destination.');
    if (leg.alternates.findIndex((one) => one.station === it.station) < place) add(`${at}.alternates.${place}.station`, 'Already listed above.');
    if (!isWhole(it.minutes, 1, 600)) add(`${at}.alternates.${place}.minutes`, 'Type 1 to 600 minutes.');
    if (!isWhole(it.fuel, 0, AMOUNT)) add(`${at}.alternates.${place}.fuel`, 'Type 0 to 1,000,000 lb.');
  });
}

// The first fault of each field, by the field's place. The Map is empty if the plan may be filed.
export function faults(plan) {
  const found = new Map();
  const add = (place, text) => { if (!found.has(place)) found.set(place, text); };
  if (!/^[A-Z0-9]{1,8}$/.test(plan.flight)) add('flight', 'Type 1 to 8 letters or digits.');
  if (!/^[A-Z0-9-]{1,8}$/.test(plan.tail)) add('tail', 'Type 1 to 8 letters, digits or hyphens.');
  if (!/^[A-Za-z0-9]{1,16}$/.test(plan.captain)) add('captain', 'Type 1 to 16 letters or digits.');
  plan.legs.forEach((leg, place) => legFaults(leg, `legs.${place}`, plan.legs[place - 1], add));
  return found;
}

const KEYS = ['captain', 'flight', 'kind', 'legs', 'tail'];
const LEG_KEYS = ['alternates', 'burn', 'eta', 'etd', 'extra', 'from', 'minimum', 'minutes', 'onboard', 'takeoff_alternate', 'to'];
const hasKeys = (it, keys) => it !== null && typeof it === 'object' && Object.keys(it).sort().join() === keys.join();

// The plan in a JSON text, or the fault of the text.
export function pasted(text) {
  let plan;
  try {
    plan = JSON.parse(text);
  } catch {
    return { fault: 'This text isn’t JSON.' };
  }
  plan = plan?.ask?.plan ?? plan?.plan ?? plan;
  if (!hasKeys(plan, KEYS) || !['domestic', 'flag'].includes(plan.kind)) return { fault: `A plan has exactly these keys: ${KEYS.join(', ')}.` };
  if (!Array.isArray(plan.legs) || plan.legs.length < 1 || plan.legs.length > 8) return { fault: 'A plan has 1 to 8 legs.' };
  const isLeg = (leg) => hasKeys(leg, LEG_KEYS) && Array.isArray(leg.alternates) && leg.alternates.length <= 3
    && leg.alternates.every((it) => hasKeys(it, ['fuel', 'minutes', 'station'])) && (leg.takeoff_alternate === null || hasKeys(leg.takeoff_alternate, ['minutes', 'station']));
  return plan.legs.every(isLeg) ? { plan } : { fault: `A leg has exactly these keys: ${LEG_KEYS.join(', ')}.` };
}
