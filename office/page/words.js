// The desk's codes in plain English: findings, refusals, phases, weather and moments.

export const clock = (moment) => (moment ? `${moment.slice(11, 16)}Z` : '');
export const amount = (number) => Number(number).toLocaleString('en-US');
export const hoursText = (hours) => (hours === '-' ? 'hours not recorded' : `${amount(hours)} hour${hours === '1' ? '' : 's'} in the type`);
// The time of day of a moment; with month and day unless the moment is of today.
export const near = (moment, today) => (moment.slice(0, 10) === today.slice(0, 10) ? clock(moment) : `${moment.slice(5, 10)} ${clock(moment)}`);
const later = (moment, minutes) => clock(new Date(Date.parse(moment) + minutes * 60000).toISOString());
const to = (leg) => `destination ${leg.to ?? ''}`.trim();
const from = (leg) => `departure ${leg.from ?? ''}`.trim();
const takeoff = (leg) => `takeoff alternate ${leg.takeoff_alternate?.station ?? ''}`.trim();
const other = (leg, place) => `alternate ${place}${leg.alternates?.[place - 1] ? ` (${leg.alternates[place - 1].station})` : ''}`;
const airport = (leg, place) => (place === 0 ? to(leg) : place === 9 ? takeoff(leg) : other(leg, place));
// The arrival at an alternate: its minutes after the ETA, or of a takeoff alternate after the ETD.
const there = (it, word, moment) => (it ? ` at ${later(moment, it.minutes)} (${word} + ${it.minutes} min)` : ' at the time of arrival there');
const at = (word, moment) => ` at ${word} ${clock(moment)}`.trimEnd();
const pounds = (name, number) => (number === undefined ? name : `${name} ${amount(number)} lb`);
const noMinima = (leg) => `${from(leg)} doesn’t meet landing minima${at('ETD', leg.etd)}`;
const STOP = (hours) => () => `stopped for more than ${hours} before this leg without a new release`;
const AGAIN = 'Release the flight again: amend (the same plan will do if it still fits), prepare, sign, concur.';
const REPORT = 'Or hand in a newer report.';
const MORE_FUEL = 'Amend: more minimum fuel, and as much on board.';
const REPAIR = 'Have the item repaired and its deferral cleared. Or amend:';

// Of each rule: its section, the text of a finding on a leg and a place, and what a dispatcher can do.
const RULES = {
  '121.593': ['14 CFR 121.593', STOP('1 hour'), AGAIN],
  121.595: ['14 CFR 121.595', STOP('6 hours'), AGAIN],
  121.613: ['14 CFR 121.613, 121.652', (leg) => `${to(leg)} doesn’t meet any landing minimum that this aircraft and captain can use${at('ETA', leg.eta)}`,
    `Amend: another destination, another ETA, or a captain with 100 hours in the type. Or have the equipment repaired that the approach needs. ${REPORT}`],
  '121.617-ALT': ['14 CFR 121.617(a)', (leg) => `${noMinima(leg)}, and no takeoff alternate is listed`, `Amend: add a takeoff alternate, or a later ETD. ${REPORT}`],
  '121.617-RANGE': ['14 CFR 121.617(a)', (leg) => `${noMinima(leg)}, and ${takeoff(leg)} is too far with one engine out, or its distance isn’t in the tables`,
    'Amend: a nearer takeoff alternate. Or ask your administrator to add the distance.'],
  '121.617-WX': ['14 CFR 121.617(b)', (leg) => `${noMinima(leg)}, and ${takeoff(leg)} doesn’t meet its alternate minima${there(leg.takeoff_alternate, 'ETD', leg.etd)}`,
    `Amend: another takeoff alternate. ${REPORT}`],
  '121.619-NONE': ['14 CFR 121.619(a)', (leg) => `the weather at ${to(leg)} requires an alternate, and none is listed`, `Amend: add an alternate. ${REPORT}`],
  '121.619-SECOND': ['14 CFR 121.619(a)', (leg) => `${to(leg)} and its only alternate are both marginal`, `Amend: add a second alternate, or choose a better one. ${REPORT}`],
  '121.621-NONE': ['14 CFR 121.621(a)', (leg) => `${to(leg)} requires an alternate, and none is listed`, `Amend: add an alternate. ${REPORT}`],
  121.625: ['14 CFR 121.625', (leg, place) => `${other(leg, place)} doesn’t meet its alternate minima${there(leg.alternates?.[place - 1], 'ETA', leg.eta)}`,
    `Amend: another alternate, or none if none is required. ${REPORT}`],
  '121.628-LIMIT': ['14 CFR 121.628', (_, place) => `the equipment list forbids this leg with deferral ${place}`, `${REPAIR} another aircraft or a shorter leg.`],
  '121.628-DUE': ['14 CFR 121.628', (leg, place) => `deferral ${place} is due${at('or before ETA', leg.eta)}`, `${REPAIR} another aircraft or an earlier ETA.`],
  '121.631-TYPE': ['14 CFR 121.631(a)', (leg, place) => `this aircraft type may not use ${airport(leg, place)}`, 'Amend: another airport, or an aircraft of another type.'],
  121.639: ['14 CFR 121.639', (leg) => `${pounds('minimum fuel', leg.minimum)} is less than a domestic leg requires`, MORE_FUEL],
  121.645: ['14 CFR 121.645', (leg) => `${pounds('minimum fuel', leg.minimum)} is less than a flag leg requires`, MORE_FUEL],
  'DESK-BOARD': ['', (leg) => `${pounds('fuel on board', leg.onboard)} is less than ${pounds('minimum fuel', leg.minimum)}`,
    'Amend: more fuel on board, or a lower minimum if the fuel rules allow it.'],
  'DESK-LATE-OFF': ['', (leg) => `not departed, past the airline’s limit after ETD ${clock(leg.etd)}`.trimEnd(), 'Amend with a later ETD and ETA, or cancel the release.'],
  'DESK-LATE-ON': ['', (leg) => `not arrived, past the airline’s limit after ETA ${clock(leg.eta)}`.trimEnd(),
    'Find out where the aircraft is. If it has landed, report the arrival. Otherwise amend with a later ETA.'],
  'DESK-TABLES': ['', () => 'the plan no longer fits the airline’s tables', 'Amend with a plan that fits them. Or ask your administrator to correct the tables.'],
};

// A finding such as `121.625/1/1` in words: leg, text, section and advice. The plan, if known, gives names and times.
export function finding(code, plan) {
  const [rule, number, place] = code.split('/');
  const [section, says, advice] = RULES[rule] ?? ['', () => 'this page doesn’t know this rule', ''];
  const leg = plan?.legs[Number(number) - 1] ?? {};
  const route = leg.from ? ` ${leg.from}–${leg.to}` : '';
  return { section: section || `desk rule ${rule}`, advice, leg: Number(number) ? `Leg ${number}${route}` : 'Whole plan', text: says(leg, Number(place)) };
}

export function phaseText({ name, leg, since, again }, today) {
  if (name === 'FLYING') return `Flying leg ${leg}`;
  if (name === 'STOPPED') return `Stopped before leg ${leg} since ${near(since, today)}${again ? ', released again' : ''}`;
  return { DRAFTED: 'Draft', READY: 'Ready' }[name] ?? `${name === 'COMPLETED' ? 'Completed' : 'Cancelled'} ${near(since, today)}`;
}

// What a sheet of a release is stamped with. A revision in force has no stamp.
export function stamp({ name, since }, today, isSigned) {
  const moment = since ? ` ${near(since, today)}` : '';
  if (name === 'COMPLETED') return [`COMPLETED${moment}`];
  return [name === 'CANCELLED' && `CANCELLED${moment}`, (name === 'CANCELLED' || !isSigned) && 'NOT VALID FOR DISPATCH'].filter(Boolean);
}
// The standing of a revision with a text. No revision of an ended release is in force.
export const standing = ({ name, ended }, isPending) => (ended ? name.toLowerCase() : isPending ? 'pending' : 'in force');

// The phase in a refusal, such as `STOPPED 2 2026-11-12T16:31Z`, in words.
const phaseIn = ([name, leg, since = leg]) => phaseText({ name, leg, since }, since ?? '');

const REPORT_FAULTS = {
  TooLong: 'It is longer than 2,048 bytes.', Missing: 'It ends too early.', BadVisibility: 'This isn’t a visibility, such as 4SM or 1 1/2SM.',
  NotStation: 'A station such as KSEA must come here.', NotTime: 'A time such as 121651Z must come here.', BadSky: 'This isn’t a layer of cloud, such as OVC012.',
  BadPeriod: 'This isn’t a period such as 1212/1318, or an FM or PROB group; or the word TAF is missing at the start.',
};
const PLAN_FAULTS = {
  UnknownTail: 'The airline has no such aircraft.', UnknownCaptain: 'No captain has this name.', Amount: 'An amount of fuel is above 1,000,000 lb.',
  Count: 'A plan has 1 to 8 legs, and a leg has at most 3 alternates.', NoAirport: 'A station isn’t in the airline’s airport table.',
  Repeated: 'A station appears twice where it may not.', Unjoined: 'The leg doesn’t begin where the previous leg ends.',
  Times: 'Times are out of order, or the air time doesn’t fit between ETD and ETA.', Flown: 'What has been flown can’t change.',
  Changed: 'The flight number and the kind of flight can’t change, nor the aircraft while a leg is in flight.',
};
const STAGES = ['No revision is pending. Amend the release first.', 'The revision isn’t prepared. The dispatcher prepares it first.',
  'The dispatcher hasn’t signed this text. Concur after the dispatcher has signed.'];
// A group of a report, in quotes. The desk counts the first word as group 1, and a final = isn't part of the last group.
function groupOf({ group }, ask) {
  const groups = (ask?.text ?? '').replace(/=[ \t\r\n]*$/, '').split(/[ \t\r\n]+/).filter(Boolean);
  const it = [...groups[group - 1] ?? ''];
  return `group ${group}${it.length ? `, “${it.length > 20 ? `${it.slice(0, 20).join('')}…` : it.join('')}”,` : ''} of the report`;
}
const full = (what, remedy) => (r) => `The desk holds ${amount(r.held)} ${what} and accepts no more. ${remedy}`;

// Of each refusal by number: the cause, and what to do. They are given the reply, and the call if the caller has it.
const REFUSALS = {
  1: () => 'Unknown name. Check its spelling: capitals matter.',
  2: () => 'Wrong key. Type it again, or ask your administrator.',
  3: () => 'Your role may not do this. Ask a colleague whose role it is.',
  5: (r, ask) => `The desk can’t read ${r.group ? groupOf(r, ask) : 'the report'}. ${REPORT_FAULTS[r.what] ?? r.what} Correct the report and hand it in again.`,
  6: (r, ask) => `The day in ${groupOf(r, ask)} is too far from today. Check its date: old reports can’t be handed in.`,
  7: full('reports', 'Ask the records keeper to sweep old ones.'),
  8: () => 'The airline has no such aircraft. Check its registration.',
  9: () => 'No open deferral has this number. It may have been cleared already.',
  10: () => 'No release has this number. Look for the flight on the board.',
  11: (r) => `Only ${r.holder} may do this. Ask ${r.holder}.`,
  12: (r) => `The desk can’t accept the plan${r.leg ? `, leg ${r.leg}` : ''}. ${PLAN_FAULTS[r.what] ?? r.what} Correct it and file again.`,
  13: (r) => STAGES[r.stage],
  14: (r) => `Revision ${r.current} is pending now. Read it, then sign that one.`,
  15: (r) => `The text has changed since you read it: its digest now begins with ${r.digest.slice(0, 8)}. Read it again, then sign it.`,
  16: (r) => `Report ${r.report} is newer than the attached weather. The dispatcher prepares the revision again, then both sign the new text.`,
  17: () => 'These rules fail now:',
  18: (r) => `The release is now in the phase “${phaseIn(r.phase.split(' '))}”, which doesn’t allow this.`,
  19: () => 'The dispatcher has signed this text already. The captain concurs next.',
  20: () => 'The release has no alert. It may have closed already.',
  21: (r) => `The alert has changed to version ${r.version}. Read it, then acknowledge that version.`,
  22: (r) => `This must be kept until ${r.until}. Try again then.`,
  23: full('releases', 'Ask the records keeper to purge old ones.'),
  24: () => 'The desk’s history is full. Ask your administrator to restart the desk or have old replies swept.',
  25: () => 'The station isn’t in the airline’s airport table. Check its code.',
  26: () => 'The desk couldn’t store this, so nothing changed: its disk or file has failed. Call your administrator.',
  28: () => 'The equipment list of this type has no such item. Check its number.',
  29: (r) => `This is later than the desk’s time, ${r.now}. Correct the time.`,
  30: full('open deferrals', 'Ask maintenance to clear repaired ones.'),
};
export function refusal(reply, ask) {
  if (reply.bad) return `The desk can’t read what this page sent (${reply.bad}${reply.key ? ` at ${reply.key}` : ''}). Call your administrator.`;
  return REFUSALS[reply.refused]?.(reply, ask) ?? `The desk refused: ${reply.error ?? `${reply.refused} ${reply.why}`}.`;
}
// A view changes nothing but the desk's time.
export const viewRefusal = (reply) => (reply.refused === 26 ? 'The desk can’t store its time: its disk or file has failed. Call your administrator.' : refusal(reply));

// A sixteenth of a statute mile and ten kilometres, in the desk's millimetres.
const [SIXTEENTH, TEN_KILOMETRES] = [100584, 10000000];
const PARTS = ['', '1/16', '1/8', '3/16', '1/4', '5/16', '3/8', '7/16', '1/2', '9/16', '5/8', '11/16', '3/4', '13/16', '7/8', '15/16'];
// The desk gives CLR as 12,000 ft, and NSC, NCD and CAVOK as 5,000 ft.
const CEILINGS = { '-': 'ceiling unknown', 100000: 'no ceiling', 12000: 'ceiling 12,000 ft or higher', 5000: 'ceiling 5,000 ft or higher' };

// A visibility as dispatchers write it: 4SM, 1 1/2SM, P6SM, M1/4SM. Metres unless it is a whole number of sixteenths, or a millimetre off for P and M.
function visibility(text) {
  if (text === '-') return 'visibility unknown';
  const sixteenths = Math.round(Number(text) / SIXTEENTH);
  const off = Number(text) - sixteenths * SIXTEENTH;
  if (Math.abs(off) > 1) return `visibility ${amount(Math.round(Number(text) / 1000))} m${Number(text) === TEN_KILOMETRES ? ' or more' : ''}`;
  const miles = [Math.floor(sixteenths / 16) || '', PARTS[sixteenths % 16]].filter(Boolean).join('\u00a0') || '0';
  return `visibility ${off > 0 ? 'P' : off < 0 ? 'M' : ''}${miles}SM`;
}

// A line of a station's weather in words.
export function reading(said, today) {
  if (said.nil) return 'NIL, no report';
  if (said.cancelled) return 'CNL, cancelled';
  const many = (number, words) => `, ${number} ${words}${number === 1 ? '' : 's'}`;
  if (said.kind === 'TAF') return `issued ${near(said.moment, today)}, valid ${near(said.from, today)} to ${near(said.to, today)}${many(said.parts, 'forecast part')}`;
  const sky = CEILINGS[said.ceiling] ?? `ceiling ${amount(said.ceiling)} ft`;
  return `observed ${near(said.moment, today)}: ${sky}, ${visibility(said.vis)}${said.unread ? many(said.unread, 'unknown group') : ''}`;
}
