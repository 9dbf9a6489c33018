// Reads the texts of the views into values.

const ROW = /^(\d+) (\S+) (\S+) (DRAFTED|READY 1|FLYING \d+|STOPPED \d+ \S+|COMPLETED \S+|CANCELLED \S+)( AGAIN)? rev (\d+) pending (\d+) (\S+) (?:-|ALERT v(\d+) (open|ack) (.+))$/;
const ALERT = /^(\d+) (\S+) v(\d+) (\S+) (open|ack) (.+) ever (.+)$/;
const LEG = /^LEG \d+ (\S+) (\S+) ETD (\S+) ETA (\S+) MINUTES (\d+)$/;
const FUEL = /^BURN (\d+) EXTRA (\d+) MINIMUM (\d+) ONBOARD (\d+)$/;

const lines = (text) => text.split('\n').filter(Boolean);
const findings = (text) => (text === 'none' ? [] : text.split(' '));

export function phase(text, again = false) {
  const [name, first, second] = text.split(' ');
  const leg = ['READY', 'FLYING', 'STOPPED'].includes(name) ? Number(first) : 0;
  return { name, leg, since: second ?? (leg ? undefined : first), again, active: leg > 0, ended: name === 'COMPLETED' || name === 'CANCELLED' };
}

export function board(text) {
  const [head, ...rows] = lines(text);
  return {
    moment: head.split(' ')[1],
    releases: rows.map((line) => {
      const [, id, flight, tail, stands, again, rev, pending, holder, version, seen, failing] = ROW.exec(line);
      const alert = version && { version: Number(version), seen: seen === 'ack', findings: findings(failing) };
      return { id: Number(id), flight, tail, phase: phase(stands, Boolean(again)), rev: Number(rev), pending: Number(pending), holder, alert };
    }),
  };
}

export function alerts(text) {
  return lines(text).slice(1).map((line) => {
    const [, id, holder, version, opened, seen, failing, ever] = ALERT.exec(line);
    return { id: Number(id), holder, version: Number(version), opened, seen: seen === 'ack', findings: findings(failing), ever: findings(ever) };
  });
}

// The plan and the reports in the text of a revision.
function revision(text) {
  const plan = { captain: '', flight: '', kind: '', legs: [], tail: '' };
  const reports = [];
  let number = 0;
  for (const line of lines(text)) {
    const words = line.split(' ');
    const leg = plan.legs.at(-1);
    const begins = LEG.exec(line);
    const fuel = FUEL.exec(line);
    if (words[0] === 'FLIGHT') {
      plan.flight = words[1];
      number = Number(words[3]);
      plan.kind = words[4].toLowerCase();
    } else if (words[0] === 'AIRCRAFT') [, plan.tail, , plan.captain] = words;
    else if (begins) {
      const [, from, to, etd, eta, minutes] = begins;
      plan.legs.push({ alternates: [], burn: 0, eta, etd, extra: 0, from, minimum: 0, minutes: Number(minutes), onboard: 0, takeoff_alternate: null, to });
    } else if (words[0] === 'TAKEOFF' && words[2] !== 'NONE') leg.takeoff_alternate = { minutes: Number(words[4]), station: words[2] };
    else if (words[0] === 'ALTERNATE' && words[1] !== 'NONE') leg.alternates.push({ fuel: Number(words[5]), minutes: Number(words[3]), station: words[1] });
    else if (fuel) [leg.burn, leg.extra, leg.minimum, leg.onboard] = fuel.slice(1).map(Number);
    else if (words[0] === 'REPORT') reports.push({ id: Number(words[1]), text: words.slice(2).join(' ') });
  }
  return { number, plan, reports, text };
}

// A release: its phase, the pending revision if it is prepared, and the revision in force.
export function release(text) {
  const [, id, stands, again] = /^RELEASE (\d+) (.+?)( AGAIN)?\n/.exec(text);
  const part = (word) => {
    const found = new RegExp(`(?:^|\n)${word} ([^\n]*)\n(DISPATCH RELEASE\n[^]*?\nEND\n)`).exec(text);
    if (!found) return null;
    const [digest, dispatcher, signed, captain, concurred, , hours] = found[1].split(' ');
    return { ...revision(found[2]), digest, dispatcher, signed, captain, concurred, hours };
  };
  return { id: Number(id), phase: phase(stands, Boolean(again)), pending: part('PENDING'), active: part('ACTIVE') };
}

// The lines of a station: its latest METAR or SPECI, and its latest TAF.
export function weather(text) {
  return lines(text).map((line) => {
    const [station, kind, id, moment, ...rest] = line.split(' ');
    const said = { station, kind, id: Number(id), moment, nil: rest.includes('NIL'), cancelled: rest.includes('CNL') };
    if (kind === 'METAR' && !said.nil) [said.ceiling, said.vis, said.unread] = [rest[1], rest[3], Number(rest[5])];
    if (kind === 'TAF') [said.from, said.to, said.parts] = [rest[0], rest[1], Number(rest[3])];
    return said;
  });
}

export const deferred = (text) => lines(text).map((line) => line.split(' ')).map(([id, item, found, , due]) => ({ id: Number(id), item, found, due }));
// The stations whose reports the desk attaches: those of legs not flown, without the departure of a leg in flight.
export function stationsOf(plan, { name = '', leg: next = 0 } = {}) {
  const ahead = (leg, number) => (name === 'FLYING' && number + 1 === next ? [] : [leg.from, leg.takeoff_alternate?.station]);
  const each = plan.legs.flatMap((leg, number) => (number + 1 < next ? [] : [...ahead(leg, number), leg.to, ...leg.alternates.map((it) => it.station)]));
  return [...new Set(each.filter(Boolean))];
}
