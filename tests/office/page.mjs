// Tests the page's modules without a browser: how they read the program's views, and their texts.
//
// usage: node tests/office/page.mjs
import assert from 'node:assert/strict';
import { readFileSync } from 'node:fs';

const root = new URL('../../', import.meta.url);
const read = (name) => readFileSync(new URL(name, root), 'utf8');
// None of these imports another, so each loads from its text in every version of node.
const [texts, words, plans] = await Promise.all(['texts', 'words', 'plans'].map((name) => import(`data:text/javascript,${encodeURIComponent(read(`office/page/${name}.js`))}`)));

// The views that the examples print.
const seen = ['one_flight', 'morning'].flatMap((name) => read(`examples/${name}/expected`).split('\n'))
  .filter((line) => line.startsWith('{"seen"')).map((line) => JSON.parse(line).seen);
const boards = seen.filter((text) => text.startsWith('BOARD')).map(texts.board);
assert.deepEqual(boards[0], { moment: '2026-11-12T15:35Z', releases: [{ id: 1, flight: 'VM214', tail: 'N237VM', rev: 1, pending: 0, holder: 'okafor', alert: undefined,
  phase: { name: 'FLYING', leg: 1, since: undefined, again: false, active: true, ended: false } }] });
assert.equal(boards[1].releases[0].phase.since, '2026-11-12T16:31Z');
const alerts = seen.filter((text) => text.startsWith('ALERTS')).map(texts.alerts);
assert.deepEqual(alerts[1], [{ id: 1, holder: 'okafor', version: 2, opened: '2026-11-12T15:41Z', seen: false, findings: [], ever: ['121.625/1/1'] }]);
assert.deepEqual(alerts.at(-1), []);

// The plan in a release's text is the plan that was filed.
const filed = read('examples/one_flight/script').split('\n').filter(Boolean).map(JSON.parse).filter((line) => line.ask.plan).map((line) => line.ask.plan);
const release = texts.release(seen.find((text) => text.startsWith('RELEASE')));
assert.deepEqual(release.active.plan, filed.at(-1));
assert.equal(release.active.captain, 'hayes');
assert.equal(words.hoursText(release.active.hours), '2,140 hours in the type');
assert.equal(words.hoursText('1'), '1 hour in the type');
const before = texts.release(seen.find((text) => text.startsWith('RELEASE')).replace(' HOURS 2140\n', ' HOURS -\n'));
assert.equal(words.hoursText(before.active.hours), 'hours not recorded');
assert.deepEqual(before.active.plan, release.active.plan);
assert.equal(release.active.number, 2);
assert.equal(release.pending, null);
assert.deepEqual(release.active.reports.map((it) => it.id), [2, 3, 5]);
assert.deepEqual(texts.stationsOf(filed[0]), ['KPDX', 'KSEA', 'KGEG']);
assert.deepEqual(texts.stationsOf(filed[0], texts.phase('READY 1')), ['KPDX', 'KSEA', 'KGEG']);
assert.deepEqual(texts.stationsOf(filed.at(-1), texts.phase('FLYING 1')), ['KSEA', 'KGEG', 'KPDX']);
assert.deepEqual(texts.stationsOf(filed.at(-1), texts.phase('FLYING 2')), ['KGEG', 'KPDX']);

// Rows of the board in every phase.
const rows = ['1 - - CANCELLED 2026-11-12T16:55Z rev 0 pending 0 okafor -', '2 VM2 N1 DRAFTED rev 0 pending 3 okafor -',
  '3 VM3 N1 STOPPED 2 2026-11-12T16:31Z AGAIN rev 3 pending 0 okafor ALERT v12 ack 121.593/2/0 121.628-DUE/1/7', '4 VM4 N1 READY 1 rev 1 pending 0 okafor ALERT v1 open none'];
const [cancelled, drafted, stopped, ready] = texts.board(`BOARD 2026-11-12T17:00Z\n${rows.join('\n')}\n`).releases;
assert.ok(cancelled.phase.ended && !drafted.phase.active && stopped.phase.again && ready.alert.findings.length === 0);
assert.deepEqual(stopped.alert, { version: 12, seen: true, findings: ['121.593/2/0', '121.628-DUE/1/7'] });

// Weather in words: visibility as dispatchers write it, ceilings in feet.
const said = (line) => words.reading(texts.weather(line)[0], '2026-11-12T16:00Z');
assert.equal(said('KSEA METAR 5 2026-11-12T15:17Z ceiling 1200 vis 6437376 unread 0\n'), 'observed 15:17Z: ceiling 1,200 ft, visibility 4SM');
assert.equal(said('KSEA METAR 5 2026-11-11T15:17Z ceiling 100000 vis 402335 unread 1\n'), 'observed 11-11 15:17Z: no ceiling, visibility M1/4SM, 1 unknown group');
assert.equal(said('KSEA METAR 5 2026-11-12T15:17Z ceiling - vis 9656065 unread 0\n'), 'observed 15:17Z: ceiling unknown, visibility P6SM');
assert.equal(said('EGLL METAR 5 2026-11-12T15:17Z ceiling 5000 vis 4800000 unread 0\n'), 'observed 15:17Z: ceiling 5,000 ft or higher, visibility 4,800 m');
assert.equal(said('KSEA METAR 5 2026-11-12T15:17Z ceiling 300 vis 2414016 unread 0\n'), 'observed 15:17Z: ceiling 300 ft, visibility 1\u00a01/2SM');
assert.equal(said('EGLL METAR 5 2026-11-12T15:17Z ceiling 12000 vis 10000000 unread 0\n'), 'observed 15:17Z: ceiling 12,000 ft or higher, visibility 10,000 m or more');
assert.match(said('KSEA METAR 5 2026-11-12T15:17Z ceiling 100 vis 100584 unread 0\n'), /visibility 1\/16SM$/);
assert.match(said('KSEA METAR 5 2026-11-12T15:17Z ceiling 100 vis 16093440 unread 0\n'), /visibility 10SM$/);
assert.match(said('KSEA METAR 5 2026-11-12T15:17Z ceiling 100 vis 0 unread 0\n'), /visibility 0SM$/);
assert.match(said('KSEA TAF 2 2026-11-12T11:20Z 2026-11-12T12:00Z 2026-11-13T18:00Z parts 1\n'), /issued 11:20Z, valid 12:00Z to 11-13 18:00Z, 1 forecast part$/);
assert.match(said('KSEA TAF 2 2026-11-12T11:20Z 2026-11-12T11:20Z 2026-11-12T11:20Z NIL\n'), /NIL/);

// Every rule of RULES and every refusal of API has its text.
const codes = [...read('docs/RULES.md').split('\n## The rules\n')[1].split('\n## ')[0].matchAll(/^### (\S+)$/gm)].map(([, code]) => code);
const refusals = [...read('docs/API.md').matchAll(/^\| (\d+) (\w+) \|/gm)];
assert.equal(codes.length, 19);
assert.deepEqual(refusals.map(([, number]) => Number(number)), Array.from({ length: 30 }, (_, place) => place + 1));
for (const code of codes) {
  for (const plan of [undefined, filed[0]]) {
    const finding = words.finding(`${code}/1/1`, plan);
    assert.doesNotMatch(`${finding.leg} ${finding.text} ${finding.section}`, /undefined|NaN|doesn’t know/);
    assert.ok(finding.advice);
    assert.ok(code.startsWith('DESK') || finding.section.startsWith(`14 CFR ${code.slice(0, 7)}`), code);
  }
}
assert.equal(words.finding('121.625/1/1', filed[0]).text, 'alternate 1 (KPDX) doesn’t meet its alternate minima at 17:08Z (ETA + 38 min)');
assert.equal(words.finding('DESK-LATE-OFF/1/0', filed[0]).text, 'not departed, past the airline’s limit after ETD 15:30Z');
const reply = { group: 3, what: 'BadSky', held: 7, holder: 'okafor', leg: 1, stage: 2, current: 2, digest: '0'.repeat(64), report: 6, findings: [], phase: 'READY 1', version: 2,
  until: '2026-11-12T15:17Z', now: '2026-11-12T15:17Z', entries: 1, kept: 1, events: 1, faults: 1, floor: 4 };
for (const [, number, why] of refusals) {
  // the page answers these two itself, with another number
  if (why !== 'NumberReused' && why !== 'NumberSwept') assert.doesNotMatch(words.refusal({ ...reply, refused: Number(number), why }), /The desk refused|undefined/, why);
}
// A refused report: the group is quoted as it was typed, if the report goes so far.
const unread = (text, group, what, refused = 5) => words.refusal({ refused, group, what }, { do: 'admit', text });
assert.match(unread('METAR KSEA 301651Z OVC0O4', 4, 'BadSky'), /^The desk can’t read group 4, “OVC0O4”, of the report\. This isn’t a layer of cloud/);
assert.match(unread('METAR KSEA\n 301651Z\t16008KT  10SM OVC0O4=\n', 6, 'BadSky'), /read group 6, “OVC0O4”, of the report\./);
assert.match(unread('METAR KSEA', 3, 'Missing'), /read group 3 of the report\. It ends too early/);
assert.match(unread('METAR KSEA =', 3, 'Missing'), /read group 3 of the report\. It ends too early/);
assert.match(unread('x'.repeat(2049), 0, 'TooLong'), /^The desk can’t read the report\. It is longer/);
assert.match(unread(`${'x'.repeat(900)} KSEA`, 1, 'NotStation'), /group 1, “x{20}…”, of the report/);
assert.match(unread('METAR KSEA 201651Z 10SM', 3, undefined, 6), /^The day in group 3, “201651Z”, of the report is too far/);
assert.match(words.viewRefusal({ refused: 26, faults: 1 }), /^The desk can’t store its time/);
assert.equal(words.viewRefusal({ refused: 2 }), words.refusal({ refused: 2 }));
assert.match(words.refusal({ refused: 18, phase: 'STOPPED 2 2026-11-12T16:31Z AGAIN' }), /phase “Stopped before leg 2 since 16:31Z”/);
assert.match(words.refusal({ refused: 18, phase: 'COMPLETED 2026-11-12T18:09Z' }), /phase “Completed 18:09Z”/);
assert.match(words.refusal({ refused: 18, phase: 'DRAFTED' }), /phase “Draft”/);

// What a sheet is stamped with, and how its revision stands: none of an ended release is in force.
const sheet = (phase, isSigned, today = '2026-11-12T18:40Z') => [...words.stamp(texts.phase(phase), today, isSigned), words.standing(texts.phase(phase), !isSigned)].join('; ');
assert.equal(sheet('CANCELLED 2026-11-12T18:36Z', true), 'CANCELLED 18:36Z; NOT VALID FOR DISPATCH; cancelled');
assert.equal(sheet('CANCELLED 2026-11-12T18:36Z', false), 'CANCELLED 18:36Z; NOT VALID FOR DISPATCH; cancelled');
assert.equal(sheet('CANCELLED 2026-11-12T18:36Z', true, '2026-11-13T07:00Z'), 'CANCELLED 11-12 18:36Z; NOT VALID FOR DISPATCH; cancelled');
assert.equal(sheet('CANCELLED', true), 'CANCELLED; NOT VALID FOR DISPATCH; cancelled');
assert.equal(sheet('COMPLETED 2026-11-12T18:09Z', true), 'COMPLETED 18:09Z; completed');
for (const phase of ['DRAFTED', 'READY 1', 'FLYING 1', 'STOPPED 2 2026-11-12T16:31Z']) assert.equal(sheet(phase, false), 'NOT VALID FOR DISPATCH; pending');
for (const phase of ['READY 1', 'FLYING 1', 'STOPPED 2 2026-11-12T16:31Z']) assert.equal(sheet(phase, true), 'in force');

// Plans: a sound plan has no fault, and each fault is found at its field.
for (const plan of filed) assert.equal(plans.faults(plan).size, 0);
const broken = structuredClone(filed[0]);
broken.legs[0].alternates.push({ fuel: 1, minutes: 5, station: 'KPDX' });
Object.assign(broken.legs[1], { from: 'KBOI', etd: '2026-11-12T16:00Z', minutes: 300, burn: 1000001 });
assert.deepEqual([...plans.faults(broken).keys()].sort(),
  ['legs.0.alternates.1.station', 'legs.1.burn', 'legs.1.etd', 'legs.1.from', 'legs.1.minutes']);
assert.deepEqual(plans.pasted(JSON.stringify({ do: 'draft', plan: filed[0] })).plan, filed[0]);
const ofLegs = (count) => JSON.stringify({ ...filed[0], legs: Array(count).fill(filed[0].legs[0]) });
assert.equal(plans.pasted(ofLegs(8)).plan.legs.length, 8);
assert.equal(plans.pasted(ofLegs(9)).fault, 'A plan has 1 to 8 legs.');
assert.ok(plans.pasted('{}').fault && plans.pasted('x').fault && plans.pasted(JSON.stringify({ ...filed[0], legs: [{}] })).fault);
for (const typed of ['14000', '14,000', '14 000', '14\u00a0000']) assert.equal(plans.wholeNumber(typed), 14000, typed);
assert.equal(plans.wholeNumber('1,000,000'), 1000000);
for (const typed of ['', '13,5', '1,4000', ',100', '14,', '1.5', '-1', '1e3']) assert.equal(plans.wholeNumber(typed), typed);
const now = Date.parse('2026-11-12T14:00Z');
assert.equal(plans.moment('1530', '', now), '2026-11-12T15:30Z');
assert.equal(plans.moment('02:10', '', now), '2026-11-13T02:10Z');
assert.equal(plans.moment('0005', '2026-12-31T23:30Z', now), '2027-01-01T00:05Z');
assert.equal(plans.moment('2026-11-12t15:30z', '', now), '2026-11-12T15:30Z');
assert.equal(plans.moment('2570', '', now), '2570');
console.log(`page: ${seen.length} views of the examples read right; ${codes.length} rules and ${refusals.length} refusals have their texts`);
