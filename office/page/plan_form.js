// The form of a plan, for a draft and for an amendment. The page checks it while it is typed, and the desk when it is filed.
import { at, confirmed, h, hint, notice, plainButton, show, title } from './dom.js';
import { ask, drop, keep, kept } from './asking.js';
import { emptyLeg, emptyPlan, faults, FUELS, moment, pasted, wholeNumber } from './plans.js';
import { amount, refusal } from './words.js';

const LABELS = { burn: 'Burn', extra: 'Extra', minimum: 'Minimum', onboard: 'On board' };
const NUMBER = { isNumber: true, width: 6 };
const AMOUNT = { isNumber: true, width: 8 };

// Which fields an amendment may not change, by the phase of the release.
function fixedBy({ name, leg }) {
  const flown = name === 'FLYING' || name === 'STOPPED' ? leg - 1 : 0;
  const flying = name === 'FLYING' ? leg - 1 : -1;
  return (place) => {
    const [head, number, part] = place.split('.');
    if (head !== 'legs') return head === 'flight' || head === 'kind' || (head === 'tail' && flying >= 0);
    return Number(number) < flown || (Number(number) === flying && ['from', 'etd', 'takeoff'].includes(part));
  };
}

class Form {
  constructor(plan, isFixed, id) {
    this.plan = plan;
    this.isFixed = isFixed;
    this.id = id;
    this.touched = new Set();
    this.place = h('div', { class: 'plan' });
    this.draw();
  }

  // A field of the plan. What is typed goes into `owner[name]`, and `place` is its path in the plan.
  field(place, label, owner, name, { isNumber = false, from = null, width = 6, tip = null } = {}) {
    const id = `plan.${place}`;
    const typed = (event) => {
      const isDone = event.type === 'change';
      let value = event.target.value.trim();
      if (name !== 'captain') value = value.toUpperCase();
      if (from && isDone) value = moment(value, from());
      owner[name] = isNumber ? wholeNumber(value) : value;
      if (isDone) event.target.value = String(owner[name]);
      if (isDone) this.touched.add(place);
      this.check();
    };
    return h('p', { class: 'field' }, h('label', { for: id }, label),
      h('input', { id, size: width, value: String(owner[name]), inputmode: isNumber ? 'numeric' : null, autocomplete: 'off', spellcheck: 'false',
        disabled: this.isFixed(place), title: tip, 'aria-describedby': `${id}.fault`, oninput: typed, onchange: typed }),
      h('span', { class: 'fault', id: `${id}.fault` }));
  }

  // Shows the fault of each field that was left, and answers the place of the first fault.
  check() {
    const found = faults(this.plan);
    for (const said of this.place.querySelectorAll('.fault')) {
      const place = said.id.slice('plan.'.length, -'.fault'.length);
      said.textContent = this.touched.has(place) ? found.get(place) ?? '' : '';
      said.previousElementSibling.setAttribute('aria-invalid', String(said.textContent !== ''));
    }
    this.plan.legs.forEach((leg, number) => {
      const sum = [leg.burn, leg.extra, Math.max(0, ...leg.alternates.map((it) => Number(it.fuel) || 0))].reduce((all, it) => all + (Number(it) || 0), 0);
      this.place.querySelector(`#sum-${number}`).textContent = sum ? `Burn + extra + alternate = ${amount(sum)} lb, reserve not included` : '';
    });
    keep('plan', this.id, this.plan);
    return [...found.keys()].find((place) => !this.isFixed(place));
  }

  isSound() {
    for (const place of faults(this.plan).keys()) this.touched.add(place);
    const first = this.check();
    if (first) at(`plan.${first}`)?.focus();
    return !first;
  }

  // Changes the plan and redraws the form, with the focus on a field.
  change(what, focus = '') {
    what();
    this.draw();
    at(`plan.${focus}`)?.focus();
  }

  leg(leg, number) {
    const here = `legs.${number}`;
    const { legs } = this.plan;
    const isFlown = this.isFixed(`${here}.to`);
    const canTakeoff = !this.isFixed(`${here}.takeoff`);
    const add = (text, what, focus, label) => plainButton(text, () => this.change(what, focus), `${label} leg ${number + 1}`);
    const row = (lead, ...fields) => h('div', { class: 'fields' }, h('span', { class: 'lead' }, lead), fields);
    return h('fieldset', {}, h('legend', {}, `Leg ${number + 1}`, isFlown && h('small', {}, ' flown')),
      row('Route and times', this.field(`${here}.from`, 'From', leg, 'from'), this.field(`${here}.to`, 'To', leg, 'to'),
        this.field(`${here}.etd`, 'ETD, UTC', leg, 'etd', { from: () => legs[number - 1]?.eta ?? '', width: 18, tip: 'Type 1530 for the next 15:30Z.' }),
        this.field(`${here}.eta`, 'ETA, UTC', leg, 'eta', { from: () => leg.etd, width: 18, tip: 'Type 1630 for the next 16:30Z after the ETD.' }),
        this.field(`${here}.minutes`, 'Air time, min', leg, 'minutes', NUMBER)),
      row('Fuel, lb', FUELS.map((fuel) => this.field(`${here}.${fuel}`, LABELS[fuel], leg, fuel, AMOUNT)), h('span', { class: 'hint', id: `sum-${number}` })),
      leg.alternates.map((it, place) => row(`Alternate ${place + 1}`, this.field(`${here}.alternates.${place}.station`, 'Station', it, 'station'),
        this.field(`${here}.alternates.${place}.minutes`, 'Time to it, min', it, 'minutes', NUMBER),
        this.field(`${here}.alternates.${place}.fuel`, 'Fuel to it, lb', it, 'fuel', AMOUNT),
        !isFlown && add(`Remove alternate ${place + 1}`, () => leg.alternates.splice(place, 1), '', `Remove alternate ${place + 1} of`))),
      leg.takeoff_alternate && row('Takeoff alternate', this.field(`${here}.takeoff.station`, 'Station', leg.takeoff_alternate, 'station'),
        this.field(`${here}.takeoff.minutes`, 'Time to it, min', leg.takeoff_alternate, 'minutes', NUMBER),
        canTakeoff && add('Remove takeoff alternate', () => { leg.takeoff_alternate = null; }, '', 'Remove the takeoff alternate of')),
      !isFlown && h('p', { class: 'buttons' },
        leg.alternates.length < 3 && add('Add alternate', () => leg.alternates.push({ fuel: '', minutes: '', station: '' }),
          `${here}.alternates.${leg.alternates.length}.station`, 'Add an alternate to'),
        !leg.takeoff_alternate && canTakeoff && add('Add takeoff alternate', () => { leg.takeoff_alternate = { minutes: '', station: '' }; },
          `${here}.takeoff.station`, 'Add a takeoff alternate to'),
        legs.length > 1 && add(`Remove leg ${number + 1}`, () => legs.splice(number, 1), '', 'Remove')));
  }

  draw() {
    const { plan } = this;
    const kind = (name, text) => h('label', { class: 'box' }, h('input', { type: 'radio', name: 'kind', value: name, checked: plan.kind === name,
      disabled: this.isFixed('kind'), onchange: () => { plan.kind = name; this.check(); } }), ` ${text}`);
    show(this.place, h('div', { class: 'fields' }, this.field('flight', 'Flight', plan, 'flight', { width: 8 }),
      this.field('tail', 'Aircraft', plan, 'tail', { width: 8 }), this.field('captain', 'Captain', plan, 'captain', { width: 14 }),
      h('p', { class: 'kinds', role: 'radiogroup', 'aria-label': 'Kind of flight' }, kind('domestic', 'Domestic'), kind('flag', 'Flag'))),
    plan.legs.map((leg, number) => this.leg(leg, number)),
    plan.legs.length < 8 && h('p', {}, plainButton('Add leg', () => this.change(() => plan.legs.push(emptyLeg(plan.legs.at(-1).to)), `legs.${plan.legs.length}.to`))));
    this.check();
  }

  // The plan as JSON, to copy or to replace by a pasted one: the whole text is selected as soon as a press or Tab has given the box the focus.
  json() {
    const text = h('textarea', { id: 'plan-json', rows: 8, spellcheck: 'false', 'aria-label': 'The plan as JSON', onfocus: () => setTimeout(() => text.select()) });
    const write = () => { text.value = JSON.stringify(this.plan, null, 2); };
    const copy = () => { write(); text.select(); navigator.clipboard?.writeText(text.value).then(() => notice('Plan copied.'), () => {}); };
    const take = () => {
      const { plan, fault } = pasted(text.value);
      if (fault) return notice(fault, 'bad');
      this.change(() => Object.assign(this.plan, plan));
      return notice(this.isSound() ? 'Plan loaded into the form.' : 'Plan loaded into the form. Correct the marked fields.');
    };
    return h('details', { class: 'json', ontoggle: write }, h('summary', {}, 'Plan as JSON'), text,
      h('p', { class: 'buttons' }, plainButton('Copy plan', copy), plainButton('Load into form', take)));
  }
}

// Shows the form: of an amendment, given the release's row on the board and the plan to start from; otherwise of a new release.
export function planPage(place, row = null, given = null) {
  const id = row?.id ?? 'new';
  const plan = kept('plan', id) ?? structuredClone(given) ?? emptyPlan();
  const form = new Form(plan, row ? fixedBy(row.phase) : () => false, id);
  const said = h('p', { class: 'refusal', role: 'alert', id: 'plan-refusal' });
  const file = async (event) => {
    event.preventDefault();
    said.textContent = '';
    if (!form.isSound()) return;
    const legs = plan.legs.map((leg) => `${leg.from}–${leg.to} ${leg.etd}`).join(', ');
    const yes = row ? 'File amendment' : 'File draft';
    if (!await confirmed(row ? `Amend release ${id}` : 'File draft', { yes }, h('p', {}, `${plan.flight}, ${plan.tail}, captain ${plan.captain}: ${legs}.`),
      row && h('p', {}, `The new revision must be prepared and signed by both.${row.rev ? ` Until then revision ${row.rev} stays in force.` : ''}`))) return;
    const reply = await ask(row ? { do: 'amend', plan, release: id } : { do: 'draft', plan });
    said.textContent = reply.done ? '' : refusal(reply);
    if (!reply.done) return;
    const { release, revision } = reply.done;
    for (const name of ['plan', 'refused']) drop(name, id);
    keep('filed', release, { revision, plan });
    notice(`Filed as revision ${revision} of release ${release}. Next: prepare it.`);
    location.hash = `#/release/${release}`;
  };
  const anew = () => { drop('plan', id); planPage(place, row, given); };
  show(place, title(row ? `Amend release ${id}, ${row.flight}` : 'New release'),
    row?.phase.name === 'FLYING' && hint(`Leg ${row.phase.leg} is in flight. Give its air time, burn, extra, minimum and fuel on board for the rest of the leg, from now on.`),
    h('form', { class: 'page', onsubmit: file, novalidate: true }, form.place, said,
      h('p', { class: 'buttons' }, h('button', { class: 'first', id: 'file' }, row ? 'File amendment' : 'File draft'), plainButton('Reset form', anew)), form.json()));
  return () => {};
}
