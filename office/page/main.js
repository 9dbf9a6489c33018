// The page: signing in, which part is shown, and the view of the board every three seconds.
import { at, h, hint, notice, show, withdraw } from './dom.js';
import { resumed, session, signIn, Unreached } from './desk.js';
import { doneText } from './actions.js';
import { onWait } from './asking.js';
import { boardPage, forgetFilter } from './board.js';
import { quiet, showSound, turnSound, watch } from './alarm.js';
import { age, forget, look, lookCloser, picture } from './picture.js';
import { planPage } from './plan_form.js';
import { releasePage } from './release.js';
import { equipmentPage, recordsPage, weatherPage } from './other_pages.js';
import { clock, refusal, viewRefusal } from './words.js';

// Milliseconds from one view of the board to the next, to a retry, and to the banner: a restarting desk is away for a moment.
const [EVERY, AGAIN, SHORT] = [3000, 1000, 4000];
const OLD_SECONDS = 15;
const ROLES = { D: 'dispatcher', C: 'captain', F: 'feed', M: 'maintenance', S: 'records' };
const PAGES = [['board', 'Board', 'DCFMS'], ['new', 'New release', 'D'], ['weather', 'Weather', 'DCFMS'], ['equipment', 'Equipment', 'DCFMS'],
  ['records', 'Records', 'S'], ['wall', 'Wall', 'DCFMS']];

// Redraws the page after each view of the board, given whether anything in it is new.
let fill = (_) => {};
let round = 0;

function pageOf(place) {
  const [name, argument, more] = location.hash.replace(/^#\/?/, '').split('/').map(decodeURIComponent);
  document.documentElement.className = name === 'wall' ? 'wall' : '';
  for (const link of at('nav').children) link.ariaCurrent = link.hash === `#/${name || 'board'}` ? 'page' : null;
  if (name === 'release' && /^\d{1,10}$/.test(argument)) return releasePage(place, Number(argument), more === 'amend');
  const others = { new: planPage, weather: weatherPage, equipment: equipmentPage, records: recordsPage };
  return others[name] ? others[name](place, argument) : boardPage(place, name === 'wall');
}

// Each page gets an element of its own, so that a late answer to an earlier page isn't drawn into it.
function route() {
  const place = h('div');
  show(at('main'), place);
  if (session.get()) fill = pageOf(place);
  else signInPage(place);
}

// Shows how old the page's data is, and whether the desk can be reached.
function showAge() {
  const isAway = picture.trouble && (picture.reply || Date.now() - picture.trouble > SHORT);
  at('moment').textContent = picture.moment ? `${clock(picture.moment)} ${picture.moment.slice(0, 10)}` : '';
  at('age').textContent = picture.at ? `updated ${age()} s ago` : 'loading';
  at('picture').className = age() > OLD_SECONDS || isAway ? 'old' : '';
  at('trouble').hidden = !isAway;
  const since = isAway && `${new Date(picture.trouble).toISOString().slice(11, 19)}Z`;
  const what = picture.reply ? `The desk has refused to show the board since ${since}. ${viewRefusal(picture.reply)}` : `No connection to the desk since ${since}.`;
  const text = isAway ? `${what} This page ${picture.moment ? `shows ${clock(picture.moment)}` : 'is empty'} and retries every second.` : '';
  if (at('trouble').textContent !== text) at('trouble').textContent = text;
}

async function rounds(mine) {
  while (mine === round) {
    try {
      const isNew = await look();
      const isCloser = mine === round && await lookCloser();
      if (mine !== round) return null;
      watch();
      fill(isNew || isCloser);
    } catch (fault) {
      if (fault.endsSession) return leave(refusal(fault.reply));
      // a fault of this page, after which the next round still sounds new alerts
      console.error(fault);
    }
    showAge();
    await new Promise((done) => { setTimeout(done, picture.trouble ? AGAIN : EVERY); });
  }
  return null;
}

function start() {
  const { name, role } = session.get();
  show(at('person'), h('b', {}, name), ` ${ROLES[role]}`);
  show(at('nav'), PAGES.filter(([, , roles]) => roles.includes(role)).map(([page, text]) => h('a', { href: `#/${page}` }, text)));
  at('top').hidden = false;
  showSound();
  round += 1;
  rounds(round);
  route();
  resumed(onWait).then((it) => it && notice(it.reply.done ? `After the reload: ${doneText(it.ask.do, it.reply.done)}` : refusal(it.reply, it.ask), it.reply.done ? 'good' : 'bad'));
}

function leave(why = '') {
  round += 1;
  session.clear();
  forget();
  forgetFilter();
  quiet();
  notice('');
  withdraw();
  for (const id of ['top', 'trouble']) at(id).hidden = true;
  history.replaceState(null, '', '#/board');
  fill = () => {};
  signInPage(at('main'), why);
}

function signInPage(place, why = '') {
  const said = h('p', { class: 'refusal', role: 'alert', id: 'sign-in-refusal' }, why);
  const yes = h('button', { class: 'first', id: 'enter' }, 'Sign in');
  const enter = async (event) => {
    event.preventDefault();
    said.textContent = '';
    yes.disabled = true;
    try {
      const reply = await signIn(at('name').value.trim(), at('key').value.trim());
      if (reply) said.textContent = refusal(reply);
      else start();
    } catch (fault) {
      if (!(fault instanceof Unreached)) throw fault;
      said.textContent = 'No connection to the desk. Try again in a moment.';
    }
    yes.disabled = false;
  };
  const field = (id, label, props) => h('p', { class: 'field' }, h('label', { for: id }, label), h('input', { id, required: true, ...props }));
  show(place, h('form', { class: 'sign-in', onsubmit: enter }, h('h1', {}, 'Dispatch desk'),
    field('name', 'Name', { maxlength: 16, autocomplete: 'username', autocapitalize: 'none', spellcheck: 'false' }),
    field('key', 'Key', { type: 'password', maxlength: 64, autocomplete: 'current-password' }), said, yes,
    hint('Your name and key stay in this tab only. The desk’s rules are verified, but this page isn’t. '
      + 'A signature counts only for the text whose digest it names, whatever this page shows.')));
  at('name').focus();
}

// Keys outside text fields: j and k move along the board, b shows it, n opens a new release, / moves to Find.
function key(event) {
  const isBusy = event.ctrlKey || event.altKey || event.metaKey || at('confirm').open || event.target.matches('input, textarea');
  if (isBusy || !session.get()) return;
  const links = [...document.querySelectorAll('a.row')];
  const step = { j: 1, k: -1 }[event.key];
  if (step) links[Math.min(Math.max(links.indexOf(document.activeElement) + step, 0), links.length - 1)]?.focus();
  else if (event.key === 'b') location.hash = '#/board';
  else if (event.key === 'n' && session.get().role === 'D') location.hash = '#/new';
  else if (event.key === '/' && at('find')) at('find').focus();
  else return;
  event.preventDefault();
}

addEventListener('hashchange', () => { route(); at('main').focus({ preventScroll: true }); scrollTo(0, 0); });
addEventListener('keydown', key);
addEventListener('unhandledrejection', (event) => event.reason instanceof Unreached && event.preventDefault()); // the banner shows it
setInterval(() => session.get() && showAge(), 1000);
at('sound').addEventListener('click', turnSound);
at('leave').addEventListener('click', () => leave());
if (session.get()) start();
else route();
