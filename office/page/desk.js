// The desk over HTTP: the session, views, and calls under numbers that rise by themselves.

const HUNDREDTHS_FROM = Date.UTC(2000, 0, 1);
const WAITS = [1000, 2000, 4000, 8000];
const TIMEOUT = 20000;
// The desk didn't answer.
export class Unreached extends Error {}
// The desk's refusal of a view. An unknown name (1) and a wrong key (2) end the session; after any other refusal the page asks again.
export class Refused extends Error {
  constructor(reply) {
    super(reply.why ?? reply.error);
    this.reply = reply;
    this.endsSession = reply.refused === 1 || reply.refused === 2;
  }
}

// The name, key and role, stored in this tab only.
export const session = {
  get: () => JSON.parse(sessionStorage.getItem('person') ?? 'null'),
  set: (person) => sessionStorage.setItem('person', JSON.stringify(person)),
  clear: () => sessionStorage.clear(),
};

async function answer(path, options) {
  let reply;
  try {
    const response = await fetch(path, { ...options, cache: 'no-store', signal: AbortSignal.timeout(TIMEOUT) });
    reply = await response.json();
  } catch (fault) {
    throw new Unreached(fault.message);
  }
  if (reply.error && reply.error !== 'NoRoute') throw new Unreached(reply.error);
  return reply;
}

const post = ({ name, key }, number, ask) => answer('/call',
  { method: 'POST', headers: { 'Content-Type': 'application/json' }, body: JSON.stringify({ actor: name, ask, key, number }) });

// The text of a view.
export async function view(path) {
  const { name, key } = session.get() ?? {};
  if (!name) throw new Unreached('signed out');
  const reply = await answer(path, { headers: { 'Desk-Actor': name, 'Desk-Key': key } });
  if (reply.seen === undefined) throw new Refused(reply);
  return reply.seen;
}

// A number above every one that this person has used in this browser: hundredths of a second since 2000, so other windows rise too.
function nextNumber(name, above = 0) {
  const used = Number(localStorage.getItem(`number.${name}`) ?? 0);
  const next = Math.max(used + 1, above + 1, Math.floor((Date.now() - HUNDREDTHS_FROM) / 10));
  localStorage.setItem(`number.${name}`, String(next));
  return next;
}

// Sends a call under one number until an answer comes, so that nothing is done twice. If the desk refuses the number as
// used (4) or swept (27), the call takes the next number. Signing out ends the retries.
async function settled(person, first, ask, onWait) {
  let number = first;
  for (let tries = 0; session.get()?.key === person.key; tries += 1) {
    sessionStorage.setItem('open', JSON.stringify({ number, ask }));
    try {
      const reply = await post(person, number, ask);
      if (reply.refused !== 4 && reply.refused !== 27) {
        sessionStorage.removeItem('open');
        return reply;
      }
      number = nextNumber(person.name, reply.floor);
    } catch (fault) {
      if (!(fault instanceof Unreached)) throw fault;
      onWait();
      await new Promise((done) => { setTimeout(done, WAITS[Math.min(tries, WAITS.length - 1)]); });
    }
  }
  throw new Unreached('signed out');
}

let last = Promise.resolve();
// The reply to a call: `done`, `refused` or `bad`. Calls go one after another.
export function call(ask, onWait) {
  const person = session.get();
  const mine = last.then(() => settled(person, nextNumber(person.name), ask, onWait));
  last = mine.catch(() => {});
  return mine;
}

// Repeats, under its number, the call of this tab that had no answer when the page was left.
export async function resumed(onWait) {
  const open = JSON.parse(sessionStorage.getItem('open') ?? 'null');
  if (!open) return null;
  const mine = settled(session.get(), open.number, open.ask, onWait);
  last = mine.catch(() => {});
  return { ask: open.ask, reply: await mine };
}

// Calls that the desk always refuses, one for each role: no release, deferral or report is like these.
const ASKS_OF_ROLES = {
  D: { do: 'acknowledge', release: 0, version: 0 },
  C: { do: 'concur', digest: '0'.repeat(64), release: 0, revision: 0 },
  M: { do: 'clear', deferral: 0 },
  F: { do: 'admit', text: '' },
  S: { do: 'purge', release: 0 },
};

// Signs in. The role is the one whose call the desk doesn't refuse for the role (3). Answers the refusal of a wrong name or key (1, 2),
// and that of a desk which can't move its time (24, 26): it comes before the role is tested.
export async function signIn(name, key) {
  for (const [role, ask] of Object.entries(ASKS_OF_ROLES)) {
    const reply = await post({ name, key }, nextNumber(name), ask);
    if ([1, 2, 24, 26].includes(reply.refused) || reply.bad) return reply;
    if (reply.refused !== 3) {
      session.set({ name, key, role });
      return null;
    }
  }
  return { refused: 3 };
}
