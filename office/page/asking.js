// Calls and views of this tab, with what the page shows if no answer comes or the desk refuses.
import { notice } from './dom.js';
import { call, Refused, Unreached, view } from './desk.js';
import { refusal, viewRefusal } from './words.js';

export const onWait = () => notice('No answer yet. The page retries with the same number, so the desk can’t do it twice.', 'bad');
export async function ask(it) {
  const reply = await call(it, onWait);
  notice('');
  return reply;
}

// Makes a call and shows a notice: the text of `done`, or the refusal.
export async function asked(it, done) {
  const reply = await ask(it);
  if (reply.done) notice(done(reply.done));
  else notice(refusal(reply, it), 'bad');
  return reply.done;
}

// The text of a view, or `why` there is none.
export async function seen(path) {
  try {
    return { text: await view(path) };
  } catch (fault) {
    if (fault instanceof Refused) return { why: viewRefusal(fault.reply) };
    if (fault instanceof Unreached) return { why: 'No connection to the desk.' };
    throw fault;
  }
}

// What this tab stores about a release, under a name.
export const kept = (name, id) => JSON.parse(sessionStorage.getItem(`${name}.${id}`) ?? 'null');
export const keep = (name, id, value) => sessionStorage.setItem(`${name}.${id}`, JSON.stringify(value));
export const drop = (name, id) => sessionStorage.removeItem(`${name}.${id}`);
