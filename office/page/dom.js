// Makes elements, notices and questions, and redraws a part of the page without losing the focus.

export function h(name, props = {}, ...children) {
  const made = document.createElement(name);
  for (const [key, value] of Object.entries(props)) {
    if (value === undefined || value === null || value === false) continue;
    if (key.startsWith('on')) made.addEventListener(key.slice(2), value);
    else made.setAttribute(key, value === true ? '' : value);
  }
  made.append(...children.flat(Infinity).filter((it) => it !== undefined && it !== null && it !== false));
  return made;
}

export const at = (id) => document.getElementById(id);
export const hint = (...children) => h('p', { class: 'hint' }, ...children);
export const title = (text, ...more) => h('div', { class: 'bar' }, h('h1', {}, text), ...more);
export const button = (text, onclick, props = {}) => h('button', { type: 'button', onclick, ...props }, text);
export const plainButton = (text, onclick, label) => button(text, onclick, { class: 'plain', 'aria-label': label });

// Replaces the children of a place. The element that had the focus gets it back by its id.
export function show(place, ...children) {
  const id = place.contains(document.activeElement) && document.activeElement.id;
  place.replaceChildren(...children.flat(Infinity).filter(Boolean));
  if (id) at(id)?.focus({ preventScroll: true });
}

let fading;
// Shows a notice below the head of the page: good ones for 6 seconds, bad ones for 30. Screen readers read it out.
export function notice(text, kind = 'good') {
  const place = at('notice');
  place.textContent = text;
  place.className = kind;
  place.hidden = !text;
  clearTimeout(fading);
  fading = setTimeout(() => { place.hidden = true; }, kind === 'good' ? 6000 : 30000);
}

// Asks before an action, and answers whether to do it. The focus is on the button `no`.
export function confirmed(question, { yes, no = 'Go back' }, ...body) {
  const dialog = at('confirm');
  at('confirm-title').textContent = question;
  at('confirm-yes').textContent = yes;
  at('confirm-no').textContent = no;
  show(at('confirm-body'), ...body);
  at('confirm-no').onclick = () => dialog.close('no');
  at('confirm-yes').onclick = () => dialog.close('yes');
  dialog.returnValue = 'no';
  dialog.showModal();
  at('confirm-no').focus();
  return new Promise((answer) => { dialog.onclose = () => answer(dialog.returnValue === 'yes'); });
}
// Takes back an open question, as if the answer were no.
export const withdraw = () => at('confirm').open && at('confirm').close('no');
