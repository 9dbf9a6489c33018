// The alarm: a new alert sounds, shows in the title of the tab, and is read out by screen readers.
import { at, h } from './dom.js';
import { knownOf, picture } from './picture.js';
import { finding } from './words.js';

const TITLE = 'Dispatch desk';
const TONES = [880, 660, 880, 660];
// The versions of alerts that have sounded.
let heard = new Set();
let sounds = null;
let isOn = localStorage.getItem('sound') !== 'off';

// Plays two tones twice. A browser plays sound only after the user has pressed something, and signing in counts.
function ring() {
  if (!isOn) return;
  sounds ??= new AudioContext();
  sounds.resume();
  TONES.forEach((frequency, place) => {
    const begins = sounds.currentTime + place * 0.22;
    const voice = new OscillatorNode(sounds, { frequency, type: 'triangle' });
    const loud = new GainNode(sounds, { gain: 0.3 });
    loud.gain.setTargetAtTime(0, begins + 0.12, 0.03);
    voice.connect(loud).connect(sounds.destination);
    voice.start(begins);
    voice.stop(begins + 0.21);
  });
}
export const showSound = () => { at('sound').textContent = isOn ? 'Mute alarm' : 'Unmute alarm'; };

export function turnSound() {
  isOn = !isOn;
  localStorage.setItem('sound', isOn ? 'on' : 'off');
  showSound();
}

// Sounds for each version of an alert that is neither acknowledged nor heard yet, if a rule fails in it.
export function watch() {
  const loud = picture.releases.filter((row) => row.alert && !row.alert.seen);
  const bad = loud.filter((row) => row.alert.findings.length > 0);
  const flights = loud.map((row) => row.flight).slice(0, 3).join(' ');
  document.title = loud.length ? `(${loud.length}) ${bad.length ? 'ALERT' : 'Acknowledge'} ${flights} – ${TITLE}` : TITLE;
  const key = (row) => `${row.id} ${row.alert.version}`;
  const fresh = bad.filter((row) => !heard.has(key(row)));
  heard = new Set(loud.map(key));
  for (const told of [...at('alarm').children]) if (!heard.has(told.dataset.key)) told.remove();
  if (!fresh.length) return;
  at('alarm').replaceChildren(...fresh.map((row) => h('span', { 'data-key': key(row) }, `Alert, ${row.flight}: ${row.alert.findings.map((code) => {
    const said = finding(code, knownOf(row)?.active?.plan);
    return `${said.leg}, ${said.text}, ${said.section}`;
  }).join('; ')}. `)));
  ring();
}

export function quiet() {
  heard = new Set();
  document.title = TITLE;
  at('alarm').replaceChildren();
}
