// Checks a page for users who can't see it, or see it badly. Returns one line for each fault.
const lacks = [];
const all = (css) => [...document.querySelectorAll(css)].filter((it) => it.checkVisibility() && !it.closest('.unseen'));
const ids = [...document.querySelectorAll('[id]')].map((it) => it.id);
for (const id of new Set(ids)) if (ids.filter((it) => it === id).length > 1) lacks.push(`two elements have the id ${id}`);
for (const it of all('input, textarea')) if (!it.labels.length && !it.ariaLabel) lacks.push(`no label: ${it.outerHTML.slice(0, 80)}`);
for (const it of all('button, a')) if (!(it.textContent.trim() || it.ariaLabel)) lacks.push(`no name: ${it.outerHTML.slice(0, 80)}`);
for (const it of all('[aria-describedby], [aria-labelledby]')) {
  const id = it.getAttribute('aria-describedby') ?? it.getAttribute('aria-labelledby');
  if (!document.getElementById(id)) lacks.push(`no element has the id ${id}`);
}
if (all('h1').length !== 1) lacks.push(`${all('h1').length} h1 headings instead of one`);
if (document.documentElement.scrollWidth > innerWidth + 1) lacks.push(`the page is ${document.documentElement.scrollWidth} px wide in a window of ${innerWidth}`);

// The contrast of each text with its background: at least 4.5, and 3 for large text (WCAG 2.1, 1.4.3).
const rgba = (text) => (/^rgba?\(/.test(text) ? text.match(/[\d.]+/g).map(Number) : [0, 0, 0, 0]);
const over = ([r, g, b, a = 1], below) => [r, g, b].map((it, place) => it * a + below[place] * (1 - a));
const behind = (it) => (it ? over(rgba(getComputedStyle(it).backgroundColor), behind(it.parentElement)) : [255, 255, 255]);
const light = (colour) => {
  const [r, g, b] = colour.map((it) => it / 255).map((it) => (it <= 0.03928 ? it / 12.92 : ((it + 0.055) / 1.055) ** 2.4));
  return 0.2126 * r + 0.7152 * g + 0.0722 * b;
};
for (const it of all('body *')) {
  const isText = [...it.childNodes].some((node) => node.nodeType === 3 && node.textContent.trim());
  const isEmpty = it.placeholder && !it.value;
  if (!(isText || isEmpty) || it.matches(':disabled, :disabled *, noscript')) continue;
  const style = getComputedStyle(it, isEmpty ? '::placeholder' : null);
  const below = behind(it);
  const lights = [light(over(rgba(style.color), below)), light(below)].sort((one, other) => other - one);
  const ratio = (lights[0] + 0.05) / (lights[1] + 0.05);
  const size = parseFloat(style.fontSize);
  const isLarge = size >= 24 || (size >= 18.6 && Number(style.fontWeight) >= 700);
  if (ratio < (isLarge ? 3 : 4.5)) lacks.push(`contrast ${ratio.toFixed(1)}: ${(it.textContent.trim() || it.placeholder).slice(0, 40)}`);
}
return lacks;
