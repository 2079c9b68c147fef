"""Scripts that find in a page what is too faint or too wide. Each returns a list of parts."""

CONTRAST = """
const numbers = text => (text.match(/[\\d.]+/g) || []).map(Number);
const light = ([r, g, b]) => [r, g, b].map(it => it / 255).map(it => it <= .03928 ? it / 12.92 : ((it + .055) / 1.055) ** 2.4).reduce((sum, it, at) => sum + it * [.2126, .7152, .0722][at], 0);
const ground = it => { for (; it; it = it.parentElement) { const [r, g, b, a = 1] = numbers(getComputedStyle(it).backgroundColor); if (a > .5) return [r, g, b]; } return [255, 255, 255]; };
const contrast = (color, it) => { const [a, b] = [light(numbers(color)), light(ground(it))].sort((x, y) => y - x); return (a + .05) / (b + .05); };
const found = [];"""
# Text whose colour is too near to what is behind it.
FAINT = f"""{CONTRAST}
for (const it of document.querySelectorAll('body *')) {{
  const own = [...it.childNodes].filter(node => node.nodeType === 3 && node.textContent.trim()).map(node => node.textContent.trim()).join(' ');
  if (!(own || it.tagName === 'INPUT') || !it.checkVisibility() || it.closest('option')) continue;
  if (document.querySelector('dialog[open]') && !it.closest('dialog[open]')) continue;
  const has = contrast(getComputedStyle(it).color, it);
  if (has < 4.5) found.push(`${{it.tagName}}#${{it.id}}.${{it.className}} ${{own}}: ${{has.toFixed(2)}}`);
}}
return found;"""
# Controls whose border has too little contrast with what is around it, WCAG 1.4.11.
FAINT_BORDERS = f"""{CONTRAST}
for (const it of document.querySelectorAll('button, input, select, #save-today')) {{
  const style = getComputedStyle(it);
  if (!it.checkVisibility() || it.closest('li') || it.type === 'checkbox' || parseFloat(style.borderTopWidth) === 0 || it.id === 'serial') continue;
  const has = contrast(style.borderTopColor, it.parentElement);
  if (has < 3) found.push(`${{it.tagName}}#${{it.id}}: ${{has.toFixed(2)}}`);
}}
return found;"""
WIDE = """return [...document.querySelectorAll('body *')].filter(it => it.checkVisibility() && !it.closest('#paper') && it.getBoundingClientRect().right > innerWidth + 1)
  .map(it => `${it.tagName}#${it.id}`).concat(document.documentElement.scrollWidth > innerWidth ? ['the page'] : [])
  .concat([...document.querySelectorAll('#work > * *, header *, #alarms *')].filter(it => it.checkVisibility() && !it.closest('select') &&
    it.getBoundingClientRect().bottom > it.closest('#work > *, header, #alarms').getBoundingClientRect().bottom + 1).map(it => `cut: ${it.tagName}#${it.id}`))"""
