// A paper in the browser: the counter's blocks as parts of the page, which only the print style shows.

import { make } from './parts.js';

const SVG = 'http://www.w3.org/2000/svg';

/** @param {Block} block */
function codeOf(block) {
  const code = document.createElementNS(SVG, 'svg'), dark = document.createElementNS(SVG, 'path');
  code.setAttribute('viewBox', `0 0 ${block.side} ${block.side}`);
  code.setAttribute('shape-rendering', 'crispEdges');
  dark.setAttribute('d', block.path);
  code.append(dark);
  return make('div', { className: 'code' }, code, make('p', { textContent: block.name }));
}

// The legal text twice: whole, and wrapped between characters for a narrow roll, of which the print style shows one.
/** @param {Block} block */
function legalOf(block) {
  return make('div', { className: 'legal' }, make('pre', { className: 'whole', lang: 'en', textContent: block.text }),
    make('div', { className: 'narrow' }, make('pre', { lang: 'en', textContent: block.narrow }), make('p', { textContent: block.wrapped })));
}

/** @type {{ [is: string]: (block: Block) => HTMLElement }} */
const MADE = {
  mark: it => make('p', { className: 'mark', textContent: it.text }),
  line: it => make('p', { className: `${it.look}${it.centred ? ' centred' : ''}`, textContent: it.text }),
  pair: it => make('p', { className: `pair${it.bold ? ' bold' : ''}` }, make('span', { textContent: it.name }), ' ', make('span', { textContent: it.value })),
  rule: it => make('p', { className: 'rule', textContent: it.text }),
  legal: legalOf,
  code: codeOf,
};

/** @param {HTMLElement} paper @param {Block[]} blocks */
export function fillPaper(paper, blocks) {
  paper.replaceChildren(...blocks.map(it => MADE[it.is](it)));
}
