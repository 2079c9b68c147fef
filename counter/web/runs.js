// Which program weighs, how it is set up, and what its journal ends with: for an inspector, and for who is asked by telephone.

import { make, part } from './parts.js';
import { askJson } from './request.js';
import { dayOf, number, t, timeOf } from './words.js';

/** @param {string} word @param {(string | undefined)[]} texts */
const rows = (word, ...texts) => [make('dt', { textContent: t(word) }), ...texts.filter(Boolean).map(textContent => make('dd', { textContent }))];

export async function showRuns() {
  const health = await askJson('GET', '/health');
  part('facts').replaceChildren(...(health?.state ? factsOf(health) : [make('dt', { className: 'bad', textContent: t('link_off') })]));
  part('running').showModal();
}

/** @param {Runs} runs */
function factsOf({ service, newest }) {
  const journal = rows('runs_newest', newest ? number(newest.number) : t('runs_no_entry'), newest?.digest);
  if (service === null) return [make('dt', { className: 'bad', textContent: t('runs_unseen') }), ...journal];
  const { program, process, started, words } = service;
  return [
    ...(program.changed_since ? [make('dt', { className: 'bad', textContent: t('runs_other') })] : []),
    ...rows('runs_program', program.path, ...program.version.split('\n')),
    ...rows('runs_since', `${dayOf(started)} ${timeOf(started)}`, t('runs_process', { process })),
    ...rows('runs_setup', ...words.slice(words.indexOf('serve') + 1).join(' ').split(/ (?=--)/)),
    ...journal,
  ];
}
