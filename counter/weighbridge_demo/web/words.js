// The words of the page in each language.

/** @type {{ [language: string]: string }} */
const PLACES = { en: 'en-GB', de: 'de-DE', fr: 'fr-FR', es: 'es-ES' };
export const NAMES = { en: 'English', de: 'Deutsch', fr: 'Français', es: 'Español' };

/** @type {{ [key: string]: string[] }} */
const WORDS = {
  language: ['Language', 'Sprache', 'Langue', 'Idioma'],
  demo: ['The weights are simulated. Nothing here is a weighing.', 'Die Gewichte sind simuliert. Nichts hier ist eine Wägung.', 'Les poids sont simulés. Rien ici n’est une pesée.', 'Los pesos son simulados. Nada de esto es una pesada.'],
  gone: ['The demo has ended. Start weighbridge-demo again, and open the address that it prints.', 'Die Demo ist beendet. weighbridge-demo neu starten und die Adresse öffnen, die es ausgibt.', 'La démo est terminée. Relancez weighbridge-demo et ouvrez l’adresse qu’il affiche.', 'La demo ha terminado. Inicie weighbridge-demo de nuevo y abra la dirección que muestra.'],
  title: ['On the simulated bridge', 'Auf der simulierten Waage', 'Sur le pont simulé', 'En la báscula simulada'],
  clerks_page: ['To the clerk’s page', 'Zur Seite des Wägers', 'À la page du peseur', 'A la página del operador'],
  by_hand: ['By hand', 'Von Hand', 'À la main', 'A mano'],
  drive_on: ['A lorry drives on', 'Ein Lastwagen fährt auf', 'Un camion monte', 'Sube un camión'],
  drive_off: ['Drive off', 'Abfahren', 'Le véhicule descend', 'El vehículo baja'],
  load: ['Load:', 'Last:', 'Charge :', 'Carga:'],
  by_hand_more: ['The slider and a lorry stop the day. “Play the day” continues it.', 'Der Regler und ein Lastwagen halten den Tag an. „Den Tag spielen“ setzt ihn fort.', 'Le curseur et un camion arrêtent la journée. « Jouer la journée » la continue.', 'El control y un camión detienen el día. «Jugar el día» lo continúa.'],
  day: ['A made-up day', 'Ein erfundener Tag', 'Une journée inventée', 'Un día inventado'],
  play: ['Play the day', 'Den Tag spielen', 'Jouer la journée', 'Jugar el día'],
  stop: ['Stop the day', 'Den Tag anhalten', 'Arrêter la journée', 'Detener el día'],
  again: ['Play the day again', 'Den Tag noch einmal spielen', 'Rejouer la journée', 'Jugar el día otra vez'],
  day_more: ['Each vehicle waits until you weigh it, then it drives off.', 'Jedes Fahrzeug wartet, bis Sie es wiegen, und fährt dann ab.', 'Chaque véhicule attend que vous le pesiez, puis il descend.', 'Cada vehículo espera hasta que usted lo pese, y luego baja.'],
  done: ['{done} of {all} done', '{done} von {all} erledigt', '{done} sur {all} faits', '{done} de {all} hechos'],
  empty: ['The bridge is empty.', 'Die Waage ist leer.', 'Le pont est vide.', 'La báscula está vacía.'],
  drives_on: ['drives onto the bridge', 'fährt auf die Waage', 'monte sur le pont', 'sube a la báscula'],
  sways: ['sways', 'schaukelt', 'oscille', 'oscila'],
  stands: ['stands on the bridge, {tons} t', 'steht auf der Waage, {tons} t', 'est sur le pont, {tons} t', 'está en la báscula, {tons} t'],
  drives_off: ['drives off', 'fährt ab', 'descend', 'baja'],
  changes: ['The load changes', 'Die Last ändert sich', 'La charge change', 'La carga cambia'],
  some_load: ['A load', 'Eine Last', 'Une charge', 'Una carga'],
  on_it: ['{kg} on the bridge', '{kg} auf der Waage', '{kg} sur le pont', '{kg} en la báscula'],
  next: ['The next one comes at once.', 'Das nächste kommt gleich.', 'Le suivant arrive tout de suite.', 'El siguiente llega enseguida.'],
  choose: ['Press “A lorry drives on” or “Play the day”.', '„Ein Lastwagen fährt auf“ oder „Den Tag spielen“ drücken.', 'Appuyez sur « Un camion monte » ou « Jouer la journée ».', 'Pulse «Sube un camión» o «Jugar el día».'],
  over: ['The day is over.', 'Der Tag ist vorbei.', 'La journée est terminée.', 'El día ha terminado.'],
  first: ['Type {plate} on the clerk’s page, and weigh it in.', 'Auf der Seite des Wägers {plate} tippen und einwiegen.', 'Tapez {plate} sur la page du peseur, et pesez à l’entrée.', 'Escriba {plate} en la página del operador y pese la entrada.'],
  second: ['Type {plate} on the clerk’s page, and weigh it out.', 'Auf der Seite des Wägers {plate} tippen und auswiegen.', 'Tapez {plate} sur la page du peseur, et pesez à la sortie.', 'Escriba {plate} en la página del operador y pese la salida.'],
  single: ['Type {plate}, press “Tare from papers…”, and type {tare}, the tare on its papers.', '{plate} tippen, „Tara aus Papieren…“ drücken und {tare} tippen, die Tara in seinen Papieren.', 'Tapez {plate}, appuyez sur « Tare des papiers… » et tapez {tare}, la tare de ses papiers.', 'Escriba {plate}, pulse «Tara de los papeles…» y escriba {tare}, la tara de sus papeles.'],
  load_todo: ['Type a plate of your own on the clerk’s page.', 'Auf der Seite des Wägers ein eigenes Kennzeichen tippen.', 'Tapez une immatriculation de votre choix sur la page du peseur.', 'Escriba una matrícula cualquiera en la página del operador.'],
  was_weighed: ['Weighed as number {number}.', 'Gewogen als Nummer {number}.', 'Pesé sous le numéro {number}.', 'Pesado con el número {number}.'],
  leaves: ['It drives off by itself.', 'Es fährt von selbst ab.', 'Il descend de lui-même.', 'Baja por sí solo.'],
  let_off: ['Press “Drive off”.', '„Abfahren“ drücken.', 'Appuyez sur « Le véhicule descend ».', 'Pulse «El vehículo baja».'],
  was_mistyped: ['Weighed as {typed}, but this is {plate}. On a real bridge: withdraw it, and let it drive off and on again.', 'Gewogen als {typed}, aber das ist {plate}. An einer echten Waage: stornieren, ab- und wieder auffahren lassen.', 'Pesé comme {typed}, mais c’est {plate}. Sur un vrai pont : annulez, faites descendre et remonter.', 'Pesado como {typed}, pero es {plate}. En una báscula de verdad: anúlelo y haga que baje y suba otra vez.'],
  comes_in: ['Weigh in', 'Einwiegen', 'Pesée d’entrée', 'Pesada de entrada'],
  comes_out: ['Weigh out', 'Auswiegen', 'Pesée de sortie', 'Pesada de salida'],
  comes_once: ['Weigh once, with the tare {tare} of its papers', 'Einmal wiegen, mit der Tara {tare} aus seinen Papieren', 'Une seule pesée, avec la tare {tare} de ses papiers', 'Una sola pesada, con la tara {tare} de sus papeles'],
  mark_weighed: ['done', 'erledigt', 'faite', 'hecha'],
  mark_mistyped: ['done with another plate', 'mit anderem Kennzeichen erledigt', 'faite avec une autre immatriculation', 'hecha con otra matrícula'],
  mark_unweighed: ['drove off without it', 'ohne Wägung abgefahren', 'parti sans elle', 'se fue sin ella'],
  mark_left_out: ['left out, because its other weighing is missing or open', 'ausgelassen, weil seine andere Wägung fehlt oder offen ist', 'omise, car son autre pesée manque ou est ouverte', 'omitida, porque su otra pesada falta o está abierta'],
};

const LANGUAGES = Object.keys(NAMES);
export let language = 'en';

/** @param {string} name */
export function speak(name) {
  language = LANGUAGES.includes(name) ? name : 'en';
  document.documentElement.lang = language;
}

export const wanted = () => [new URLSearchParams(location.search).get('lang'), ...navigator.languages.map(it => it.slice(0, 2))].find(it => it && LANGUAGES.includes(it)) ?? 'en';
/** @param {string} key @param {{ [name: string]: string | number }} values */
export const t = (key, values = {}) => WORDS[key][LANGUAGES.indexOf(language)].replace(/\{(\w+)\}/g, (_, name) => `${values[name] ?? ''}`);
/** @param {number} value @returns {string} */
export const number = (value, digits = 0) => new Intl.NumberFormat(PLACES[language], { minimumFractionDigits: digits, maximumFractionDigits: digits, useGrouping: /** @type {any} */ ('always') }).format(value);
/** @param {number} value */
export const kg = value => `${number(value)} kg`;
