// Small helps for the parts of the page.

/** @template {keyof Parts} Id @param {Id} id @returns {Parts[Id]} */
export const part = id => /** @type {any} */ (document.getElementById(id));

/** @template {keyof HTMLElementTagNameMap} Name @param {Name} name @param {Partial<HTMLElementTagNameMap[Name]> & { role?: string }} properties @param {(Node | string)[]} inside @returns {HTMLElementTagNameMap[Name]} */
export function make(name, properties = {}, ...inside) {
  const made = Object.assign(document.createElement(name), properties);
  made.append(...inside);
  return made;
}

/** @param {string} text @param {() => unknown} act @param {Partial<HTMLButtonElement>} properties */
export const button = (text, act, properties = {}) => make('button', { type: 'button', textContent: text, onclick: act, ...properties });

// Calls `show` with what is to be shown, but only if it is other than before: so nothing flickers, and no focus is lost.
/** @template What @param {(what: What) => void} show @returns {(what: What) => void} */
export function onlyChanged(show) {
  let before = '';
  return what => {
    const text = JSON.stringify(what);
    if (text === before) return;
    before = text;
    show(what);
  };
}
