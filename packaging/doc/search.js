// Searches the pages with lunr, in the page itself. A browser starts no worker and fetches no index for pages that it opened as files, so mkdocs' own
// search finds nothing there. packaging/html writes the pages' texts to pages.js.

/** @typedef {{location: string, title: string, text: string}} Section */
/** @typedef {{ref: string}} Hit */

/** The greatest number of results that are shown. */
const MOST = 60;
/** How many characters of a section's text a result shows. */
const SHOWN = 180;

/**
 * Load a script of this folder, then call `then`.
 * @param {string} name
 * @param {() => void} then
 */
function load(name, then) {
  const script = document.createElement('script');
  script.src = `${/** @type {any} */ (window).base_url}/search/${name}`;
  script.onload = then;
  document.head.append(script);
}

/**
 * Return the part of a text around the first of these words.
 * @param {string} text
 * @param {string[]} words
 */
function partOf(text, words) {
  const found = words.map((word) => text.toLowerCase().indexOf(word)).filter((at) => at >= 0);
  const begin = Math.max(0, Math.min(...found, text.length) - SHOWN / 3);
  const part = text.slice(found.length ? begin : 0, (found.length ? begin : 0) + SHOWN);
  return part + (part.length < text.length ? ' …' : '');
}

/**
 * Show the sections that have all words of a query.
 * @param {Element} place
 * @param {any} index
 * @param {Map<string, Section>} sections
 * @param {string} query
 */
function show(place, index, sections, query) {
  const words = query.toLowerCase().match(/[\p{L}\p{N}_]+/gu) ?? [];
  /** @type {Hit[]} */
  const hits = words.length
    ? index.query((/** @type {any} */ it) => {
        for (const word of words) {
          it.term(word, { presence: 2, wildcard: 2, usePipeline: false });
        }
      })
    : [];
  place.replaceChildren();
  for (const { ref } of hits.slice(0, MOST)) {
    const section = /** @type {Section} */ (sections.get(ref));
    const result = document.createElement('article');
    const heading = document.createElement('h3');
    const link = document.createElement('a');
    link.href = `${/** @type {any} */ (window).base_url}/${section.location}`;
    link.textContent = section.title;
    heading.append(link);
    const text = document.createElement('p');
    text.textContent = partOf(section.text, words);
    result.append(heading, text);
    place.append(result);
  }
  if (!hits.length) {
    place.textContent = words.length ? 'No page has all of these words.' : '';
  } else if (hits.length > MOST) {
    place.append(`${hits.length - MOST} more. Add a word.`);
  }
}

/**
 * Make the index, and search as the reader types.
 * @param {Element} place
 * @param {HTMLInputElement} box
 */
function begin(place, box) {
  const lunr = /** @type {any} */ (window).lunr;
  /** @type {Section[]} */
  const list = /** @type {any} */ (window).pagesOfThisSite;
  const sections = new Map(list.map((it) => [it.location, it]));
  const index = lunr((/** @type {any} */ made) => {
    made.pipeline.reset();
    made.searchPipeline.reset();
    made.tokenizer.separator = /[^\p{L}\p{N}_]+/u;
    made.ref('location');
    made.field('title', { boost: 10 });
    made.field('text');
    list.forEach((it) => made.add(it));
  });
  box.addEventListener('input', () => show(place, index, sections, box.value));
  box.value = new URLSearchParams(window.location.search).get('q') ?? '';
  show(place, index, sections, box.value);
}

const results = document.getElementById('mkdocs-search-results');
const query = document.getElementById('mkdocs-search-query');
if (results && query instanceof HTMLInputElement) {
  load('lunr.js', () => load('pages.js', () => begin(results, query)));
}
