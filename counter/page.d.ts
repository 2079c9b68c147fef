// The shapes of what the clerk's page knows and shows, for the types that the scripts name in their comments. `tsc` reads this file; no browser does.

type Kind = 'first' | 'second' | 'single' | 'void';
type Given = { [line: string]: string };
type Values = { [name: string]: string | number | null | undefined };
type Pressed = { question?: string; subject?: string; word?: string; plate?: string; key: string };

/** An entry as the counter shows it. Weights are in kg, moments in ISO 8601. */
interface Entry {
  number: number;
  kind: Kind;
  plate: string;
  at: string;
  gross: number | null;
  tare: number | null;
  net: number | null;
  first: number | null;
  given: Given;
  once: boolean;
  direction?: 'in' | 'out' | null;
}

/** An open first weighing. */
interface First extends Entry {
  gross: number;
}

interface Hello {
  company?: string;
  zone: string;
  language?: string;
  languages?: { [name: string]: string };
  interval: number;
  tare_days: number;
  once?: boolean;
  demo?: boolean;
  demo_page?: string | null;
}

/** The newest value of the scale. `net` and `tare` are in kg, `at` in milliseconds of the counter's clock. */
interface Weight {
  state: 'S' | 'D' | 'I' | '+' | '-';
  net: number | null;
  tare: number | null;
  at: number;
}

interface OffZero {
  kg: number | null;
  is_refused: boolean;
  is_doubtful: boolean;
  before: number | null;
}

interface State {
  link: string;
  tare: number | null;
  bridge: string;
  zero: { known: boolean; at: string | null };
  off_zero: OffZero;
  serial: string | null;
  office: string;
  lists_whole: boolean;
  tare_left: boolean;
  journal_changed: ({ why: string } & Values) | null;
  files_written: boolean;
  room: { is_full: boolean; is_low: boolean; days: number; places: number } | null;
  busy: boolean;
}

/** A kept tare in kg. */
interface Kept {
  kg: number;
  until: string;
  by: string;
  used: string | null;
  is_over: boolean;
  empty?: number | null;
}

interface Job {
  job: number;
  number: number;
  kind: Kind;
  plate: string;
  printer: string;
  state: string;
  why: string;
}

interface Papers {
  printers: string[];
  jobs: Job[];
  refused: number | null;
  is_writable?: boolean;
}

interface Sums {
  entries: number;
  tickets: number;
  [name: string]: number;
}

/** What is weighed: the tare in kg of a Single, the First of a Second. */
interface Choice {
  kind: Kind;
  tare?: number;
  first?: First;
  isOnce?: boolean;
}

/** What the page asks of the clerk, or tells. */
interface Told {
  look?: string;
  word: string;
  more?: string;
  values?: Values | null;
  choices?: string[];
  answers?: Pressed[];
  isReady?: boolean;
  isArmable?: boolean;
}

/** What came of a press. */
interface Result extends Told {
  number: number;
  text: string;
  madeAt: number;
  leftAt?: number;
  tare: { plate: string; kg: number } | null;
}

interface Newest {
  plate: string;
  number: number;
  paper: string;
  isWithdrawn: boolean;
}

/** Everything by which the page decides what it asks now. */
interface Now {
  at: number;
  link: string;
  weight: Weight | null;
  state: State | null;
  papers: Papers;
  plate: string;
  onSite: First[];
  weighedNear: string[];
  tares: { [plate: string]: Kept };
  interval: number;
  min: number;
  empty: number | null | undefined;
  oneTare: number | null;
  isFirstInstead: boolean;
  isOnce: boolean;
  waiting: Told | null;
  result: Result | null;
  told: Told | null;
  newest: Newest | undefined;
  answered: { [question: string]: string | undefined };
  isDeaf: boolean;
  isResultNew: boolean;
}

/** What is typed for one vehicle. */
interface Form {
  plate: string;
  oneTare: number | null;
  isFirstInstead: boolean;
  isOnce: boolean;
  isGivenTyped: boolean;
  given: Given;
}

/** The fields of a request to the office. */
type Asked = { plate: string; kind?: Kind; [name: string]: string | undefined };

/** A request with its key, as the browser keeps it. */
interface KeyedRequest {
  target: string;
  form: Asked & { key: string };
  about?: { first?: number };
  made: number;
  isUnsure: boolean;
  loads?: number | null;
}

interface Answered {
  status: number;
  text: string;
  isSent: boolean;
}

/** What the clerk is at. `left` is the plate that left the form last, `ofPlate` what the counter knows of the plate in the form. */
interface Clerk {
  oneTare: number | null;
  isFirstInstead: boolean;
  isOnce: boolean;
  isGivenTyped: boolean;
  waiting: Told | null;
  result: Result | null;
  told: Told | null;
  newest: number | null;
  answered: { [question: string]: string | undefined };
  answers: Pressed[];
  deafness: import('./web/hands.js').Deafness;
  arming: import('./web/arming.js').Arming;
  plateOfLoad: import('./web/guide.js').PlateOfLoad;
  formThatLeft: Form | null;
  left: { word: string; plate: string };
  askedFor: string;
  ofPlate: { plate: string; empty: number | null; given: Given } | null;
  choice: { plate: string; weighing: string; plates: { [key: string]: string | undefined } };
}

/** What a key does. */
type Deed =
  | { is: 'left' | 'stopped' | 'spoken' | 'closing' | 'deaf' | 'cleared' | 'typed' }
  | { is: 'answered'; answer: Pressed }
  | { is: 'clicked'; part: 'zero' | 'last' | 'find' };

/** A block of a paper, as the counter lays it out. */
interface Block {
  is: string;
  text: string;
  look: string;
  centred: boolean;
  bold: boolean;
  name: string;
  value: string;
  narrow: string;
  wrapped: string;
  side: number;
  path: string;
}

/** What runs, as `/health` tells it. */
interface Runs {
  service: {
    program: { changed_since: boolean; path: string; version: string };
    process: number;
    started: string;
    words: string[];
  } | null;
  newest: { number: number; digest: string } | null;
}

/** The words of a key: a text, or one for each plural form. */
type Words = string | { [form: string]: string };

interface Catalogue {
  words: { [key: string]: Words };
  place: string;
}

/** A row of a list, with the entry that it shows. */
interface Row {
  row: HTMLElement;
  entry: Entry;
  told: string;
  main: HTMLElement;
  parts: HTMLElement[];
  menu: HTMLElement;
}

interface Says {
  text: string;
  isLate: boolean;
}

/** How a list shows its entries. */
interface Look {
  lookOf: (entry: Entry) => string;
  says: (entry: Entry) => Says;
  end: string;
}

/** The form as it is shown. */
interface Shown {
  plate: string;
  choice: Choice;
  isReady: boolean;
  isArmable: boolean;
  isArmed: boolean;
  net: number | null;
  kept: Kept | undefined;
  answers: Pressed[];
  tareOf: { plate: string; kg: number } | null | undefined;
  given: string;
  before: string;
  language: string;
}

interface Alarm {
  look: string;
  text: string;
  choice?: string;
}

/** Changes the free lines of an entry that is stored. */
type Give = (entry: Entry, given: Given) => Promise<{ status?: number; letters?: string }>;
/** Gives the form back of which nothing was stored, and says what became of it. */
type GiveBack = (hasMoved: boolean) => string;
/** Drops a kept tare, and says whether that was done. */
type Drop = (plate: string) => Promise<boolean>;

/** The parts of the page by their names, as index.html has them. A test compares both. */
interface Parts {
  driver: HTMLInputElement;
  goods: HTMLInputElement;
  'kept-query': HTMLInputElement;
  order: HTMLInputElement;
  plate: HTMLInputElement;
  query: HTMLInputElement;
  'tare-keep': HTMLInputElement;
  'tare-kg': HTMLInputElement;
  language: HTMLSelectElement;
  clear: HTMLButtonElement;
  find: HTMLButtonElement;
  go: HTMLButtonElement;
  last: HTMLButtonElement;
  'print-today': HTMLButtonElement;
  serial: HTMLButtonElement;
  tares: HTMLButtonElement;
  theme: HTMLButtonElement;
  zero: HTMLButtonElement;
  changing: HTMLDialogElement;
  entry: HTMLDialogElement;
  giving: HTMLDialogElement;
  keeping: HTMLDialogElement;
  printing: HTMLDialogElement;
  running: HTMLDialogElement;
  searching: HTMLDialogElement;
  taring: HTMLDialogElement;
  'giving-form': HTMLFormElement;
  'tare-form': HTMLFormElement;
  weigh: HTMLFormElement;
  age: HTMLElement;
  alarms: HTMLElement;
  'changing-lines': HTMLElement;
  'changing-title': HTMLElement;
  choices: HTMLElement;
  clock: HTMLElement;
  company: HTMLElement;
  demo: HTMLElement;
  'entry-from': HTMLElement;
  'entry-sub': HTMLElement;
  'entry-text': HTMLElement;
  'entry-title': HTMLElement;
  'entry-tools': HTMLElement;
  facts: HTMLElement;
  'giving-label': HTMLElement;
  'giving-why': HTMLElement;
  'go-more': HTMLElement;
  'go-words': HTMLElement;
  guide: HTMLElement;
  hint: HTMLElement;
  hits: HTMLElement;
  jobs: HTMLElement;
  'keeping-title': HTMLElement;
  kept: HTMLElement;
  kind: HTMLElement;
  lists: HTMLElement;
  more: HTMLElement;
  note: HTMLElement;
  others: HTMLElement;
  paper: HTMLElement;
  parts: HTMLElement;
  'printing-title': HTMLElement;
  'running-title': HTMLElement;
  'save-today': HTMLAnchorElement;
  scale: HTMLElement;
  'scale-top': HTMLElement;
  'search-label': HTMLElement;
  sign: HTMLElement;
  site: HTMLElement;
  'site-count': HTMLElement;
  'site-title': HTMLElement;
  spoken: HTMLElement;
  state: HTMLElement;
  'tare-empty': HTMLElement;
  'tare-keep-words': HTMLElement;
  'tare-label': HTMLElement;
  today: HTMLElement;
  'today-count': HTMLElement;
  'today-sum': HTMLElement;
  'today-title': HTMLElement;
  'today-tools': HTMLElement;
  weight: HTMLElement;
  words: HTMLElement;
  work: HTMLElement;
}
