// The shapes of what the demo's page shows, for the types that its script names in its comments. `tsc` reads this file; no browser does.

/** A visit of the made-up day. Weights are in kg. */
interface Visit {
  at: string;
  plate: string;
  kind: string;
  kg: number;
  tare: number | null;
}

interface Day {
  visits: Visit[];
  clerks_page: string;
  max: string;
  interval: string;
}

/** What is on the played bridge now, and what became of each visit. */
interface DemoState {
  phase: string;
  kg: number;
  stay: {
    plate: string;
    kind: string;
    tare: number | null;
    at: string | null;
    weighed: { plate: string; number: number } | null;
  } | null;
  is_playing: boolean;
  is_over: boolean;
  marks: string[];
  now: number | null;
}

/** The parts of the demo's page by their names, as its index.html has them. A test compares both. */
interface DemoParts {
  clerk: HTMLAnchorElement;
  load: HTMLInputElement;
  language: HTMLSelectElement;
  off: HTMLButtonElement;
  on: HTMLButtonElement;
  play: HTMLButtonElement;
  day: HTMLElement;
  demo: HTMLElement;
  done: HTMLElement;
  gone: HTMLElement;
  hands: HTMLElement;
  happens: HTMLElement;
  'load-kg': HTMLElement;
  now: HTMLElement;
  plate: HTMLElement;
  todo: HTMLElement;
  visits: HTMLElement;
}
