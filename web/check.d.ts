/** `jabulghi check` and `jabulghi tolerance` in JavaScript; docs/WEB.md says more. */

/** A file: the survey, or one that it includes. */
export interface SurveyFile {
  name: string;
  bytes: Uint8Array | string;
}

/** What is said of a survey or an option: the file and the line (0 for all of it), or the option's name, and the words. */
export interface Message {
  file: string;
  line: number;
  option: string;
  text: string;
}

/** The command's options. Strings are taken as the command takes them. */
export interface Options {
  /** The file that is the survey; the first where it is not given. */
  main?: string;
  /** "tape=10mm,compass=1deg,clino=1deg,station=50mm", or "4mm,0.5deg". */
  sigma?: string;
  /** Six seeds, or a line of them; drawn where they are not given. */
  seeds?: readonly number[] | Uint32Array | string;
  /** The first play. */
  first?: number | bigint | string;
  /** Called between stretches of plays; where it returns false, the verdict is that of the plays so far. */
  progress?: (done: number, all: number) => boolean | void;
}
export interface CheckOptions extends Options {
  plays?: number | string;
  /** The error of a trip's compass, "0.5deg". */
  trip?: string;
  /** Whether the text lists every loop. */
  loops?: boolean;
}
export interface ToleranceOptions extends Options {
  runs?: number | string;
  /** East and north in mm, "-35,22", judged instead of the loop's own miss. */
  miss?: string;
  /** Which of several loops. */
  loop?: number | string;
}

export interface Estimate {
  value: number;
  low: number;
  high: number;
}
export interface Place {
  file: string;
  line: number;
  from: string;
  to: string;
}
export interface Loop extends Place {
  legs: number;
  length_m: number;
  east_mm: number;
  north_mm: number;
  q: number;
  p: number;
  sound: boolean;
  too_well: boolean;
  stations: string[];
}
export interface Suspect extends Place {
  kind: string;
  blunder: string;
  correction: number;
  move_m: [number, number];
  gain: number;
  share: number;
  remains: number;
  others: number;
  passage: number;
}
/** `jabulghi check --json`; docs/check.md has all members. */
export interface CheckJson {
  jabulghi: string;
  file: string;
  legs: number;
  length_m: number;
  legs_in_no_loop: number;
  p: number | null;
  sound: boolean | null;
  too_well: boolean;
  beyond: number;
  sigma: Record<string, { low: number; high: number; from: string } | number>;
  factor: Estimate;
  station_mm: Estimate;
  factor_without: number | null;
  loops: Loop[];
  suspects: Suspect[];
  would_show: (Place & { passage: number; distance_m: number; bearing_degrees: number | null })[];
  seeds: number[];
  first: number;
  plays: number;
  played: [number, number][];
}
/** `jabulghi tolerance --json`. */
export interface ToleranceJson {
  jabulghi: string;
  file: string;
  legs: number;
  miss_without_noise: [number, number];
  rms: [number, number, number];
  share_beyond: number;
  share_farther: number;
  candidates: (Partial<Place> & { leg: number; distance_mm?: number; bearing_degrees?: number; remains: number })[];
  job: string[];
  first: number;
  runs: number;
  miss: [number, number];
}

/** What the command prints. */
export interface Told<Json> {
  /** The command's exit status: of a check 0 sound or without a loop, 1 not sound, 2 refused; of a tolerance 0, or another number where it is refused. */
  status: number;
  /** null where the survey or the options are refused. */
  json: Json | null;
  jsonText: string;
  text: string;
  svg: string;
  /** Why it is refused. */
  troubles: Message[];
  /** What is worth knowing of a survey that is taken. */
  notes: Message[];
  /** All that the command says on standard error. */
  said: string;
  /** Names of included files as messages have them, with the names that you gave. */
  files: Record<string, string>;
}
export type Verdict = Told<CheckJson>;
export interface Tolerance extends Told<ToleranceJson> {
  /** East and north of each run, in mm. */
  misses: Int32Array;
}

/** A leg in plan: east and north of both ends in m, and the loops that it is in, counted from 1. */
export interface PlanLeg extends Place {
  ends: [number, number, number, number];
  loops: number[];
}

/** A cave that is read, to be played step by step. */
export interface Cave {
  readonly status: number;
  readonly taken: boolean;
  readonly troubles: Message[];
  readonly notes: Message[];
  readonly said: string;
  readonly files: Record<string, string>;
  /** How many plays are asked for, the fewest that a verdict takes, and how many are played. */
  readonly plays: number;
  readonly least: number;
  readonly done: number;
  /** Plays on, as far as there are plays; how many are played then. */
  play(count: number): number;
  /** The verdict of the plays so far. */
  verdict(): Verdict;
  plan(): { legs: PlanLeg[] };
  /** One loop, from 1 on, in the first plays: its misses, its own miss and its covariance (east, both, north), in mm. */
  loop(number: number, count: number): { misses: Float64Array; miss: [number, number]; spread: number[] };
}

export class Judge {
  constructor(module: WebAssembly.Module);
  read(files: readonly SurveyFile[], options?: CheckOptions): Promise<Cave>;
  check(files: readonly SurveyFile[], options?: CheckOptions): Promise<Verdict>;
  tolerance(files: readonly SurveyFile[], options?: ToleranceOptions): Promise<Tolerance>;
}

/** Takes the bytes of jabulghi.wasm. */
export function loadJudge(bytes: ArrayBuffer | ArrayBufferView | WebAssembly.Module): Promise<Judge>;
