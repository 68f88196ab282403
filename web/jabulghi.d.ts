/** The library in JavaScript; include/jabulghi.h says what each call does, docs/WEB.md how to find jabulghi.wasm. */
import { CheckOptions, SurveyFile, Tolerance, ToleranceOptions, Verdict } from './check.js';

/** The numbers of jabulghi.h, by name. */
export const CODES: Readonly<Record<string, number>>;

/** A call that was refused, with the bad line of a text, or 0. */
export class Refusal extends Error {
  readonly code: number;
  readonly line: number;
  readonly sentence: string;
}

/** Bytes that can be kept, and put back by bytes.set(kept). */
export interface Kept {
  readonly bytes: Uint8Array;
}
export interface Record extends Kept {
  readonly registers: number[];
  readonly count: bigint;
  readonly open: boolean;
  readonly asked: number;
  pair(): Int16Array;
  pair18(): Int32Array;
  block(samples: number | Int16Array): Int16Array;
  block18(samples: number | Int32Array): Int32Array;
  look(samples: number | Int16Array): Int16Array;
  look18(samples: number | Int32Array): Int32Array;
  take(samples: number | Int16Array): Int16Array;
  take18(samples: number | Int32Array): Int32Array;
  skip(pairs: number | bigint): this;
  ask(pairs: number): this;
  giveUp(): this;
}
export interface Window extends Kept {
  readonly size: number;
  readonly held: number;
  readonly sum: number;
  readonly squares: number;
  push(sample: number): this;
  pushAll(samples: Int16Array): this;
}
export interface Marks extends Kept {
  save(record: Record, name: string | Uint8Array): this;
  return(record: Record, name: string | Uint8Array): this;
  drop(name: string | Uint8Array): this;
}

export interface Jabulghi {
  readonly exports: WebAssembly.Exports;
  readonly start: number;
  seed(a0: number, a1: number, a2: number, b0: number, b1: number, b2: number): Record;
  window(size: number): Window;
  marks(): Marks;
  sample(k: number | bigint, v: number): Int16Array;
  sample18(k: number | bigint, v: number): Int32Array;
  list(job: string | Uint8Array): string;
  legs(survey: string | Uint8Array): string;
  misclosure(listing: string | Uint8Array): { east: number; north: number; sums: BigInt64Array };
  intervals(listing: string | Uint8Array): { east: [number, number]; north: [number, number]; sums: BigInt64Array };
  play(job: string | Uint8Array, runs: number, first?: number | bigint): Int32Array;
  /** Whether a cave is sound. */
  check(files: readonly SurveyFile[], options?: CheckOptions): Promise<Verdict>;
  /** How one loop compares with instrument noise. */
  tolerance(files: readonly SurveyFile[], options?: ToleranceOptions): Promise<Tolerance>;
}

/** Takes the bytes of jabulghi.wasm. */
export function load(bytes: ArrayBuffer | ArrayBufferView): Promise<Jabulghi>;
