// The fields of the form, as the options of `jabulghi check`. A decimal comma is a point.
import { noNumber, ofAngles, ofLengths, WORDS } from './words.js';

// The errors by name, in lengths or in angles; the trip's is an option of its own.
export const ERRORS = [['tape', true], ['compass', false], ['clino', false], ['station', true], ['fix', true], ['trip', false]];

export class Wrong extends Error {
  constructor(field, sentence) {
    super(sentence);
    Object.assign(this, { name: 'Wrong', field, sentence });
  }
}

const MEASURE = /^(\d+(?:[.,]\d*)?|[.,]\d+)\s*(mm|cm|m|°|deg|degrees?)?$/i;

// A field's words with their unit: as the command takes them; undefined for an empty field.
export function measureOf(field, isLength, given, unit) {
  const text = given.trim(), [, digits, own] = MEASURE.exec(text) ?? [], typed = own?.toLowerCase();
  if (text === '') return undefined;
  const fits = digits !== undefined && (typed === undefined || isLength === ['mm', 'cm', 'm'].includes(typed));
  if (!fits) throw new Wrong(field, noNumber(WORDS[field], text, isLength ? ofLengths : ofAngles));
  const plain = digits.replace(',', '.').replace(/^\./, '0.').replace(/\.$/, '');
  return plain + (isLength ? typed ?? unit : 'deg');
}

// Thousands may be written apart.
export const playsOf = given => given.trim().replace(/(\d)[ ,.](?=\d{3}(?!\d))/g, '$1');

// Six numbers, with commas or as a line of a job.
export const seedsOf = given => (given.match(/\d+/g) ?? []).join(',');

// The options, by a function that gives a field's value by its name.
export function optionsOf(value) {
  const measures = ERRORS.map(([name, isLength]) => [name, measureOf(name, isLength, value(name), isLength ? value(`${name}Unit`) : '')]).filter(([, measure]) => measure !== undefined);
  const options = { plays: playsOf(value('plays')), seeds: seedsOf(value('seeds')) }, errors = measures.filter(([name]) => name !== 'trip').map(([name, measure]) => `${name}=${measure}`);
  if (errors.length > 0) options.sigma = errors.join(',');
  for (const [name, measure] of measures) if (name === 'trip') options.trip = measure;
  return options;
}
