// The files that were given, the one that the survey begins with, and the one whose text is shown.
import { bytesOf, rootsOf, textOf } from './files.js';
import { $, make } from './show.js';
import { severalFiles } from './words.js';

export const given = { files: [], begin: '', shown: '' };

export const fileOf = name => given.files.find(file => file.name === name);

export function showFile(name) {
  given.shown = name;
  $('which').value = name;
  $('text').value = fileOf(name) === undefined ? '' : textOf(fileOf(name).bytes);
}

// New files replace those before.
export function takeFiles(files) {
  const option = file => make('option', file.name, { value: file.name }), roots = rootsOf([...files]);
  given.files = files;
  given.begin = roots[0]?.name ?? '';
  $('several').hidden = files.length < 2;
  $('beginBox').hidden = roots.length < 2;
  $('begin').replaceChildren(...roots.map(option));
  $('which').replaceChildren(...files.map(option));
  $('severalSaid').textContent = severalFiles(files.length, given.begin);
  showFile(given.begin);
}

// What is typed is the text of the file that is shown.
export function changeText() {
  const bytes = bytesOf($('text').value);
  if (fileOf(given.shown) === undefined) Object.assign(given, { files: [{ name: 'survey.svx', bytes }], begin: 'survey.svx', shown: 'survey.svx' });
  else fileOf(given.shown).bytes = bytes;
}

// A line of a file as it is written, without blanks that say nothing.
export const writtenAt = (name, line) => textOf(fileOf(name)?.bytes ?? new Uint8Array()).split('\n')[line - 1]?.trim().replace(/\s+/g, ' ');

// Shows a line of a file, selected.
export function showLine(name, line) {
  if (fileOf(name) !== undefined) showFile(name);
  const lines = $('text').value.split('\n'), start = lines.slice(0, line - 1).join('\n').length + (line > 1 ? 1 : 0);
  $('text').focus();
  $('text').setSelectionRange(start, start + (lines[line - 1] ?? '').length);
  $('text').scrollTop = Math.max(0, (line - 4) * parseFloat(getComputedStyle($('text')).lineHeight));
}
