// Says what is wrong, at its field or with its line.
import { ERRORS } from './fields.js';
import { showLine } from './given.js';
import { $, make } from './show.js';
import { place } from './words.js';

export const FIELDS = [...ERRORS.map(([name]) => name), 'plays', 'seeds'];
const OPTIONS = { '--plays': 'plays', '--seeds': 'seeds', '--trip': 'trip' };

export function clearWrong() {
  $('said').replaceChildren();
  for (const id of [...FIELDS, 'text']) $(id).removeAttribute('aria-invalid');
  for (const id of FIELDS) $(`${id}Said`).textContent = '';
}

function wrongField(id, sentence) {
  $(`${id}Said`).textContent = sentence;
  $(id).setAttribute('aria-invalid', 'true');
  if ($(id).closest('details') !== null) $(id).closest('details').open = true;
  $(id).focus();
}

// A trouble of the survey: a button that goes to its line.
function troubleRow({ file, line, text }, names) {
  const words = `${file === '' ? '' : `${place(file, line)}: `}${text}`;
  if (!(line > 0)) return make('p', words);
  const made = make('button', words, { type: 'button' });
  made.addEventListener('click', () => showLine(names[file] ?? file, line));
  return made;
}

// Troubles as the judge tells them; `names` has those of files that messages name otherwise.
export function tellWrong(troubles, names = {}) {
  for (const { option, field = OPTIONS[option], text } of troubles.filter(trouble => trouble.option)) {
    if (FIELDS.includes(field)) wrongField(field, text);
    else $('said').append(make('p', text));
  }
  const rest = troubles.filter(({ option }) => !option), [first] = rest;
  $('said').append(...rest.map(trouble => troubleRow(trouble, names)));
  if (first !== undefined) $('text').setAttribute('aria-invalid', 'true');
  if (first?.line > 0) showLine(names[first.file] ?? first.file, first.line);
  if (first !== undefined) $('said').scrollIntoView({ block: 'nearest' });
}

// A trouble of the page's own.
export const trouble = text => ({ file: '', line: 0, text });
