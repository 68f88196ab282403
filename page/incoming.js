// What comes in: examples, and what is pasted, opened or dropped.
import { EXAMPLES } from './examples.js';
import { bytesOf, droppedFiles, openedFiles } from './files.js';
import { changeText, given, showFile, takeFiles } from './given.js';
import { load } from './jabulghi.js';
import { largeCave } from './large.js';
import { $, grey } from './show.js';
import { noSurvey, unread } from './words.js';
import { tellWrong, trouble } from './wrong.js';

let bytes, check;

// New files are checked at once.
function take(files) {
  takeFiles(files);
  check();
}

const takeText = (text, name = 'survey.svx') => take([{ name, bytes: bytesOf(text) }]);

async function takeRead(promise) {
  try {
    const files = await promise;
    if (files.length > 0) take(files);
    else tellWrong([trouble(noSurvey)]);
  } catch (error) {
    tellWrong([trouble(unread)]);
  }
}

async function example(which) {
  const blunder = () => EXAMPLES['cave.svx'].replace('5\t6\t13.74\t115', '5\t6\t13.74\t151');
  const texts = { cave: () => EXAMPLES['cave.svx'], blunder, large: async () => largeCave(await load(bytes)), loop: () => EXAMPLES['loop.svx'], job: () => EXAMPLES['loop.job'] };
  if (texts[which] !== undefined) takeText(await texts[which](), which === 'job' ? 'loop.job' : `${which}.svx`);
}

function paste(event) {
  const files = [...event.clipboardData?.files ?? []];
  if (files.length > 0) {
    event.preventDefault();
    takeRead(openedFiles(files));
  } else {
    setTimeout(() => (given.files.length < 2 ? takeText($('text').value) : check()));
  }
}

function drop(event) {
  const text = event.dataTransfer.getData('text');
  event.preventDefault();
  document.body.classList.remove('over');
  if ([...event.dataTransfer.items].some(({ kind }) => kind === 'file')) takeRead(droppedFiles(event.dataTransfer));
  else if (text !== '') takeText(text);
}

// Calls `start` where there is something to check.
export function listenToFiles(wasm, start) {
  [bytes, check] = [wasm, start];
  $('text').addEventListener('input', () => { changeText(); grey(true); });
  $('text').addEventListener('paste', paste);
  document.addEventListener('dragover', event => { event.preventDefault(); document.body.classList.add('over'); });
  document.addEventListener('dragleave', event => { if (event.relatedTarget === null) document.body.classList.remove('over'); });
  document.addEventListener('drop', drop);
  for (const [button, input] of [['open', 'file'], ['openFolder', 'folder']]) {
    $(button).addEventListener('click', () => $(input).click());
    $(input).addEventListener('change', () => takeRead(openedFiles($(input).files)).then(() => { $(input).value = ''; }));
  }
  $('openFolder').hidden = !('webkitdirectory' in $('folder'));
  $('begin').addEventListener('change', () => { given.begin = $('begin').value; showFile(given.begin); check(); });
  $('which').addEventListener('change', () => showFile($('which').value));
  $('example').addEventListener('change', () => { example($('example').value); $('example').value = ''; });
}
