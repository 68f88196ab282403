// The files of a survey, as they were pasted, opened or dropped.

// What is taken of a folder; files that were chosen one by one are all taken.
const SURVEYS = /\.(svx|job|listing|txt|dat)$/i;

// A text as it is shown: UTF-8, else the western letters of Windows.
export function textOf(bytes) {
  try {
    return new TextDecoder('utf-8', { fatal: true }).decode(bytes);
  } catch (error) {
    return new TextDecoder('windows-1252').decode(bytes);
  }
}

// A text box has lines; the last one's line feed is added.
export const bytesOf = text => new TextEncoder().encode(text.replace(/[^\n]$/, '$&\n'));

const lastPart = name => name.replaceAll('\\', '/').split('/').at(-1).toLowerCase();

// The names that a text includes, without their folders.
function included(text) {
  return [...text.matchAll(/^[ \t]*\*include[ \t]+(?:"([^"\n]*)"|([^\s;]+))/gim)].map(([, quoted, bare]) => lastPart(quoted ?? bare));
}

// For each file those that it includes, itself left out.
function includesOf(files) {
  return new Map(files.map(file => {
    const names = new Set(included(textOf(file.bytes)).flatMap(name => [name, `${name}.svx`]));
    return [file, files.filter(other => other !== file && names.has(lastPart(other.name)))];
  }));
}

function reached(file, includes, found = new Set()) {
  if (!found.has(file)) {
    found.add(file);
    for (const other of includes.get(file)) reached(other, includes, found);
  }
  return found;
}

// The files that a survey can begin with, that with the most files first: those that no other includes.
export function rootsOf(files) {
  const includes = includesOf(files), inside = new Set([...includes.values()].flat()), roots = files.filter(file => !inside.has(file));
  const sizes = new Map(roots.map(file => [file, reached(file, includes).size]));
  return (roots.length > 0 ? roots : files).sort((one, other) => sizes.get(other) - sizes.get(one) || (one.name < other.name ? -1 : 1));
}

async function entriesOf(folder) {
  const reader = folder.createReader(), all = [];
  for (;;) {
    const some = await new Promise((done, fail) => { reader.readEntries(done, fail); }); // a browser gives a hundred at a time
    if (some.length === 0) return all;
    all.push(...some);
  }
}

// A dropped folder with all that is in it, as an entry.
async function walkEntry(entry, path) {
  const name = `${path}${entry.name}`;
  if (entry.isDirectory) return (await Promise.all((await entriesOf(entry)).map(inside => walkEntry(inside, `${name}/`)))).flat();
  return SURVEYS.test(name) ? [{ name, file: await new Promise((done, fail) => { entry.file(done, fail); }) }] : [];
}

// The same as a handle: Chromium reads no entries for a page of file://.
async function walkHandle(handle, path) {
  const name = `${path}${handle.name}`, found = [];
  if (handle.kind === 'file') return SURVEYS.test(name) ? [{ name, file: await handle.getFile() }] : [];
  for await (const inside of handle.values()) found.push(...await walkHandle(inside, `${name}/`));
  return found;
}

// All has to be asked for before anything is waited for.
function droppedOne(item) {
  const entry = item.webkitGetAsEntry?.(), file = item.getAsFile();
  if (!entry?.isDirectory) return [{ name: file.name, file }];
  return item.getAsFileSystemHandle === undefined ? walkEntry(entry, '') : item.getAsFileSystemHandle().then(handle => walkHandle(handle, ''));
}

const read = found => Promise.all(found.map(async ({ name, file }) => ({ name, bytes: new Uint8Array(await file.arrayBuffer()) })));

// What was dropped: files, and all of a folder.
export async function droppedFiles(transfer) {
  const found = await Promise.all([...transfer.items].filter(({ kind }) => kind === 'file').map(droppedOne));
  return read(found.flat().sort((one, other) => (one.name < other.name ? -1 : 1)));
}

// What was opened: files, or all of a folder.
export function openedFiles(files) {
  const named = [...files].map(file => ({ name: file.webkitRelativePath || file.name, file }));
  return read(named.filter(({ name, file }) => file.webkitRelativePath === '' || SURVEYS.test(name)));
}
