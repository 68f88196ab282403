// The text of the command's verdict, sentence by sentence, for the parts of the page.

// Takes lines from the front as long as they are wanted.
function take(lines, wanted) {
  const end = lines.findIndex(line => !wanted(line));
  return lines.splice(0, end < 0 ? lines.length : end);
}

// A row of a suspect is a line with two spaces in front, and what follows it with more.
function rowsOf(lines) {
  const rows = [];
  for (const line of lines) {
    if (line.startsWith('    ')) rows.at(-1)?.push(line.trim());
    else rows.push([line.trim()]);
  }
  return rows;
}

// Words that speak of the command's options mean nothing here.
const OPTIONS = /; --sigma replaces them|^(and \d+ more\. )?--loops .*$/;

export function partsOf(text) {
  const [cave, ...lines] = text.trimEnd().split('\n').map(line => line.replace(OPTIONS, '')), isLoops = line => /^(Loops: |The loop is )/.test(line);
  const errors = take(lines, line => line.startsWith('errors: ')), verdict = take(lines, line => !isLoops(line) && !line.startsWith('Look at'));
  take(lines, line => line.startsWith('Look at'));
  const suspects = rowsOf(take(lines, line => line.startsWith('  '))), suspectsSaid = take(lines, line => !isLoops(line)), loops = take(lines, isLoops).map(line => line.replace(/:$/, '.'));
  take(lines, line => line.startsWith(' ') || line === ''); // the table is made of json
  const tooWell = take(lines, line => line.startsWith('Loop ')), say = take(lines, line => !line.startsWith('(seeds'));
  return { about: [cave, ...errors], verdict, suspects, suspectsSaid, loops: [...loops, ...tooWell], say, seeds: lines };
}
