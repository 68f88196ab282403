// Every word of the page that is the page's own; the verdict's words come from judge/words.c. For another language, translate this file.
import { pairName } from './labels.js';

const number = value => value.toLocaleString('en');
const counted = (count, one, many) => `${number(count)} ${count === 1 ? one : many}`;

export const WORDS = {
  title: 'Is this cave sound?',
  lead: 'Your cave is played back many times with the noise of your instruments. If almost no sound cave looks as bad as yours, there is a blunder to find. Nothing leaves this page.',
  survey: 'Survey', surveyHint: 'Paste a Survex text, or drop or open files: all files of a cave together, or its folder.',
  open: 'Open files', openFolder: 'Open a folder', examples: 'Example', choose: 'Example …',
  cave: 'a sound cave of 3 loops', blunder: 'the same with a blunder', loop: 'a loop of 8 legs', large: 'a large cave: 3,000 legs, 100 loops', job: 'a job with its own errors and seeds',
  begin: 'Begins with', which: 'Shows', form: 'What is checked',
  errors: 'Your errors', errorsHint: 'Standard deviations: two of three readings are off by less. An empty field means what the survey says (*sd), or Survex’s defaults.',
  tape: 'Tape', compass: 'Compass', clino: 'Clino', station: 'Stations', fix: 'Fixed points', trip: 'Compass of a trip', degrees: '°',
  tapeUnit: 'Unit of the tape’s error', stationUnit: 'Unit of the stations’ error', fixUnit: 'Unit of the fixed points’ error',
  more: 'More', plays: 'Plays', seeds: 'Six seeds',
  seedsHint: 'With the same seeds you get the same answer again. Empty: drawn anew for each check; a job has its own.', keep: 'Keep the seeds of this verdict',
  go: 'Check the cave', stop: 'Stop', progress: 'Plays done', results: 'What was found',
  oldResults: 'These are the results of what was checked before.',
  plan: 'Plan', planHint: 'Wheel, pinch, + and − zoom; drag and arrow keys move; 0 shows all.', closer: 'Closer', farther: 'Farther', whole: 'Show all', north: 'N',
  alone: 'in no loop', sound: 'in a loop', bad: 'in a bad loop', suspect: 'look here',
  suspects: 'Legs to look at', suspectsHint: 'Choose a row to see its leg in the plan.',
  loops: 'Loops', loopsHint: 'Choose a loop to see it in the plan and below. p is the share of sound loops that miss by as much as this one alone.',
  loopNumber: 'Loop', legs: 'Legs', length: 'Length, m', misses: 'Misses, m', percent: '%', p: 'p', judged: 'Verdict', isSound: 'sound', isBad: 'bad', tooWell: 'too well',
  say: 'What the loops say of your errors', one: 'One loop', cloud: 'Where its plays miss', histogram: 'How far its plays miss',
  save: 'Save', json: 'Verdict (JSON)', svg: 'Plan (SVG)', print: 'Print', notes: 'What was noticed while reading', proved: 'What is proved', seedsUsed: 'Seeds and plays',
};

export const PROVED = [
  'The noise is that of jabulghi_block. Proved by machine for every seed that it accepts: each draw and each sample is what the project’s documents say (docs/CONTRACTS.md), ' +
    'and no call overruns, reads outside its memory or runs without end.',
  'The proof is of the source. The compiler that made WebAssembly of it, and this browser, are not proved.',
  'Not proved, but tested: reading the survey and judging it (the same C as the command `jabulghi check`, with the same seeds the same numbers), and this page.',
  'Modelled: independent errors of tape, compass, clino and stations, and rounding. Not modelled: calibration that is off everywhere, heights.',
];

// What a field may hold.
export const noNumber = (word, given, unit) => `${word}: ‘${given}’ is no number. Write 10 or 0.5 or 0,5${unit}.`;
export const ofLengths = ', with mm, cm or m';
export const ofAngles = ' degrees';

export const doing = (plays, all) => (plays === 0 ? 'Reading the survey …' : `${number(plays)} of ${number(all)} plays`);
export const firstOf = (plays, all) => `First verdict, by ${number(plays)} of ${number(all)} plays.`;
export const stopped = (plays, all) => `Stopped after ${number(plays)} of ${number(all)} plays: the verdict is by those.`;
export const took = seconds => `${seconds.toFixed(1)} s`;
export const noText = 'There is no survey: paste, drop or open one.';
export const unread = 'The files could not be read.';
export const noSurvey = 'No file of those is a survey: their names end in .svx, .job or .listing.';
export const severalFiles = (files, main) => `${counted(files, 'file', 'files')}; the survey begins with ${main}.`;
export const place = (file, line) => (line > 0 ? `${file}:${line}` : file);
export const andMore = count => `and ${number(count)} more`;
export const allLoops = count => `Show all ${number(count)} loops`;
export const loopsMore = count => `and ${counted(count, 'more loop', 'more loops')}: the saved JSON has them all`;
export const loopName = ({ number: of, legs, length }) => `Loop ${of}: ${counted(legs, 'leg', 'legs')}, ${length} m`;
export const loopSaid = ({ misses, east, north, p, state }) => `It misses by ${misses} m: ${east} m east, ${north} m north. p ${p.startsWith('<') ? `< ${p.slice(1)}` : `= ${p}`}: ${state}.`;
export const sortedBy = word => `Sort by: ${word}`;
export const suspectButton = rank => `Suspect ${rank}`;

// Texts for who does not see the pictures.
export const planText = (legs, loops, bad, suspects) => `Plan of the cave: ${counted(legs, 'leg', 'legs')}, ${counted(loops, 'loop', 'loops')}, `
  + `${bad === 0 ? 'none of them bad' : `${number(bad)} of them bad`}; `
  + (suspects.length === 0 ? 'no leg is marked.' : `marked red: ${suspects.slice(0, 5).map(({ from, to }) => pairName(from, to)).join(', ')}.`);
export const cloudText = (of, plays, misses, far) =>
  `Loop ${of}: the misses of ${number(plays)} plays as points, with ellipses of 50, 95 and 99.9 %; the survey’s own miss of ${misses} m is ${far}.`;
export const outside = 'outside all of them';
export const within = share => `within that of ${share} %`;
export const histogramText = (of, plays, middle, most, misses) =>
  `Loop ${of}: how far ${number(plays)} plays miss: half by less than ${middle} m, 95 % by less than ${most} m; the survey misses by ${misses} m.`;
export const DRAWN = { distance: 'miss of a play, m', share: 'percent of the plays', east: 'east, m', north: 'north, m', miss: 'the survey', half: '50 %', most: '95 %', all: '99.9 %' };
