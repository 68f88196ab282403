/* What the commands do, in their own words. */
#include "command.h"
#include <string.h>

static const char OVERVIEW[] =
    "usage: jabulghi list [FILE]     a job or a survey played back: each shot with its noise, or by --svx the cave\n"
    "       jabulghi legs [FILE]     the shot lines of a Survex survey's level legs\n"
    "       jabulghi level [FILE]    an ordinary Survex survey as the strict text that legs takes; not proved\n"
    "       jabulghi misses [FILE]   how far the loop of a listing misses, in millimetres\n"
    "       jabulghi job [FILE] --sigma SIGMAS         a job from a survey\n"
    "       jabulghi check [FILE]    is this cave sound? All its loops at once, and the legs to look at first\n"
    "       jabulghi tolerance [FILE] --sigma SIGMAS   is this miss a blunder? One loop, played many times\n"
    "       jabulghi noise -n N      samples of noise\n"
    "       jabulghi seeds           a job's line of seeds, from the system's randomness\n"
    "       jabulghi help [COMMAND]  this, or the options of a command (also --help, -h)\n"
    "       jabulghi --version       (also -V)\n"
    "\n"
    "Without FILE, or where it is -, standard input is read. -o FILE writes to a file, whole or not at all.\n"
    "A word after -- is a FILE, whatever it looks like.\n"
    "\n"
    "Exit status: 0 done; 1 refused, with the reason on standard error; 2 wrong usage, or a read or write failed.\n"
    "check: 0 sound, or no loop; 1 not sound; 2 wrong usage, or the survey cannot be read.\n";

static const struct {
    const char *command, *text;
} HELP[] = {
    {"list",
     "usage: jabulghi list [FILE] [--sigma SIGMAS] [--seeds SEEDS] [--skip N] [--run N] [--from STATION] [--loop N] "
     "[-o "
     "FILE]\n"
     "       jabulghi list [FILE] --svx [--sigma SIGMAS] [--seeds SEEDS] [--skip N] [--run N] [-o FILE]\n"
     "\n"
     "Prints the listing of a job, of all legs of a Survex survey or of the rows of another listing: each shot with "
     "its "
     "noise, and the count of shots.\n"
     "More than 500 legs are several jobs, whose listings follow each other. Reading an ordinary survey is not "
     "proved.\n"
     "  --sigma SIGMAS  of distance and bearing: 4mm,0.5deg or 4,91 (millimetres, steps of which a turn has 65536);\n"
     "                  for a job its own, where not given\n"
     "  --seeds SEEDS   a line of seeds, as `jabulghi seeds` prints it, or six numbers with commas between;\n"
     "                  for a job its own, where not given; else some are drawn, and standard error says which\n"
     "  --skip N        leave out the first N pairs of the stream\n"
     "  --run N         the N-th playing, from 0 on: it begins N times the shots on in the stream\n"
     "  --from STATION  the rows from where this station is first left, as they are in the whole listing\n"
     "  --loop N        this loop of an ordinary survey alone, as job takes it\n"
     "  --svx           the played cave as Survex: of an ordinary survey its own text, included files in their places, "
     "with other readings\n"},
    {"legs", "usage: jabulghi legs [FILE] [-o FILE]\n\nPrints the shot lines of a Survex survey's level legs.\n"},
    {"level", "usage: jabulghi level [FILE] [--loop N] [-o FILE]\n"
              "\n"
              "Writes the legs of an ordinary Survex survey's loop as the strict text that legs takes, whole or not at "
              "all. It is not proved.\n"
              "It reads what cavern reads, included files among it. Standard error says what was done, and the new "
              "names of stations; or, of a survey\n"
              "that is refused, its troubles with file and line, the first 20 of them.\n"
              "  --loop N  the loop that is written, where the survey has several; not given, they are listed\n"},
    {"misses", "usage: jabulghi misses [FILE] [-o FILE]\n\nPrints how far the loop of a listing misses, east and north "
               "in whole millimetres.\n"},
    {"job",
     "usage: jabulghi job [FILE] --sigma SIGMAS [--seeds SEEDS] [--skip N] [--run N] [--loop N] [-o FILE]\n"
     "\n"
     "Prints a job with the legs of a Survex survey, the rows of a listing or the shots of another job, whole or not "
     "at all. A survey that legs\n"
     "does not take is read as by level.\n"
     "  --sigma SIGMAS  of distance and bearing: 4mm,0.5deg or 4,91 (millimetres, steps of which a turn has 65536);\n"
     "                  for a job its own, where not given\n"
     "  --seeds SEEDS   a line of seeds, as `jabulghi seeds` prints it, or six numbers with commas between;\n"
     "                  for a job its own, where not given; else some are drawn\n"
     "  --skip N        seeds that are N pairs on in the stream\n"
     "  --run N         seeds for the N-th playing, from 0 on: N times the shots on\n"
     "  --loop N        the loop that is taken, where an ordinary survey has several\n"},
    {"tolerance",
     "usage: jabulghi tolerance [FILE] --sigma SIGMAS [--seeds SEEDS] [--loop N] [--runs N] [--first N] [--miss E,N] "
     "[--jobs N] [--csv|--json]\n"
     "                          [--svg FILE] [-o FILE]\n"
     "       jabulghi tolerance [FILE] --sigma SIGMAS --seeds SEEDS --run N [-o FILE]\n"
     "       jabulghi tolerance --merge FILE.. [--json] [--svg FILE] [-o FILE]\n"
     "\n"
     "Plays the loop of a Survex survey, a job or a listing many times with noise, and says how far the runs miss and "
     "in how many of them a\n"
     "sound survey misses by as much as this one. The same seeds give the same runs, by any number of threads.\n"
     "  --sigma SIGMAS  of distance and bearing: 4mm,0.5deg or 4,91 (millimetres, steps); or by name, "
     "tape=4mm,compass=0.5deg, and besides\n"
     "                  clino=0.5deg and station=50mm, each coordinate of either end of a leg; for a job its own, "
     "where not given\n"
     "  --seeds SEEDS   as `jabulghi seeds` prints them, or six numbers with commas between; for a job its own, where "
     "not given;\n"
     "                  else some are drawn, and printed\n"
     "  --loop N        the loop that is played, where an ordinary survey has several; not given, they are listed\n"
     "  --runs N        how many, 1 to 10000000; 10000, where not given\n"
     "  --first N       the number of the first run; 0, where not given\n"
     "  --miss E,N      judge this miss, east and north in millimetres, and not the survey's own\n"
     "  --jobs N        how many threads; as many as there are processors, where not given\n"
     "  --csv           a row for each run: run,east,north\n"
     "  --json          the figures for a program, and what --merge needs\n"
     "  --svg FILE      a picture besides\n"
     "  --run N         print the job of run N, for `jabulghi list`\n"
     "  --merge FILE..  add up parts that --json wrote of one job, whose runs follow each other\n"},
    {"check", "usage: jabulghi check [FILE] [--sigma SIGMAS] [--trip ANGLE] [--plays N] [--seeds SEEDS] [--first N] "
              "[--jobs N] [--loops|--json] [--svg FILE] [-o FILE]\n"
              "       jabulghi check FILE --merge PART.. [--sigma SIGMAS] [--trip ANGLE] [--loops|--json] [--svg FILE] "
              "[-o FILE]\n"
              "\n"
              "Judges all loops of a Survex survey, a job or a listing together, in plan: in how many sound caves like "
              "this the worst leg looks as bad.\n"
              "Below 5 % it names the legs to look at first, and what would explain each. Not proved but for its "
              "noise. docs/check.md has the formulas.\n"
              "Exit status: 0 sound, or no loop; 1 not sound; 2 wrong usage, or the survey cannot be read.\n"
              "  --sigma SIGMAS  standard deviations, one or several: "
              "tape=10mm,compass=1deg,clino=1deg,station=50mm,fix=1m; or tape and compass: 4mm,0.5deg;\n"
              "                  station: each coordinate of either end of a leg; fix: a fixed point without its own.\n"
              "                  Not given, those of *sd, of the job, or Survex's defaults\n"
              "  --trip ANGLE    besides, each trip's compass is off by one angle, of this standard deviation: 0.5deg\n"
              "  --plays N       sound caves that are played, 100 to 10000000; 1000, where not given\n"
              "  --seeds SEEDS   as `jabulghi seeds` prints them, or six numbers with commas between; for a job its "
              "own, where not given;\n"
              "                  else some are drawn, and printed\n"
              "  --first N       the number of the first play; 0, where not given\n"
              "  --jobs N        how many threads; as many as there are processors, where not given\n"
              "  --loops         list all loops\n"
              "  --json          the verdict for a program, and what --merge needs\n"
              "  --svg FILE      a plan besides, the legs to look at in red\n"
              "  --merge PART..  take the plays of parts that --json wrote of this cave, which follow each other\n"},
    {"noise",
     "usage: jabulghi noise -n N [--seeds SEEDS] [--skip M] [--bits 16|18] [--sigma SIGMA] [--text|--raw] [-o FILE]\n"
     "\n"
     "Writes N samples (an even number), first and second of each pair alternating.\n"
     "  --seeds SEEDS  a line of seeds, as `jabulghi seeds` prints it, or six numbers with commas between;\n"
     "                 not given, some are drawn, and standard error says which\n"
     "  --skip M       leave out the first M pairs\n"
     "  --bits 16|18   samples in units of 1/2048 (16, as if not given) or of 1/8192 of a standard deviation (18)\n"
     "  --sigma SIGMA  times a standard deviation: 4mm, 0.5deg or 91steps; printed in that unit, not with --raw\n"
     "  --text         a sample a line, in decimal (as if not given)\n"
     "  --raw          16 bits a sample, or 32 for --bits 18, signed, the lowest byte first\n"},
    {"seeds", "usage: jabulghi seeds [-o FILE]\n\nPrints a job's line of seeds, drawn from the system's randomness.\n"},
};

int help_on(const char *command) {
    for (size_t j = 0; command != NULL && j < sizeof HELP / sizeof HELP[0]; j++) {
        if (strcmp(HELP[j].command, command) == 0) return put(HELP[j].text, strlen(HELP[j].text));
    }
    return put(OVERVIEW, strlen(OVERVIEW));
}
