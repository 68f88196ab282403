/* The commands of Survex. */
#include "reader.h"

static void skip(reader *r) { r->at.word = r->at.line_end; }

static void take_solve(reader *r) {
    remark(r, SOLVES, NO_WORD);
    ends_here(r);
}

/* What changes no leg is skipped. */
static const struct {
    const char *word;
    void (*take)(reader *r);
} COMMANDS[] = {
    {"alias", take_alias},       {"begin", take_begin},     {"calibrate", take_calibrate},
    {"case", take_case},         {"copyright", skip},       {"cs", take_cs},
    {"data", take_data},         {"date", take_date},       {"declination", take_declination},
    {"default", take_default},   {"end", take_end},         {"entrance", take_entrance},
    {"equate", take_equate},     {"export", skip},          {"fix", take_fix},
    {"flags", take_flags},       {"include", take_include}, {"infer", take_infer},
    {"instrument", skip},        {"prefix", take_prefix},   {"ref", skip},
    {"require", skip},           {"sd", take_sd},           {"set", take_set},
    {"solve", take_solve},       {"team", take_team},       {"title", skip},
    {"truncate", take_truncate}, {"units", take_units},
};

void take_command(reader *r) {
    part word;
    end_traverse(r);
    if (!next_word(r, &word)) {
        complain(r, NO_COMMAND_WORD, NO_WORD);
        return;
    }
    for (size_t j = 0; j < sizeof COMMANDS / sizeof COMMANDS[0]; j++) {
        if (!is_word(word, COMMANDS[j].word)) continue;
        r->commands++;
        {
            COMMANDS[j].take(r);
            return;
        }
    }
    complain(r, OTHER_COMMAND, word);
}
