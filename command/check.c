/* jabulghi check: is this cave sound? */
#include "check.h"
#include <errno.h>
#include <stdlib.h>
#include <string.h>

/* Plays that a thread takes at a time. */
#define STRETCH 16

static int play_cave(checked *c) {
    labour work = {play_some_of_check, c, c->plays, STRETCH, c->threads};
    int status = room_for_plays(c);
    return status == DONE ? refuse_play(by_threads(&work, "plays")) : status;
}

static int write_all(const option asked[CHECK_ASKED], const checked *c, const struct judge_verdict *v) {
    growing written = {NULL, 0, 0, false};
    struct judge_told told = {c->name, c->seeds, asked[CHECK_LOOPS].value != NULL, c->played};
    int status = DONE;
    if (asked[CHECK_SVG].value != NULL) {
        judge_plan(c->cave, v, &written);
        status = put_grown(asked[CHECK_SVG].value, &written);
    }
    if (status != DONE) return status;
    if (asked[CHECK_JSON].value != NULL) judge_json(c->cave, v, &told, &written);
    else judge_words(c->cave, v, &told, &written);
    status = put_grown(NULL, &written);
    return status == DONE && !v->sound ? UNSOUND : status;
}

static int judge(int count, char **words, const option asked[CHECK_ASKED], checked *c) {
    struct judge_verdict verdict;
    int status = DONE;
    if (asked[CHECK_MERGE].value != NULL)
        status =
            merge_plays(count - 1, words + 1, &(struct merged){c->cave, &c->played, &c->first, &c->plays, c->seeds});
    else if (c->cave->loop_count > 0) status = play_cave(c);
    if (status != DONE) return status;
    if (!judge_verdict_of(c->cave, c->first, c->played, (size_t)c->plays, &verdict))
        return trouble(c->name, strerror(ENOMEM));
    return write_all(asked, c, &verdict);
}

/* Everything but an unsound cave that keeps the command from its answer is trouble. */
static int run(int count, char **words, const option asked[CHECK_ASKED]) {
    static checked c;
    text source;
    bool merging = asked[CHECK_MERGE].value != NULL;
    int status = numbers_of_check(asked, &c);
    if (status == DONE && merging && count < 2) status = wrong(LACKS_FILE, asked[CHECK_MERGE].name);
    if (status == DONE) status = read_named(merging ? 1 : count, words, &source);
    if (status == DONE) status = prepare_check(asked, source, &c);
    if (status != DONE) return TROUBLE;
    status = judge(count, words, asked, &c);
    return status == REFUSED ? TROUBLE : status;
}

int check(int count, char **words) {
    option asked[CHECK_ASKED];
    int status = options_of_check(&count, words, asked);
    if (status != DONE) return status;
    write_to(&asked[CHECK_INTO]);
    return run(count, words, asked);
}
