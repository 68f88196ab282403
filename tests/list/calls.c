/* calls JOB SKIP [STATION]: plays a job's shots by the calls of the library, from SKIP pairs on, and prints listings of
 * at most 500 rows. Where a station is named, its record is saved as a mark where it is first left, all shots are
 * drawn, and the rows are those after a return to the mark. Rows are worked out from pairs, as document 01 has it;
 * jabulghi_list with the record's registers as seeds has to give the same. */
#include <inttypes.h>
#include <jabulghi.h>
#include <stdio.h>
#include <stdlib.h>
#include <string.h>

enum { MOST_SHOTS = 500, MOST = 20000 };
static struct {
    char from[13], to[13];
    uint32_t distance, bearing;
} shots[MOST];
static size_t count;
static uint32_t seeds[6], sigma[2];

static void fail(const char *what) {
    printf("FAILED: %s\n", what);
    exit(1);
}

static void read_job(const char *name) {
    char line[200];
    uint32_t *n = seeds;
    FILE *job = fopen(name, "r");
    if (job == NULL || fgets(line, sizeof line, job) == NULL) fail(name);
    sscanf(line, "(seeds (a %" SCNu32 " %" SCNu32 " %" SCNu32 ") (b %" SCNu32 " %" SCNu32 " %" SCNu32 "))", n, n + 1,
           n + 2, n + 3, n + 4, n + 5);
    if (fgets(line, sizeof line, job) == NULL || sscanf(line, "(sigma %" SCNu32 " %" SCNu32 ")", sigma, sigma + 1) != 2)
        fail(name);
    while (count < MOST && fgets(line, sizeof line, job) != NULL) {
        if (sscanf(line, "(shot %12s %12s %" SCNu32 " %" SCNu32 ")", shots[count].from, shots[count].to,
                   &shots[count].distance, &shots[count].bearing) == 4)
            count++;
    }
    fclose(job);
}

/* "sigma × |sample| / 2048, rounded to nearest, halves away from zero, with the sample's sign" */
static int64_t noise(uint32_t by, int16_t sample) {
    int64_t size = ((int64_t)by * abs(sample) * 2 + 2048) / 4096;
    return sample < 0 ? -size : size;
}

static size_t put_row(char *to, jabulghi_record *record, size_t shot) {
    int16_t pair[2];
    if (jabulghi_pair(record, pair) != JABULGHI_OK) fail("a pair");
    int64_t distance = (int64_t)shots[shot].distance + noise(sigma[0], pair[0]),
            bearing = (int64_t)shots[shot].bearing + noise(sigma[1], pair[1]);
    return (size_t)sprintf(to, "%s %s %" PRId64 " %" PRId64 "\n", shots[shot].from, shots[shot].to,
                           distance < 0 ? 0 : distance, (bearing % 65536 + 65536) % 65536);
}

/* The listing of some shots by jabulghi_list. */
static void beside_list(const jabulghi_record *record, size_t first, size_t rows, const char *expected) {
    static char job[60001];
    static uint8_t listing[JABULGHI_LISTING_ROOM];
    uint32_t line;
    size_t listed, length = (size_t)sprintf(job,
                                            "(seeds (a %" PRIu32 " %" PRIu32 " %" PRIu32 ") (b %" PRIu32 " %" PRIu32
                                            " %" PRIu32 "))\n(sigma %" PRIu32 " %" PRIu32 ")\n",
                                            record->a[0], record->a[1], record->a[2], record->b[0], record->b[1],
                                            record->b[2], sigma[0], sigma[1]);
    for (size_t j = first; j < first + rows; j++)
        length += (size_t)sprintf(job + length, "(shot %s %s %" PRIu32 " %" PRIu32 ")\n", shots[j].from, shots[j].to,
                                  shots[j].distance, shots[j].bearing);
    if (jabulghi_list((const uint8_t *)job, length, listing, sizeof listing, &line, &listed) != JABULGHI_OK)
        fail("jabulghi_list");
    if (listed != strlen(expected) || memcmp(listing, expected, listed) != 0)
        fail("rows worked out from pairs are not those of jabulghi_list");
}

static void put_listing(jabulghi_record *record, size_t first) {
    static char rows[JABULGHI_LISTING_ROOM + 1];
    size_t left = count - first < MOST_SHOTS ? count - first : MOST_SHOTS,
           length = (size_t)sprintf(rows, "FROM TO MM STEP\n");
    jabulghi_record start = *record;
    for (size_t j = 0; j < left; j++) length += put_row(rows + length, record, first + j);
    sprintf(rows + length, "END %zu\n", left);
    beside_list(&start, first, left, rows);
    fputs(rows, stdout);
}

/* Draws all shots, a mark being saved where the station is first left, and returns to it; the shot that leaves it. */
static size_t return_to(jabulghi_record *record, const char *station) {
    static jabulghi_marks marks;
    char row[64];
    size_t first = count, length = strlen(station);
    for (size_t j = 0; j < count; j++) {
        if (first == count && strcmp(shots[j].from, station) == 0) {
            first = j;
            if (jabulghi_marks_save(&marks, record, station, length) != JABULGHI_OK) fail("a mark is not saved");
        }
        put_row(row, record, j);
    }
    if (jabulghi_marks_return(&marks, record, station, length) != JABULGHI_OK) fail("no return to a mark");
    return first;
}

int main(int argc, char **argv) {
    jabulghi_record record;
    const uint32_t *n = seeds;
    if (argc < 3) return 2;
    read_job(argv[1]);
    if (jabulghi_seed(n[0], n[1], n[2], n[3], n[4], n[5], &record) != JABULGHI_OK) fail("seeds");
    if (jabulghi_skip(&record, strtoull(argv[2], NULL, 10)) != JABULGHI_OK) fail("a skip");
    size_t first = argc > 3 ? return_to(&record, argv[3]) : 0;
    do {
        put_listing(&record, first);
        first += MOST_SHOTS;
    } while (first < count);
    return 0;
}
