/* Draws scripts, plays each by the program and by the model, and compares reports and statuses.

   usage: scripts FOLDER [COUNT [SEED]] [--jobs N] [--from K] [--try]; see tests/scripts/run. */
#include <errno.h>
#include <fcntl.h>
#include <signal.h>
#include <stdio.h>
#include <stdlib.h>
#include <string.h>
#include <sys/mman.h>
#include <sys/stat.h>
#include <sys/wait.h>
#include <time.h>
#include <unistd.h>

#include "scripts.h"

/* The longest that the program may take for a script, in seconds; how many wrong scripts end a job; and after how
   many scripts a job says how far it is. */
enum { LONGEST = 60, MOST_WRONG = 5, PACE = 10000 };

static const char *program, *folder;
static char script_path[256], config_path[256], output_path[256];

/* A script, how it is to be played, and what is to come of it. */
typedef struct {
    int is_bare, is_made, is_faulty, ring, frames, rovers;
    uint64_t made_seed;
    World world;
    Script script;
    Text text, config, wanted;
    int status;
} Case;

static Case one;
static Text got;
static Sums *sums;

static void write_file(const char *path, const Text *text)
{
    int file = open(path, O_WRONLY | O_CREAT | O_TRUNC, 0600);
    if (file < 0 || write(file, text->at, text->size) != (ssize_t)text->size)
        exit((perror(path), 2));
    close(file);
}

static void read_file(const char *path, Text *text)
{
    struct stat about;
    int file = open(path, O_RDONLY);
    if (file < 0 || fstat(file, &about))
        exit((perror(path), 2));
    text->size = 0;
    while ((off_t)text->size < about.st_size) {
        char some[65536];
        ssize_t size = read(file, some, sizeof some);
        if (size <= 0)
            break;
        put(text, some, size);
    }
    close(file);
}

/* Runs the program with these words, and gives its status; a signal is 128 and its number. */
static int run_program(const char *const words[], const char *input)
{
    int status;
    pid_t child = vfork();
    if (child < 0)
        exit((perror("vfork"), 2));
    if (!child) {
        int in = open(input, O_RDONLY), out = open(output_path, O_WRONLY | O_CREAT | O_TRUNC, 0600);
        dup2(in, 0);
        dup2(out, 1);
        dup2(out, 2);
        alarm(LONGEST);
        execv(program, (char *const *)words);
        _exit(127);
    }
    while (waitpid(child, &status, 0) < 0)
        if (errno != EINTR)
            exit((perror("waitpid"), 2));
    read_file(output_path, &got);
    return WIFEXITED(status) ? WEXITSTATUS(status) : 128 + WTERMSIG(status);
}

static int play_case(void)
{
    char ring[16];
    snprintf(ring, sizeof ring, "%d", one.ring);
    const char *bare[] = {program, "bare", ring, NULL};
    const char *replay[] = {program, "replay", config_path, script_path, NULL};
    write_file(script_path, &one.text);
    if (!one.is_bare)
        write_file(config_path, &one.config);
    return run_program(one.is_bare ? bare : replay, one.is_bare ? script_path : "/dev/null");
}

/* ---- what is drawn */

static void draw_case(uint64_t seed, uint64_t number)
{
    Dice dice = {seed * 0x9E3779B97F4A7C15u ^ number * 0xD1342543DE82EF95u};
    Text said = {0};
    draw(&dice);
    unsigned kind = below(&dice, 100);
    one.is_bare = kind < 45;
    one.is_made = kind < 15;
    one.is_faulty = !one.is_made && chance(&dice, 4);
    one.ring = one.is_made ? 64 : chance(&dice, 90) ? 1 + (int)below(&dice, 6) : 1 + (int)below(&dice, 4096);
    if (one.is_bare)
        bare_world(&one.world, one.ring);
    else
        draw_world(&dice, &one.world);
    if (one.is_made) {
        one.made_seed = draw(&dice);
        one.frames = chance(&dice, 80) ? 1 + below(&dice, 20) : 60 + below(&dice, 80);
        one.rovers = 1 + below(&dice, 5);
        made_script(one.made_seed, one.frames, one.rovers, &one.script);
    } else {
        draw_script(&dice, &one.world, one.is_bare, &one.script);
    }
    world_text(&one.world, &one.config);
    script_text(&dice, &one.script, &one.world, one.is_bare, one.is_faulty, &one.text, &said);
    one.status = one.is_faulty ? 3 : 0;
    model_report(&one.world, &one.script, one.is_bare, &one.wanted, sums);
    if (one.is_faulty) {
        one.wanted.size = 0;
        put(&one.wanted, said.at, said.size);
    }
    free(said.at);
}

/* ---- what came of it */

static int is_as_wanted(int status, const Text *text)
{
    return status == one.status && text->size == one.wanted.size && !memcmp(text->at, one.wanted.at, text->size);
}

/* What `make` is to write of a session that it makes. */
static int made_as_wanted(void)
{
    char seed[32], frames[16], rovers[16], wanted[256];
    snprintf(seed, sizeof seed, "%llu", (unsigned long long)one.made_seed);
    snprintf(frames, sizeof frames, "%d", one.frames);
    snprintf(rovers, sizeof rovers, "%d", one.rovers);
    const char *words[] = {program, "make", seed, frames, rovers, NULL};
    int status = run_program(words, "/dev/null");
    put_byte(&one.wanted, 0);
    char *last = strstr((char *)one.wanted.at, "\nmount A ");
    one.wanted.size--;
    int size = snprintf(wanted, sizeof wanted, "laps %ld\n%s", model_laps(), last ? last + 1 : "");
    return status == 0 && got.size == (size_t)size && !memcmp(got.at, wanted, size);
}

/* Keeps what came out otherwise, and says where the first difference is. */
static void keep_wrong(uint64_t seed, uint64_t number, int status, const char *what)
{
    char place[300], path[400];
    size_t at = 0;
    snprintf(place, sizeof place, "/tmp/scripts-%llu-%llu", (unsigned long long)seed, (unsigned long long)number);
    mkdir(place, 0700);
    const Text *texts[] = {&one.text, &one.config, &one.wanted, &got};
    static const char *names[] = {"session", "config.toml", "wanted", "got"};
    for (int k = 0; k < 4; k++) {
        snprintf(path, sizeof path, "%s/%s", place, names[k]);
        write_file(path, texts[k]);
    }
    while (at < got.size && at < one.wanted.size && got.at[at] == one.wanted.at[at])
        at++;
    printf("FAILED script %llu of seed %llu, by %s: status %d, wanted %d; the texts differ at byte %zu; see %s\n",
           (unsigned long long)number, (unsigned long long)seed, what, status, one.status, at, place);
    fflush(stdout);
}

/* Whether the script of this number came out as it should. */
static int try_case(uint64_t seed, uint64_t number, int is_told)
{
    draw_case(seed, number);
    int status = play_case(), good = is_as_wanted(status, &got);
    if (!good && is_told)
        keep_wrong(seed, number, status, one.is_bare ? "bare" : "replay");
    if (good && one.is_made && number % 4 == 0 && !made_as_wanted()) {
        good = 0;
        if (is_told)
            keep_wrong(seed, number, 0, "make");
    }
    return good;
}

/* ---- jobs */

typedef struct { long done, wrong; Sums sums; } Job;

static void work(Job *job, int number, int jobs, uint64_t seed, long from, long count)
{
    time_t begun = time(NULL);
    sums = &job->sums;
    snprintf(script_path, sizeof script_path, "%s/%d.session", folder, number);
    snprintf(config_path, sizeof config_path, "%s/%d.toml", folder, number);
    snprintf(output_path, sizeof output_path, "%s/%d.report", folder, number);
    for (long at = from + number; at < from + count && job->wrong < MOST_WRONG; at += jobs) {
        job->wrong += !try_case(seed, at, 1);
        if (++job->done % PACE == 0) {
            printf("job %d: %ld scripts, %ld wrong, %ld s\n", number, job->done, job->wrong,
                   (long)(time(NULL) - begun));
            fflush(stdout);
        }
    }
}

static void add_sums(Sums *all, const Sums *some)
{
    long *to = (long *)all;
    const long *from = (const long *)some;
    for (size_t at = 0; at < offsetof(Sums, ending) / sizeof(long); at++)
        to[at] += from[at];
    for (int at = 0; at < 40 && some->ending[at].word[0]; at++)
        for (int k = 0; k < 40; k++)
            if (!all->ending[k].word[0] || !strcmp(all->ending[k].word, some->ending[at].word)) {
                strcpy(all->ending[k].word, some->ending[at].word);
                all->ending[k].count += some->ending[at].count;
                break;
            }
}

static int tell(const Job *job, int jobs, uint64_t seed, long seconds)
{
    Sums all = {0};
    long done = 0, wrong = 0;
    for (int at = 0; at < jobs; at++) {
        add_sums(&all, &job[at].sums);
        done += job[at].done;
        wrong += job[at].wrong;
    }
    printf("%ld events, %ld frames published, %ld sessions, %ld segments, %ld laps, %ld changes of a base, "
           "%ld bytes sent\nendings:", all.events, all.frames, all.sessions, all.segments, all.laps, all.moves,
           all.bytes);
    for (int at = 0; at < 40 && all.ending[at].word[0]; at++)
        printf(" %ld %s%s", all.ending[at].count, all.ending[at].word,
               at < 39 && all.ending[at + 1].word[0] ? "," : "\n");
    printf("seed %llu: %ld scripts, of which %ld came out otherwise; %ld s\n", (unsigned long long)seed, done, wrong,
           seconds);
    return !done || wrong;
}

static int run_jobs(int jobs, uint64_t seed, long from, long count)
{
    time_t begun = time(NULL);
    int failed = 0;
    Job *job = mmap(NULL, jobs * sizeof *job, PROT_READ | PROT_WRITE, MAP_SHARED | MAP_ANONYMOUS, -1, 0);
    if (job == MAP_FAILED)
        exit((perror("mmap"), 2));
    fflush(stdout);
    for (int at = 0; at < jobs; at++)
        if (!fork()) {
            work(&job[at], at, jobs, seed, from, count);
            exit(0);
        }
    for (int at = 0; at < jobs; at++) {
        int status = 0;
        if (wait(&status) < 0 || status)
            failed = 1;
    }
    return tell(job, jobs, seed, time(NULL) - begun) || failed;
}

/* ---- the comparison is tried */

enum { RULES_MADE_WRONG = 26, ENOUGH = 20000 };

/* With each rule of the model made wrong, one of the first scripts comes out otherwise. */
static int try_rules(uint64_t seed)
{
    int missed = 0, last = 0;
    long most = 0;
    for (wrong_rule = 1; wrong_rule <= RULES_MADE_WRONG; wrong_rule++) {
        long at = 0;
        while (at < ENOUGH && try_case(seed, at, 0))
            at++;
        if (at == ENOUGH) {
            printf("FAILED rule %d of the model is wrong, and no script shows it\n", wrong_rule);
            missed++;
        }
        if (at > most) {
            most = at;
            last = wrong_rule;
        }
    }
    wrong_rule = 0;
    printf("%d rules of the model made wrong: each is shown but %d, the last one, %d, by script %ld\n",
           RULES_MADE_WRONG, missed, last, most);
    return missed;
}

/* One thing of a text is changed: which, the dice say. */
static void change(Dice *dice, Text *text)
{
    size_t at = below(dice, text->size), line = at, behind = at;
    while (line > 0 && text->at[line - 1] != '\n')
        line--;
    while (behind < text->size && text->at[behind] != '\n')
        behind++;
    static Text copy;
    copy.size = 0;
    put(&copy, text->at + line, behind < text->size ? behind + 1 - line : behind - line);
    switch (below(dice, 4)) {
    case 0:
        text->at[at] = text->at[at] == '1' ? '2' : '1';
        break;
    case 1:
        memmove(text->at + at, text->at + at + 1, text->size - at - 1);
        text->size--;
        break;
    case 2:
        memmove(text->at + line, text->at + line + copy.size, text->size - line - copy.size);
        text->size -= copy.size;
        break;
    default:
        put(text, copy.at, copy.size);
        memmove(text->at + line + copy.size, text->at + line, text->size - copy.size - line);
        memcpy(text->at + line, copy.at, copy.size);
    }
}

/* Reports in which a byte or a line is changed, taken away or doubled are refused. */
static int try_reports(uint64_t seed)
{
    Dice dice = {seed};
    long refused = 0, taken = 0;
    for (long at = 0; at < 1000; at++) {
        if (!try_case(seed, at, 1) || one.is_made)
            continue;
        Text report = {0};
        put(&report, one.wanted.at, one.wanted.size);
        change(&dice, &report);
        if (is_as_wanted(0, &report))
            taken++;
        else
            refused++;
        free(report.at);
    }
    printf("%ld reports with one thing changed: %ld are refused, %ld are taken\n", refused + taken, refused, taken);
    return taken || !refused;
}

static int try_all(uint64_t seed)
{
    Job *job = calloc(1, sizeof *job);
    work(job, 0, 1, seed, 0, 0);
    if (checksum((const unsigned char *)"123456789", 9) != 0xCDE703)
        exit((puts("the checksum of this test is wrong"), 2));
    int faults = try_reports(seed);
    faults += try_rules(seed);
    return faults != 0;
}

int main(int count, char **words)
{
    long numbers[2] = {2000, 1}, jobs = 1, from = 0;
    int given = 0, is_trial = 0;
    program = getenv("CASTER");
    folder = words[1];
    for (int at = 2; at < count; at++) {
        long *number = !strcmp(words[at], "--jobs") ? &jobs : !strcmp(words[at], "--from") ? &from : NULL;
        if (!strcmp(words[at], "--try"))
            is_trial = 1;
        else if (number && at + 1 < count)
            *number = atol(words[++at]);
        else if (given < 2 && words[at][0] >= '0' && words[at][0] <= '9')
            numbers[given++] = atol(words[at]);
        else
            exit((fputs("usage: tests/scripts/run [COUNT [SEED]] [--jobs N] [--from K] [--try]\n", stderr), 1));
    }
    if (!program || jobs < 1 || jobs > 64)
        exit(1);
    if (is_trial)
        return try_all(given ? numbers[0] : 1);
    return run_jobs(jobs, numbers[1], from, numbers[0]);
}
