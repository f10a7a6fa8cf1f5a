/*
 * The soak: sixteen host processes edit one script at once, over loopback sockets on which datagrams are lost,
 * repeated and reordered, while some hosts are stopped and continued. Then editing ends, and the hosts bring
 * each other up to date over the same bad network. It shows that in the end all of them hold the same counts
 * and, byte for byte, the same table, and that no call gave an answer that honest play can never give.
 *
 * soak SECONDS SEED PATIENCE: how long to edit, where the generators start, and how many seconds the hosts
 * may then take to come to hold the same.
 */
#define _DEFAULT_SOURCE
#include <arpa/inet.h>
#include <fcntl.h>
#include <inttypes.h>
#include <poll.h>
#include <signal.h>
#include <stdio.h>
#include <stdlib.h>
#include <string.h>
#include <sys/mman.h>
#include <sys/prctl.h>
#include <sys/socket.h>
#include <sys/wait.h>
#include <unistd.h>

#include "exercise.h"

enum { LONGEST = 3600, STOP_EVERY = 250, STOP_LEAST = 200, STOP_RANGE = 800, ENDING_MS = 30000, LOOK_MS = 10 };

struct parent {
    pid_t pids[HOSTS]; /* 0 where no process runs */
    int sockets[HOSTS];
    struct sockaddr_in addresses[HOSTS];
    int reports[2];
    struct exercise *exercise;
    struct report latest[HOSTS];
    uint64_t stopped_until[HOSTS]; /* 0 where the host goes on */
    uint64_t next_stop;
    uint32_t seed, dice;
    uint64_t stops;
};

/* Every way out that is not the end of the exercise: no process is left behind. */
static void fail(struct parent *p, const char *what)
{
    fflush(stdout);
    fprintf(stderr, "soak: %s\n", what);
    for (int i = 0; i < HOSTS; i++) {
        if (p->pids[i] == 0)
            continue;
        kill(p->pids[i], SIGKILL);
        waitpid(p->pids[i], NULL, 0);
    }
    puts("failed");
    exit(EXIT_FAILURE);
}

/* A socket for each host, on a port that the kernel picks. */
static void open_sockets(struct parent *p)
{
    for (int i = 0; i < HOSTS; i++) {
        struct sockaddr_in *address = &p->addresses[i];
        socklen_t len = sizeof *address;
        address->sin_family = AF_INET;
        address->sin_addr.s_addr = htonl(INADDR_LOOPBACK);
        p->sockets[i] = socket(AF_INET, SOCK_DGRAM, 0);
        if (p->sockets[i] < 0 || bind(p->sockets[i], (struct sockaddr *)address, len) != 0 ||
            getsockname(p->sockets[i], (struct sockaddr *)address, &len) != 0)
            fail(p, "no socket on the loopback");
    }
}

static void prepare(struct parent *p)
{
    p->exercise = mmap(NULL, sizeof *p->exercise, PROT_READ | PROT_WRITE, MAP_SHARED | MAP_ANONYMOUS, -1, 0);
    if (p->exercise == MAP_FAILED)
        fail(p, "no memory to share");
    if (pipe(p->reports) != 0)
        fail(p, "no pipe");
    for (int end = 0; end < 2; end++)
        if (fcntl(p->reports[end], F_SETFL, O_NONBLOCK) != 0)
            fail(p, "a pipe that blocks");
    open_sockets(p);
}

/* In the child. It ends with its parent, however that ends, even while it is stopped. */
static void be_host(const struct parent *p, int at, pid_t parent)
{
    struct orders orders = {.site = (uint32_t)at + 1,
                            .seed = p->seed,
                            .socket = p->sockets[at],
                            .reports = p->reports[1],
                            .addresses = p->addresses,
                            .exercise = p->exercise};
    if (prctl(PR_SET_PDEATHSIG, SIGKILL) != 0 || getppid() != parent)
        exit(EXIT_FAILURE);
    for (int i = 0; i < HOSTS; i++)
        if (i != at)
            close(p->sockets[i]);
    host_play(&orders);
    exit(EXIT_SUCCESS);
}

static void start_hosts(struct parent *p)
{
    pid_t self = getpid();
    fflush(stdout);
    for (int i = 0; i < HOSTS; i++) {
        pid_t pid = fork();
        if (pid < 0)
            fail(p, "no process for a host");
        if (pid == 0)
            be_host(p, i, self);
        p->pids[i] = pid;
    }
    for (int i = 0; i < HOSTS; i++)
        close(p->sockets[i]);
}

/* Sees which hosts were stopped, and that none has ended. */
static void watch_hosts(struct parent *p)
{
    for (int i = 0; i < HOSTS; i++) {
        int status;
        if (waitpid(p->pids[i], &status, WNOHANG | WUNTRACED) != p->pids[i])
            continue;
        if (WIFSTOPPED(status)) {
            p->stops++;
        } else {
            p->pids[i] = 0;
            fail(p, "a host ended before the exercise was over");
        }
    }
}

static void read_reports(struct parent *p)
{
    struct pollfd waiting = {.fd = p->reports[0], .events = POLLIN};
    struct report r;
    poll(&waiting, 1, LOOK_MS);
    while (read(p->reports[0], &r, sizeof r) == (ssize_t)sizeof r)
        p->latest[r.site - 1] = r;
}

static void stop_someone(struct parent *p)
{
    uint64_t time = now();
    if (time < p->next_stop)
        return;
    p->next_stop = time + STOP_EVERY;
    uint32_t at = roll(&p->dice, HOSTS);
    if (p->stopped_until[at] == 0 && kill(p->pids[at], SIGSTOP) == 0)
        p->stopped_until[at] = time + STOP_LEAST + roll(&p->dice, STOP_RANGE);
}

static void continue_hosts(struct parent *p)
{
    uint64_t time = now();
    for (int i = 0; i < HOSTS; i++) {
        if (p->stopped_until[i] == 0 || time < p->stopped_until[i])
            continue;
        kill(p->pids[i], SIGCONT);
        p->stopped_until[i] = 0;
    }
}

/*
 * Whether all hosts reported the same counts, and that they are quiet. Then nothing will change any more,
 * though the reports are of different times: a quiet host makes a patch only after one that it lacks has come
 * in, and the first such patch would have to be made by a host that lacks none.
 */
static bool all_settled(const struct parent *p)
{
    for (int i = 0; i < HOSTS; i++) {
        const struct report *r = &p->latest[i];
        if (r->quiet == 0 || memcmp(r->counts, p->latest[0].counts, sizeof r->counts) != 0)
            return false;
    }
    return true;
}

/* The largest count of a site that any host reported. */
static uint32_t most_of(const struct parent *p, int site)
{
    uint32_t most = 0;
    for (int i = 0; i < HOSTS; i++) {
        uint32_t count = number_at(p->latest[i].counts + 4 * (site - 1));
        most = count > most ? count : most;
    }
    return most;
}

/* One line for each host: the numbers of the patches that another has and it has not. */
static void say_what_lacks(const struct parent *p)
{
    for (int i = 0; i < HOSTS; i++) {
        printf("site %d%s lacks:", i + 1, p->latest[i].quiet ? "" : " (not quiet)");
        for (int site = 1; site <= HOSTS; site++) {
            uint32_t has = number_at(p->latest[i].counts + 4 * (site - 1)), most = most_of(p, site);
            if (has < most)
                printf(" %" PRIu32 " to %" PRIu32 " of site %d;", has + 1, most, site);
        }
        puts("");
    }
}

static void play(struct parent *p, uint64_t editing_ms, uint64_t patience_ms)
{
    uint64_t start = now();
    while (now() - start < editing_ms) {
        read_reports(p);
        stop_someone(p);
        continue_hosts(p);
        watch_hosts(p);
    }
    atomic_store(&p->exercise->phase, SETTLING);
    while (!all_settled(p)) {
        read_reports(p);
        continue_hosts(p);
        watch_hosts(p);
        if (now() - start > editing_ms + patience_ms) {
            say_what_lacks(p);
            fail(p, "the hosts did not come to hold the same in time");
        }
    }
    printf("edited %.1f s, settled after %.1f s more\n", (double)editing_ms / 1000,
           (double)(now() - start - editing_ms) / 1000);
}

/* Lets the hosts hand in what they hold. One that does not end well has failed. */
static void end_hosts(struct parent *p)
{
    uint64_t start = now();
    atomic_store(&p->exercise->phase, OVER);
    for (int i = 0; i < HOSTS; i++) {
        int status = 0;
        kill(p->pids[i], SIGCONT);
        while (waitpid(p->pids[i], &status, WNOHANG) == 0) {
            if (now() - start > ENDING_MS)
                fail(p, "a host did not end");
            poll(NULL, 0, LOOK_MS);
        }
        p->pids[i] = 0;
        if (!WIFEXITED(status) || WEXITSTATUS(status) != EXIT_SUCCESS)
            fail(p, "a host failed at its end");
    }
}

static void check(struct parent *p, bool holds, const char *what)
{
    if (!holds)
        fail(p, what);
}

static size_t rows_of(const struct outcome *o)
{
    return (size_t)o->record[REPLICA_RECORD_ROWS] << 8 | o->record[REPLICA_RECORD_ROWS + 1];
}

static uint64_t sum_of_counts(const struct outcome *o)
{
    uint64_t sum = 0;
    for (int i = 0; i < HOSTS; i++)
        sum += number_at(o->record + REPLICA_RECORD_COUNTS + 4 * i);
    return sum;
}

/* All hosts hold the same. What they share is also what they did: counts are edits, rows are lines. */
static void check_hosts(struct parent *p)
{
    const struct outcome *first = &p->exercise->outcomes[0];
    for (int i = 0; i < HOSTS; i++) {
        const struct outcome *o = &p->exercise->outcomes[i];
        const struct tally *t = &o->tally;
        uint64_t own = t->inserts + t->deletes;
        check(p, o->record[REPLICA_RECORD_SITE] == i + 1, "a host holds another's record");
        check(p, memcmp(o->record + 1, first->record + 1, REPLICA_RECORD - 1) == 0, "rows or counts differ");
        check(p, memcmp(o->table, first->table, REPLICA_TABLE) == 0, "tables differ");
        check(p, number_at(o->record + REPLICA_RECORD_COUNTS + 4 * i) == own,
              "a count is not the number of its site's edits");
        check(p, sum_of_counts(o) == own + t->received[REPLICA_DONE] + t->received[REPLICA_GONE],
              "the counts are not the patches done");
        check(p, t->added == t->struck + rows_of(o), "rows and lines struck are not the inserts done");
    }
}

/* Each row's text tells the author and the number that the row itself has. */
static void check_texts(struct parent *p)
{
    const struct outcome *o = &p->exercise->outcomes[0];
    for (size_t row = 0; row < rows_of(o); row++) {
        const uint8_t *bytes = o->table + ROW * row;
        char told[REPLICA_TEXT + 1];
        size_t at, len;
        check(p, replica_row_text(o->record, REPLICA_RECORD, o->table, REPLICA_TABLE, row, &at, &len) == 0,
              "a row cannot be read");
        int expected = snprintf(told, sizeof told, "%u.%u ", (unsigned)author_of(bytes),
                                (unsigned)number_at(bytes + ROW_NUMBER));
        check(p, len >= (size_t)expected && memcmp(o->table + at, told, (size_t)expected) == 0,
              "a row's text is not that of its line");
    }
}

static void add_up(struct tally *sum, const struct tally *t)
{
    for (int answer = 0; answer < ANSWERS; answer++) {
        sum->refused[answer] += t->refused[answer];
        sum->received[answer] += t->received[answer];
    }
    sum->inserts += t->inserts;
    sum->deletes += t->deletes;
    sum->dropped += t->dropped;
    sum->asked += t->asked;
    sum->resent += t->resent;
    sum->sent += t->sent;
    sum->lost += t->lost;
    sum->repeated += t->repeated;
    sum->held += t->held;
    sum->strays += t->strays;
}

static void print_answers(const char *what, const uint64_t *answers)
{
    uint64_t all = 0;
    printf("%s:", what);
    for (int answer = 0; answer < ANSWERS; answer++) {
        all += answers[answer];
        if (answers[answer] > 0)
            printf(" %" PRIu64 " answered %d,", answers[answer], answer);
    }
    printf(" %" PRIu64 " in all\n", all);
}

static void print_sum(const struct parent *p, const struct tally *sum)
{
    printf("edits done: %" PRIu64 " inserts, %" PRIu64 " deletes; by site:", sum->inserts, sum->deletes);
    for (int i = 0; i < HOSTS; i++)
        printf(" %" PRIu32, number_at(p->exercise->outcomes[0].record + REPLICA_RECORD_COUNTS + 4 * i));
    puts("");
    print_answers("own edits refused", sum->refused);
    print_answers("patches offered", sum->received);
    printf("refused patches dropped: %" PRIu64 "; counts sent: %" PRIu64 "; patches sent again: %" PRIu64 "\n",
           sum->dropped, sum->asked, sum->resent);
    printf("datagrams: %" PRIu64 " sent, %" PRIu64 " lost, %" PRIu64 " repeated", sum->sent, sum->lost,
           sum->repeated);
    printf(", %" PRIu64 " held back, %" PRIu64 " strays\n", sum->held, sum->strays);
    printf("stops: %" PRIu64 "; rows at the end: %zu\n", p->stops, rows_of(&p->exercise->outcomes[0]));
}

/* A run in which nothing went wrong on the way would show nothing. */
static void check_mischief(struct parent *p, const struct tally *sum)
{
    check(p, sum->inserts > 0 && sum->deletes > 0, "nothing was edited");
    check(p, sum->lost > 0 && sum->repeated > 0 && sum->held > 0, "the network did no mischief");
    check(p, sum->received[REPLICA_RECEIVED] > 0, "no patch came twice");
    check(p, sum->received[REPLICA_EARLY] > 0, "no patch was early");
    check(p, sum->resent > 0, "nothing was sent again");
    check(p, p->stops > 0, "no host was stopped");
}

static uint32_t argument(int count, char **values, int at, uint32_t otherwise)
{
    char *end;
    if (at >= count)
        return otherwise;
    unsigned long value = strtoul(values[at], &end, 10);
    if (*values[at] < '0' || *values[at] > '9' || *end != '\0' || value < 1 || value > LONGEST) {
        fprintf(stderr, "soak: numbers are 1 to %d: SECONDS SEED PATIENCE\n", LONGEST);
        exit(EXIT_FAILURE);
    }
    return (uint32_t)value;
}

int main(int count, char **values)
{
    static struct parent p;
    static struct tally sum;
    uint32_t seconds = argument(count, values, 1, 9), patience = argument(count, values, 3, 60);
    p.seed = argument(count, values, 2, 1);
    p.dice = dice_of(p.seed, 0);
    prepare(&p);
    start_hosts(&p);
    play(&p, seconds * 1000, patience * 1000);
    end_hosts(&p);
    for (int i = 0; i < HOSTS; i++)
        add_up(&sum, &p.exercise->outcomes[i].tally);
    print_sum(&p, &sum);
    check_hosts(&p);
    check_texts(&p);
    check_mischief(&p, &sum);
    puts("passed");
    return EXIT_SUCCESS;
}
