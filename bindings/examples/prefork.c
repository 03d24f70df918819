/* A pre-fork server: a master forks workers that count requests and keep sessions in a map that they share. Workers may be killed at any
   moment; the master forks others, and no request that was answered is lost. Something to begin from.

       prefork [KILLS [SEED]]     kills so many workers at random moments, 120, and stops others for a while
       prefork careless           the same, but a worker that stands still is taken for a dead one

   The map has the visits of each session, and of all of them. A request brings some visits, which are counted one by one, or a farewell,
   which takes the session out and tells its count. A worker waits for a request, passes the door, makes its calls between vbr_begin and
   vbr_end, and answers.

   The master makes no call. It waits for its children, and where one has ended it
   - inherits the handle, by which it learns whether the worker died in a call;
   - forks the next worker with it;
   - closes the door, after some such deaths, and renews the map once all workers rest. That wins back the slots that deaths have cost.

   The door is a word that workers read once they have said that they are at work; the master says that it is closed, and then looks who
   is at work. So one of the two sees the other, and no call is under way in a renewal. Nobody waits at the door else.

   Here clients are one process, which sends requests and notes what was answered. Of a request that a worker had when it was killed any
   number of visits is counted. Of all others each is counted once: in the end the map has as many as were answered, and at most those in
   doubt besides. A careless master gives the handle of a worker that was stopped to another one. Then two processes use one handle, and
   counts are wrong. */
#define _GNU_SOURCE
#include "vbr_shared.h"

#include <errno.h>
#include <poll.h>
#include <signal.h>
#include <stdatomic.h>
#include <stdio.h>
#include <stdlib.h>
#include <string.h>
#include <sys/mman.h>
#include <sys/prctl.h>
#include <sys/socket.h>
#include <sys/wait.h>
#include <time.h>
#include <unistd.h>

#define CHECK(x) do { if (!(x)) { fprintf(stderr, "prefork.c:%d: FAILED: %s\n", __LINE__, #x); exit(1); } } while (0)

enum { WORKERS = 4, SESSIONS = 200, ALL = 0, SPELL = 8, REQUESTS = 5000, MOST = 400 }; /* a renewal after so many deaths in a call */
enum { KEYS = SESSIONS + 1, SLOTS = KEYS + 64 * WORKERS + 66 * (SPELL + WORKERS), BUCKETS = 256 };
enum kind { VISITS, FAREWELL };

struct request {
    uint32_t kind, session, visits; /* sessions are 1, 2 and so on */
};
struct answer {
    struct request of;
    uint64_t count;
};

/* What all processes share beside the map. */
struct board {
    _Alignas(128) atomic_int is_closed; /* the door */
    struct { _Alignas(128) atomic_int is_at_work; } worker[WORKERS];
    _Alignas(128) atomic_int is_over;   /* no more workers are killed */
    struct {
        uint64_t sent, answered;       /* visits */
        uint64_t in_doubt, told;       /* farewells that aren't answered, and the counts that the others have told */
    } of[SESSIONS + 1];                /* which the clients write */
    uint64_t unanswered;               /* requests */
};

static struct board *board;
static vbr_shared_handle *handles;
static int connection[2]; /* the clients', and that of all workers */
static pid_t workers[WORKERS], clients;
static int is_careless, deaths_in_call, since_renewal, renewals, kills, stops;

static uint32_t below(uint64_t *random, uint32_t limit) {
    *random ^= *random << 13, *random ^= *random >> 7, *random ^= *random << 17;
    return (uint32_t)((*random * 0x9e3779b97f4a7c15u >> 32) * limit >> 32);
}

static void rest(long microseconds) { nanosleep(&(struct timespec){0, microseconds * 1000}, NULL); }

/* ---- a worker */

/* Passes the door: from here to `has_left` no renewal begins. */
static void enters(int worker) {
    atomic_store(&board->worker[worker].is_at_work, 1);
    while (atomic_load(&board->is_closed)) {
        atomic_store(&board->worker[worker].is_at_work, 0);
        rest(100);
        atomic_store(&board->worker[worker].is_at_work, 1);
    }
}

static void has_left(int worker) { atomic_store(&board->worker[worker].is_at_work, 0); }

/* A value says whose count it is, so that a count in another place is found out. */
static uint64_t value_of(uint64_t key, uint64_t count) { return key << 32 | count; }

static uint64_t count_in(uint64_t key, uint64_t value) {
    CHECK(value >> 32 == key);
    return value & UINT32_MAX;
}

/* Whether to make a call again: it was refused for want of steps, which with the ample budget comes from others in the way. */
static int is_tired(vbr_answer told, int *times) {
    CHECK(told >= 0 || (told == VBR_OUT_OF_STEPS && ++*times < 30));
    return told < 0;
}

/* Counts one more, and returns which it is. */
static uint64_t count(vbr_map_handle *map, uint64_t key) {
    int tired = 0;
    for (long others = 0; others < 100000000; others++) { /* each time another worker was faster */
        uint64_t before;
        vbr_answer told = vbr_map_get_or_insert(map, key, value_of(key, 1), &before);
        if (told == VBR_NO) return 1;
        if (told == VBR_YES) told = vbr_map_compare_exchange(map, key, before, before + 1, NULL);
        if (told == VBR_YES) return count_in(key, before) + 1;
        is_tired(told, &tired);
    }
    CHECK(!"counts");
    return 0;
}

/* Ends a session, and returns what it had. */
static uint64_t end_session(vbr_map_handle *map, uint64_t session) {
    uint64_t had;
    vbr_answer told;
    int tired = 0;
    do told = vbr_map_remove(map, session, &had);
    while (is_tired(told, &tired));
    return told == VBR_YES ? count_in(session, had) : 0;
}

static void serve(int worker) {
    vbr_shared_handle *mine = &handles[worker];
    struct request request;
    ssize_t got;
    while ((got = recv(connection[1], &request, sizeof request, 0)) != 0) {
        if (got < 0 && errno == EINTR) continue;
        CHECK(got == sizeof request);
        struct answer answer = {request, 0};
        enters(worker);
        vbr_begin(mine);
        for (uint32_t i = 0; i < request.visits; i++) answer.count = count(&mine->map, request.session), count(&mine->map, ALL);
        if (request.kind == FAREWELL) answer.count = end_session(&mine->map, request.session);
        vbr_end(mine);
        has_left(worker);
        CHECK(send(connection[1], &answer, sizeof answer, MSG_NOSIGNAL) == sizeof answer);
    }
    _exit(0); /* there are no clients any more; the handle stays as it is */
}

/* ---- the master */

static pid_t forks(void) {
    pid_t master = getpid(), child = fork();
    CHECK(child >= 0);
    if (child == 0 && (prctl(PR_SET_PDEATHSIG, SIGKILL) || getppid() != master)) _exit(1); /* no worker outlives the master */
    return child;
}

static void start(int worker) {
    workers[worker] = forks();
    if (workers[worker] == 0) serve(worker);
}

/* Gives the handle of a worker that has ended to the next one. */
static void replace(int worker) {
    vbr_answer inherited = vbr_inherit(&handles[worker]); /* VBR_NO: it died in a call, and up to 66 slots are lost */
    CHECK(inherited >= 0);
    if (inherited == VBR_NO) deaths_in_call++, since_renewal++;
    has_left(worker);
    start(worker);
}

/* What has become of a child. One that isn't known was taken for dead. */
static void note_end(pid_t child, int status) {
    int was_killed = WIFSIGNALED(status) && WTERMSIG(status) == SIGKILL;
    CHECK(was_killed || (WIFEXITED(status) && WEXITSTATUS(status) == 0));
    if (child == clients) clients = 0;
    for (int i = 0; i < WORKERS; i++) {
        if (workers[i] != child) continue;
        workers[i] = 0;
        if (was_killed) replace(i);
    }
}

static void replace_the_dead(void) {
    int status;
    for (pid_t child; (child = waitpid(-1, &status, WNOHANG)) > 0;) note_end(child, status);
}

/* Renews the map while all workers rest; where one dies or is stopped at work, the master sees to it first. */
static void renew(void) {
    atomic_store(&board->is_closed, 1);
    for (int i = 0; i < WORKERS; i++)
        while (atomic_load(&board->worker[i].is_at_work)) {
            if (workers[i]) kill(workers[i], SIGCONT);
            replace_the_dead();
            rest(100);
        }
    CHECK(vbr_renew_shared(handles, SLOTS, BUCKETS, VBR_MAX_EPOCH) == VBR_OK);
    atomic_store(&board->is_closed, 0);
    since_renewal = 0, renewals++;
}

/* ---- the clients, and what the server is put through */

static void note(const struct answer *answer) {
    board->unanswered--;
    board->of[answer->of.session].answered += answer->of.visits;
    CHECK(answer->count <= board->of[answer->of.session].sent);
    if (answer->of.kind == FAREWELL) board->of[answer->of.session].told += answer->count, board->of[answer->of.session].in_doubt--;
    else CHECK(answer->count > 0);
}

/* Sends requests and takes answers, until the workers have ended. */
static void ask(uint64_t random) {
    int server = connection[0], is_done = 0;
    close(connection[1]);
    for (long sent = 0;;) {
        struct pollfd it = {server, (short)(is_done ? POLLIN : POLLIN | POLLOUT), 0};
        struct answer answer;
        ssize_t got;
        if (poll(&it, 1, -1) < 0) CHECK(errno == EINTR);
        while ((got = recv(server, &answer, sizeof answer, MSG_DONTWAIT)) > 0) note(&answer);
        if (got == 0) _exit(0);
        CHECK(errno == EAGAIN || errno == EINTR);
        if (is_done || !(it.revents & POLLOUT)) continue;
        if (sent >= REQUESTS && atomic_load(&board->is_over)) {
            is_done = 1;
            CHECK(!shutdown(server, SHUT_WR));
            continue;
        }
        struct request request = {below(&random, 50) ? VISITS : FAREWELL, 1 + below(&random, SESSIONS), 0};
        if (request.kind == VISITS) request.visits = 1 + below(&random, MOST);
        if (send(server, &request, sizeof request, MSG_DONTWAIT | MSG_NOSIGNAL) != sizeof request) {
            CHECK(errno == EAGAIN);
            continue;
        }
        sent++, board->unanswered++;
        board->of[request.session].sent += request.visits;
        board->of[request.session].in_doubt += request.kind == FAREWELL;
    }
}

/* Stops a worker for a while. */
static void stop(int worker, long microseconds) {
    pid_t stopped = workers[worker];
    CHECK(!kill(stopped, SIGSTOP));
    stops++;
    if (is_careless) replace(worker); /* since it doesn't answer; but it hasn't ended */
    rest(microseconds);
    CHECK(!kill(stopped, SIGCONT));
}

static void run(int wanted, uint64_t random) {
    while (kills < wanted) {
        rest(100 + below(&random, 3000));
        int worker = (int)below(&random, WORKERS);
        if (below(&random, 4) == 0) stop(worker, 100 + below(&random, 2000));
        else if (!kill(workers[worker], SIGKILL)) kills++;
        replace_the_dead();
        if (since_renewal >= SPELL && !is_careless) renew(); /* whose reading of what is torn might have no end */
    }
    atomic_store(&board->is_over, 1);
}

/* Waits until all children have ended, and replaces those that were killed before. */
static void finish(void) {
    int status, at_work;
    do {
        pid_t child = wait(&status);
        CHECK(child > 0);
        note_end(child, status);
        at_work = 0;
        for (int i = 0; i < WORKERS; i++) at_work += workers[i] != 0;
    } while (at_work > 0);
    close(connection[1]); /* and the clients see that there is no worker any more */
    for (pid_t child; (child = wait(&status)) > 0;) note_end(child, status);
}

/* What the map has is what was answered, and at most what wasn't. */
static void check(void) {
    static vbr_entry entries[SLOTS];
    uint64_t has[SESSIONS + 1] = {0}, answered = 0, in_doubt = 0;
    vbr_report report;
    CHECK(vbr_map_close_all(vbr_map_gather(handles), WORKERS, entries, SLOTS, &report) == VBR_YES);
    for (uint32_t i = 0; i < report.live; i++) {
        CHECK(entries[i].key <= SESSIONS);
        has[entries[i].key] = count_in(entries[i].key, entries[i].value);
    }
    for (int i = 1; i <= SESSIONS; i++) {
        uint64_t counted = has[i] + board->of[i].told;
        CHECK(counted <= board->of[i].sent);
        CHECK(counted >= board->of[i].answered || board->of[i].in_doubt > 0); /* such a farewell may have taken a count along */
        answered += board->of[i].answered, in_doubt += board->of[i].sent - board->of[i].answered;
    }
    CHECK(has[ALL] >= answered && has[ALL] <= answered + in_doubt);
    CHECK(board->unanswered <= (uint64_t)kills);
    printf("pre-fork server in C: passed, %d workers killed, %d of them in a call, %d stopped, %d renewals, %llu visits, %llu in doubt\n", kills,
           deaths_in_call, stops, renewals, (unsigned long long)answered, (unsigned long long)in_doubt);
}

int main(int argument_count, char **arguments) {
    is_careless = argument_count > 1 && !strcmp(arguments[1], "careless");
    int wanted = argument_count > 1 && !is_careless ? atoi(arguments[1]) : 120;
    uint64_t seed = argument_count > 2 ? strtoull(arguments[2], NULL, 10) : 1, random = (seed + 1) * 0x9e3779b97f4a7c15u | 1;
    if (is_careless) alarm(120); /* what two processes tear may keep this one for ever */
    board = mmap(NULL, sizeof *board, PROT_READ | PROT_WRITE, MAP_SHARED | MAP_ANONYMOUS, -1, 0);
    CHECK(board != MAP_FAILED);
    CHECK(!socketpair(AF_UNIX, SOCK_SEQPACKET, 0, connection));
    CHECK(vbr_map_open_shared(&handles, WORKERS, is_careless ? 1 << 20 : SLOTS, BUCKETS, VBR_MAX_EPOCH, NULL, 0) == VBR_OK);
    clients = forks();
    if (clients == 0) ask(random);
    close(connection[0]);
    for (int i = 0; i < WORKERS; i++) start(i);
    run(wanted, random);
    finish();
    check();
    vbr_unmap_shared(handles);
    return 0;
}
