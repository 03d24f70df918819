/* Misuse that ends a program by abort, with a sentence on standard error, if the program is checked: a handle that is given back twice,
   one that is given to a lender that didn't lend it, and one that two threads use at a time, or a thread and a signal handler that
   interrupts it. Each is made in a process of its own. It wants VBR_CHECKED, and no NDEBUG. */
#include "client.h"
#include "vbr_lend.h"

#include <signal.h>
#include <string.h>
#include <sys/resource.h>
#include <sys/time.h>
#include <sys/wait.h>
#include <unistd.h>

enum { SECONDS = 5 /* of processor time, which is much more than calls need to meet */ };

static vbr_handle handles[4], others[2];
static vbr_lender lender, other;

/* What a process says on standard error that makes these calls, and how it ends. */
static int status_of(void (*calls)(void), char *said, size_t room) {
    int ends[2], status = 0;
    ssize_t more = 0;
    CHECK(!pipe(ends));
    pid_t child = fork();
    CHECK(child >= 0);
    if (child == 0) {
        struct rlimit none = {0, 0}, few;
        if (dup2(ends[1], STDERR_FILENO) < 0 || setrlimit(RLIMIT_CORE, &none) || getrlimit(RLIMIT_CPU, &few)) _exit(2);
        if (few.rlim_cur > SECONDS) few.rlim_cur = SECONDS;
        if (setrlimit(RLIMIT_CPU, &few)) _exit(2); /* ends calls that go on, however busy the machine is */
        calls();
        _exit(0);
    }
    close(ends[1]);
    for (size_t length = 0; length + 1 < room && (more = read(ends[0], said + length, room - 1 - length)) > 0;) length += (size_t)more;
    close(ends[0]);
    CHECK(more == 0 && waitpid(child, &status, 0) == child);
    return status;
}

static void ends(const char *sentence, void (*misuse)(void)) {
    char said[4096] = {0};
    int status = status_of(misuse, said, sizeof said);
    CHECK(WIFSIGNALED(status) && WTERMSIG(status) == SIGABRT && strstr(said, sentence));
}

static void goes_on(void (*calls)(void)) {
    char said[4096] = {0};
    int status = status_of(calls, said, sizeof said);
    CHECK(WIFEXITED(status) && WEXITSTATUS(status) == 0 && !said[0]);
}

static vbr_handle *lent(vbr_lender *from) {
    vbr_handle *mine = vbr_lend(from);
    CHECK(mine);
    return mine;
}

static void twice(void) {
    vbr_handle *mine = lent(&lender);
    vbr_give_back(&lender, mine);
    vbr_give_back(&lender, mine);
}

static void never_lent(void) {
    VBR_IGNORE(lent(&lender));
    vbr_give_back(&lender, &handles[1]);
}

static void to_another(void) {
    VBR_IGNORE(lent(&lender));
    vbr_give_back(&lender, lent(&other));
}

static void to_one_of_the_same_array(void) {
    static vbr_lender rest;
    CHECK(vbr_lender_init(&lender, handles, 2) == VBR_OK && vbr_lender_init(&rest, handles + 2, 2) == VBR_OK);
    vbr_give_back(&rest, lent(&lender));
}

static void a_copy(void) {
    vbr_handle copy = *lent(&lender);
    vbr_give_back(&lender, &copy);
}

static void in_order(void) {
    vbr_handle *one = lent(&lender), *two = lent(&lender), *third = lent(&other);
    vbr_give_back(&lender, one);
    vbr_give_back(&other, third);
    vbr_give_back(&lender, two);
    one = lent(&lender);
    CHECK(vbr_lender_renew(&lender, 64, 8, VBR_MAX_EPOCH) == VBR_IN_USE);
    vbr_give_back(&lender, one);
    CHECK(vbr_lender_renew(&lender, 64, 8, VBR_MAX_EPOCH) == VBR_OK);
    vbr_give_back(&lender, lent(&lender));
}

static vbr_answer answers[100000];
static uint64_t wanted[100000];
static int is_over;
static long looked_up;

/* Calls that take some milliseconds each, by the first handle, until they are to end. */
static void *look_up(void *of) {
    while (!__atomic_load_n(&is_over, __ATOMIC_RELAXED)) {
        vbr_has_all(&handles[0], wanted, 100000, answers);
        __atomic_fetch_add(&looked_up, 1, __ATOMIC_RELAXED);
    }
    return of;
}

/* Begins calls by the first handle, in another thread. */
static pthread_t another_looks_up(void) {
    pthread_t thread;
    CHECK(!pthread_create(&thread, NULL, look_up, NULL));
    while (!__atomic_load_n(&looked_up, __ATOMIC_RELAXED)) continue;
    return thread;
}

/* Makes a call again and again beside them, until the two meet: that may take many, as either thread can stand still between its calls. */
static void meets(void (*call)(void)) {
    another_looks_up();
    for (;;) call();
}

static void has(void) {
    VBR_IGNORE(vbr_has(&handles[0], 1));
}

static void shows_its_epoch(void) {
    VBR_IGNORE(vbr_epoch(&handles[0]));
}

static void reports_all(void) {
    uint64_t keys[8] = {0};
    vbr_report report = {0};
    VBR_IGNORE(vbr_report_all(handles, 4, keys, 8, &report));
}

static void two_look_up(void) {
    meets(has);
}

static void one_asks(void) {
    meets(shows_its_epoch);
}

static void one_reports(void) {
    meets(reports_all);
}

static void has_in_a_handler(int number) {
    (void)number;
    has();
}

static void interrupted(void) {
    struct itimerval often = {{0, 1000}, {0, 1000}};
    struct sigaction action;
    memset(&action, 0, sizeof action);
    action.sa_handler = has_in_a_handler;
    CHECK(!sigaction(SIGVTALRM, &action, NULL) && !setitimer(ITIMER_VIRTUAL, &often, NULL));
    look_up(NULL);
}

static void has_by_another(void) {
    VBR_IGNORE(vbr_insert(&handles[1], 1));
    VBR_IGNORE(vbr_epoch(&handles[1]));
}

/* Two threads by handles of their own, a handle that goes on in another place, and marks that are the program's. */
static void beside_each_other(void) {
    pthread_t thread = another_looks_up();
    for (int i = 0; i < 1000; i++) has_by_another();
    __atomic_store_n(&is_over, 1, __ATOMIC_RELAXED);
    CHECK(!pthread_join(thread, NULL));
    has();
    vbr_handle moved = handles[1];
    memset(&handles[1], 0, sizeof handles[1]);
    CHECK(!moved.in_call && vbr_remove(&moved, 1) == VBR_YES);
    moved.in_call = 1;
    CHECK(vbr_insert(&moved, 1) == VBR_YES && moved.in_call == 1);
    vbr_drop(&moved);
    vbr_drop(NULL);
}

int main(void) {
    CHECK(vbr_open(handles, 4, 64, 8, VBR_MAX_EPOCH) == VBR_OK && vbr_open(others, 2, 64, 8, VBR_MAX_EPOCH) == VBR_OK);
    CHECK(vbr_lender_init(&lender, handles, 4) == VBR_OK && vbr_lender_init(&other, others, 2) == VBR_OK);
    goes_on(in_order);
    ends("isn't on loan", twice);
    ends("isn't on loan", never_lent);
    ends("didn't lend it", to_another);
    ends("didn't lend it", to_one_of_the_same_array);
    ends("didn't lend it", a_copy);
    goes_on(beside_each_other);
    ends("is in a call already", two_look_up);
    ends("is in a call already", one_asks);
    ends("is in a call already", one_reports);
    ends("is in a call already", interrupted);
    vbr_end_all(handles, 4), vbr_end_all(others, 2);
    puts("misuse that ends a checked program: passed");
    return 0;
}
