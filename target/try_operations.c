/* Tries the interpreter of operations: plays a loop that asks for each of them in turn, and looks at what came of it. Prints 'ok', or ends
   by an assertion. */
#define _GNU_SOURCE
#undef NDEBUG
#include "operations.h"

#include <assert.h>
#include <errno.h>
#include <fcntl.h>
#include <netinet/in.h>
#include <netinet/tcp.h>
#include <signal.h>
#include <stdio.h>
#include <stdlib.h>
#include <string.h>
#include <sys/file.h>
#include <sys/resource.h>
#include <sys/signalfd.h>
#include <sys/socket.h>
#include <sys/stat.h>
#include <time.h>
#include <unistd.h>

/* what is asked for, with its bytes, and what is to come of it: which kind of answer, bytes, a number unless it is a time, and the one
   place that has bytes, or takes some; 0 for none */
struct step {
    struct pifnjarl_operation asked;
    const char *carried;
    uint32_t answer;
    const char *came;
    uint64_t number;
    size_t reads;
    size_t writes;
};

static struct descriptors d;
static int host = -1; /* the other end of a connection */
static unsigned port; /* its port */
static struct lines log_lines;
static int said = -1; /* the end of a pipe at which they come out */
static const struct step *script;
static size_t at;
static uint64_t last; /* the time that was told last */

static void meet_host(void)
{
    struct sockaddr_in where;
    socklen_t size = sizeof where;
    assert(getsockname(d.listener, (struct sockaddr *)&where, &size) == 0);
    host = socket(AF_INET, SOCK_STREAM, 0);
    assert(host >= 0 && connect(host, (struct sockaddr *)&where, size) == 0);
    assert(getsockname(host, (struct sockaddr *)&where, &size) == 0);
    port = ntohs(where.sin_port);
}

static int option(int connection, int level, int which)
{
    int value = -1;
    socklen_t size = sizeof value;
    assert(getsockopt(connection, level, which, &value, &size) == 0);
    return value;
}

/* A connection sends at once, and asks for a sign of its host. */
static void look_at_connection(int connection)
{
    assert(option(connection, SOL_TCP, TCP_NODELAY) != 0 && option(connection, SOL_SOCKET, SO_KEEPALIVE) != 0);
    assert(option(connection, SOL_TCP, TCP_KEEPIDLE) == 60 && option(connection, SOL_TCP, TCP_KEEPINTVL) == 10);
    assert(option(connection, SOL_TCP, TCP_KEEPCNT) == 6);
}

/* What the world does once an operation is answered. */
static void play_world(const struct step *now, const struct pifnjarl_answer *answer)
{
    char got[16];
    if (now->asked.kind == PIFNJARL_ACCEPT && answer->kind == PIFNJARL_DID) {
        look_at_connection(d.connections[now->asked.number]);
        assert(write(host, "hello", 5) == 5);
    }
    if (now->asked.kind == PIFNJARL_WRITE && answer->kind == PIFNJARL_TAKEN) {
        assert(read(host, got, sizeof got) == (ssize_t)answer->number && memcmp(got, now->carried, answer->number) == 0);
        close(host);
    }
    if (now->asked.kind == PIFNJARL_LOG && host >= 0)
        assert(raise(SIGUSR1) == 0 && raise(SIGTERM) == 0);
}

/* Its number and its places are those that are to come. */
static void look_at(const struct step *now, const struct pifnjarl_answer *answer)
{
    if (answer->kind != PIFNJARL_TIME)
        assert(answer->number == now->number);
    for (size_t place = 0; place < PIFNJARL_PLACES; place++) {
        assert((answer->reads[place] != 0) == (place > 0 && place == now->reads));
        assert((answer->writes[place] != 0) == (place > 0 && place == now->writes));
    }
}

/* It is at least so much later than the last time as is waited for meanwhile, in microseconds of the system's clock. */
static void look_at_time(const struct pifnjarl_answer *answer)
{
    struct timespec now;
    uint64_t waited = at > 0 && script[at - 1].asked.kind == PIFNJARL_POLL && script[at - 1].number == 0 ? script[at - 1].asked.number : 0;
    assert(clock_gettime(CLOCK_MONOTONIC, &now) == 0);
    assert(answer->number <= (uint64_t)now.tv_sec * 1000000 + (uint64_t)now.tv_nsec / 1000);
    assert(answer->number + 60 * 1000000 > (uint64_t)now.tv_sec * 1000000 && answer->number >= last + waited * 1000);
    last = answer->number;
}

void pifnjarl_loop_step(unsigned char *handle, const struct pifnjarl_answer *answer, const unsigned char *came, size_t count,
                        struct pifnjarl_operation *operation)
{
    const struct step *now = &script[at];
    (void)handle;
    if (answer->kind != now->answer)
        fprintf(stderr, "operation %zu of kind %u: %u came of it\n", at, now->asked.kind, answer->kind);
    assert(answer->kind == now->answer);
    assert(count == (now->came == NULL ? 0 : strlen(now->came)) && (count == 0 || memcmp(came, now->came, count) == 0));
    look_at(now, answer);
    if (answer->kind == PIFNJARL_TIME)
        look_at_time(answer);
    play_world(now, answer);
    *operation = script[++at].asked;
}

size_t pifnjarl_loop_carried(unsigned char *handle, size_t from, unsigned char *out, size_t room)
{
    (void)handle;
    size_t count = script[at].carried == NULL ? 0 : strlen(script[at].carried);
    count = from < count ? count - from : 0;
    count = count < room ? count : room;
    memcpy(out, script[at].carried + from, count);
    return count;
}

static void make_all(const struct step *steps, bool done)
{
    struct pifnjarl_operation first = steps[0].asked;
    script = steps;
    at = 0;
    assert(make_operations(&d, NULL, &first, &log_lines) == done);
}

/* This was printed, and nothing else. */
static void has_said(const char *wanted)
{
    char got[256];
    assert(read(said, got, sizeof got) == (ssize_t)strlen(wanted) && memcmp(got, wanted, strlen(wanted)) == 0);
}

/* A file has these bytes. */
static void has(const char *path, const char *bytes)
{
    char read_bytes[64];
    int file = open(path, O_RDONLY);
    ssize_t count = read(file, read_bytes, sizeof read_bytes);
    assert(file >= 0 && count == (ssize_t)strlen(bytes) && memcmp(read_bytes, bytes, (size_t)count) == 0);
    close(file);
}

#define CARRIES(text) .carried = sizeof text - 1

static void try_files(void)
{
    const struct step steps[] = {
        {.asked = {.kind = PIFNJARL_PWRITE, .number = 3, CARRIES("DE")}, .carried = "DE", .answer = PIFNJARL_DID},
        {.asked = {.kind = PIFNJARL_FSYNC}, .answer = PIFNJARL_DID},
        {.asked = {.kind = PIFNJARL_FTRUNCATE, .number = 6}, .answer = PIFNJARL_DID},
        {.asked = {.kind = PIFNJARL_CREATE}, .answer = PIFNJARL_DID},
        {.asked = {.kind = PIFNJARL_DISCARD}, .answer = PIFNJARL_DID},
        {.asked = {.kind = PIFNJARL_PWRITE, .flag = 1, CARRIES("no")}, .carried = "no", .answer = PIFNJARL_FAILED},
        {.asked = {.kind = PIFNJARL_RENAME}, .answer = PIFNJARL_FAILED},
        {.asked = {.kind = PIFNJARL_LOG, CARRIES("no \1: \2.")}, .carried = "no \1: \2.", .answer = PIFNJARL_DID},
        {.asked = {.kind = PIFNJARL_DISCARD}, .answer = PIFNJARL_DID},
        {.asked = {.kind = PIFNJARL_END, .flag = 0}},
    };
    make_all(steps, false);
    char wanted[256];
    snprintf(wanted, sizeof wanted, "try: no %s: %s.\n", d.path, strerror(ENOENT));
    has_said(wanted);
    has(d.path, "abcDEf");
    assert(access(d.unfinished, F_OK) != 0);
}

/* What is no ordinary file, and has the new one's name, stays, and the line that says why names it. */
static void try_an_odd_file(void)
{
    char wanted[256];
    struct stat about;
    const struct step steps[] = {
        {.asked = {.kind = PIFNJARL_CREATE}, .answer = PIFNJARL_FAILED},
        {.asked = {.kind = PIFNJARL_DISCARD}, .answer = PIFNJARL_DID},
        {.asked = {.kind = PIFNJARL_LOG, CARRIES("no \1: \2.")}, .carried = "no \1: \2.", .answer = PIFNJARL_DID},
        {.asked = {.kind = PIFNJARL_END, .flag = 1}},
    };
    assert(mkfifo(d.unfinished, 0600) == 0);
    make_all(steps, true);
    snprintf(wanted, sizeof wanted, "try: no %s: %s is no ordinary file.\n", d.path, d.unfinished);
    has_said(wanted);
    assert(stat(d.unfinished, &about) == 0 && S_ISFIFO(about.st_mode) && unlink(d.unfinished) == 0);
}

static void try_a_new_file(void)
{
    struct stat before, after;
    const struct step steps[] = {
        {.asked = {.kind = PIFNJARL_CREATE}, .answer = PIFNJARL_DID},
        {.asked = {.kind = PIFNJARL_PWRITE, .flag = 1, CARRIES("a new file")}, .carried = "a new file", .answer = PIFNJARL_DID},
        {.asked = {.kind = PIFNJARL_FSYNC, .flag = 1}, .answer = PIFNJARL_DID},
        {.asked = {.kind = PIFNJARL_RENAME}, .answer = PIFNJARL_DID},
        {.asked = {.kind = PIFNJARL_SYNC_FOLDER}, .answer = PIFNJARL_DID},
        {.asked = {.kind = PIFNJARL_PWRITE, .number = 0, CARRIES("A")}, .carried = "A", .answer = PIFNJARL_DID},
        {.asked = {.kind = PIFNJARL_END, .flag = 1}},
    };
    /* one that a killed program left is replaced, and one that a program holds isn't */
    int stale = open(d.unfinished, O_RDWR | O_CREAT, 0600);
    assert(stale >= 0 && write(stale, "stale bytes, which are more", 27) == 27 && flock(stale, LOCK_EX) == 0);
    const struct step held[] = {{.asked = {.kind = PIFNJARL_CREATE}, .answer = PIFNJARL_FAILED}, {.asked = {.kind = PIFNJARL_END}}};
    make_all(held, false);
    close(stale);
    assert(chmod(d.path, 0640) == 0 && stat(d.path, &before) == 0);
    make_all(steps, true);
    has(d.path, "A new file");
    assert(stat(d.path, &after) == 0 && after.st_mode == before.st_mode && after.st_ino != before.st_ino);
    int other = open(d.path, O_RDWR);
    assert(other >= 0 && flock(other, LOCK_EX | LOCK_NB) != 0 && errno == EWOULDBLOCK); /* it is held */
    close(other);
}

static void try_hosts(void)
{
    const struct step steps[] = {
        {.asked = {.kind = PIFNJARL_NOW}, .answer = PIFNJARL_TIME},
        {.asked = {.kind = PIFNJARL_POLL, .number = 20}, .answer = PIFNJARL_HAPPENED}, /* a host waits, and isn't asked for */
        {.asked = {.kind = PIFNJARL_NOW}, .answer = PIFNJARL_TIME},
        {.asked = {.kind = PIFNJARL_POLL, .number = 1000, .flag = 1}, .answer = PIFNJARL_HAPPENED, .number = PIFNJARL_ACCEPTS},
        {.asked = {.kind = PIFNJARL_ACCEPT, .number = 7}, .answer = PIFNJARL_DID},
        {.asked = {.kind = PIFNJARL_ACCEPT, .number = 8}, .answer = PIFNJARL_AGAIN},
        {.asked = {.kind = PIFNJARL_POLL, .number = 1000, .reads = {[7] = 1}}, .answer = PIFNJARL_HAPPENED, .reads = 7},
        {.asked = {.kind = PIFNJARL_POLL, .number = 1000, .writes = {[7] = 1}}, .answer = PIFNJARL_HAPPENED, .writes = 7},
        {.asked = {.kind = PIFNJARL_READ, .number = 7}, .answer = PIFNJARL_CAME, .came = "hello"},
        {.asked = {.kind = PIFNJARL_READ, .number = 7}, .answer = PIFNJARL_AGAIN},
        {.asked = {.kind = PIFNJARL_WRITE, .number = 7, CARRIES("answer")}, .carried = "answer", .answer = PIFNJARL_TAKEN, .number = 6},
        {.asked = {.kind = PIFNJARL_POLL, .number = 1000, .reads = {[7] = 1}}, .answer = PIFNJARL_HAPPENED, .reads = 7},
        {.asked = {.kind = PIFNJARL_READ, .number = 7}, .answer = PIFNJARL_FAILED},
        {.asked = {.kind = PIFNJARL_CLOSE, .number = 7}, .answer = PIFNJARL_DID},
        {.asked = {.kind = PIFNJARL_READ, .number = 7}, .answer = PIFNJARL_FAILED},
        {.asked = {.kind = PIFNJARL_NOW}, .answer = PIFNJARL_TIME},
        {.asked = {.kind = PIFNJARL_LOG, CARRIES("a line")}, .carried = "a line", .answer = PIFNJARL_DID},
        {.asked = {.kind = PIFNJARL_LOG, CARRIES("connection 7 begins")}, .carried = "connection 7 begins", .answer = PIFNJARL_DID},
        {.asked = {.kind = PIFNJARL_POLL, .number = 1000}, .answer = PIFNJARL_HAPPENED, .number = PIFNJARL_SIGNALS},
        {.asked = {.kind = PIFNJARL_SIGNAL}, .answer = PIFNJARL_SIGNALLED, .number = 0}, /* SIGUSR1, and then SIGTERM */
        {.asked = {.kind = PIFNJARL_SIGNAL}, .answer = PIFNJARL_SIGNALLED, .number = 1},
        {.asked = {.kind = PIFNJARL_SIGNAL}, .answer = PIFNJARL_AGAIN},
        {.asked = {.kind = PIFNJARL_END, .flag = 1}},
    };
    char wanted[128];
    meet_host();
    make_all(steps, true);
    snprintf(wanted, sizeof wanted, "try: a line\ntry: connection 7 begins from 127.0.0.1:%u\n", port);
    has_said(wanted);
    assert(d.connections[7] == -1 && d.connections[8] == -1);
}

/* A host that takes no more bytes, and then is gone; and one for which there is no descriptor. */
static void try_stalled_hosts(void)
{
    int ends[2];
    struct rlimit before, none;
    static const char zeros[1 << 16];
    const struct step full[] = {
        {.asked = {.kind = PIFNJARL_WRITE, .number = 5, CARRIES("more")}, .carried = "more", .answer = PIFNJARL_AGAIN},
        {.asked = {.kind = PIFNJARL_POLL, .writes = {[5] = 1}}, .answer = PIFNJARL_HAPPENED},
        {.asked = {.kind = PIFNJARL_END}},
    };
    const struct step gone[] = {
        {.asked = {.kind = PIFNJARL_POLL, .writes = {[5] = 1}}, .answer = PIFNJARL_HAPPENED, .reads = 5, .writes = 5},
        {.asked = {.kind = PIFNJARL_WRITE, .number = 5, CARRIES("more")}, .carried = "more", .answer = PIFNJARL_FAILED},
        {.asked = {.kind = PIFNJARL_CLOSE, .number = 5}, .answer = PIFNJARL_DID},
        {.asked = {.kind = PIFNJARL_END}},
    };
    const struct step crowded[] = {
        {.asked = {.kind = PIFNJARL_ACCEPT, .number = 7}, .answer = PIFNJARL_FULL},
        {.asked = {.kind = PIFNJARL_END}},
    };
    assert(socketpair(AF_UNIX, SOCK_STREAM | SOCK_NONBLOCK, 0, ends) == 0);
    while (send(ends[0], zeros, sizeof zeros, MSG_NOSIGNAL) > 0) {}
    d.connections[5] = ends[0];
    make_all(full, false);
    close(ends[1]);
    make_all(gone, false);
    meet_host();
    assert(getrlimit(RLIMIT_NOFILE, &before) == 0);
    none = (struct rlimit){.rlim_cur = 0, .rlim_max = before.rlim_max};
    assert(setrlimit(RLIMIT_NOFILE, &none) == 0);
    make_all(crowded, false);
    assert(setrlimit(RLIMIT_NOFILE, &before) == 0);
    close(host);
}

/* A file that has no room, or can't be brought to the disk; and more bytes than are handed over at once. */
static void try_hard_files(void)
{
    enum { MANY = 600000 };
    int held = d.held, folder = d.folder;
    char *bytes = malloc(MANY + 1), *there = malloc(MANY + 1);
    assert(bytes != NULL && there != NULL);
    for (size_t one = 0; one < MANY; one++)
        bytes[one] = (char)('a' + one % 23);
    bytes[MANY] = 0;
    const struct step fails[] = {
        {.asked = {.kind = PIFNJARL_PWRITE, CARRIES("bytes")}, .carried = "bytes", .answer = PIFNJARL_FULL},
        {.asked = {.kind = PIFNJARL_FSYNC}, .answer = PIFNJARL_FAILED},
        {.asked = {.kind = PIFNJARL_FTRUNCATE, .number = 1}, .answer = PIFNJARL_FAILED},
        {.asked = {.kind = PIFNJARL_SYNC_FOLDER}, .answer = PIFNJARL_FAILED},
        {.asked = {.kind = PIFNJARL_END}},
    };
    const struct step writes[] = {
        {.asked = {.kind = PIFNJARL_PWRITE, .number = 1, .carried = MANY}, .carried = bytes, .answer = PIFNJARL_DID},
        {.asked = {.kind = PIFNJARL_END}},
    };
    d.held = open("/dev/full", O_RDWR);
    d.folder = -1;
    assert(d.held >= 0);
    make_all(fails, false);
    close(d.held);
    d.held = held;
    d.folder = folder;
    make_all(writes, false);
    assert(pread(held, there, MANY + 1, 1) == MANY && memcmp(there, bytes, MANY) == 0);
    free(bytes);
    free(there);
}

int main(void)
{
    char folder[] = "/tmp/operations.XXXXXX", path[64], unfinished[64];
    struct sockaddr_in local = {.sin_family = AF_INET, .sin_addr.s_addr = htonl(INADDR_LOOPBACK)};
    sigset_t signals;
    int ends[2];
    assert(pipe(ends) == 0 && mkdtemp(folder) != NULL);
    said = ends[0];
    lines_open(&log_lines, ends[1], "try: ");
    snprintf(path, sizeof path, "%s/image", folder);
    snprintf(unfinished, sizeof unfinished, "%s/image.unfinished", folder);
    d = (struct descriptors){.beside = -1, .path = path, .unfinished = unfinished, .folder = open(folder, O_RDONLY | O_DIRECTORY)};
    for (size_t place = 0; place <= PIFNJARL_PLACES; place++)
        d.connections[place] = -1;
    d.held = open(path, O_RDWR | O_CREAT, 0600);
    assert(d.held >= 0 && flock(d.held, LOCK_EX) == 0 && write(d.held, "abcdefgh", 8) == 8);
    sigemptyset(&signals);
    sigaddset(&signals, SIGUSR1);
    sigaddset(&signals, SIGTERM);
    sigprocmask(SIG_BLOCK, &signals, NULL);
    d.signals = signalfd(-1, &signals, SFD_CLOEXEC | SFD_NONBLOCK);
    d.listener = socket(AF_INET, SOCK_STREAM | SOCK_NONBLOCK | SOCK_CLOEXEC, 0);
    assert(d.signals >= 0 && bind(d.listener, (struct sockaddr *)&local, sizeof local) == 0 && listen(d.listener, 4) == 0);
    try_files();
    try_an_odd_file();
    try_a_new_file();
    try_hosts();
    try_stalled_hosts();
    try_hard_files();
    close(d.held);
    close(d.folder);
    close(d.listener);
    close(d.signals);
    lines_close(&log_lines);
    close(ends[0]);
    close(ends[1]);
    assert(unlink(path) == 0 && rmdir(folder) == 0);
    puts("ok");
    return 0;
}
