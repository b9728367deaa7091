/* Makes the operations of a loop. There is no decision here: which operation comes next, and what its answer means, the library knows. */
#define _GNU_SOURCE
#include "operations.h"
#include "image_file.h"

#include <errno.h>
#include <netinet/tcp.h>
#include <poll.h>
#include <signal.h>
#include <stdio.h>
#include <string.h>
#include <sys/file.h>
#include <sys/signalfd.h>
#include <sys/socket.h>
#include <time.h>
#include <unistd.h>

#define OUTGOING 262144 /* bytes that are sent at once */

enum { IDLE = 60, INTERVAL = 10, PROBES = 6 }; /* of TCP's keepalive, in seconds: a host that is gone is noticed after two minutes */

enum { LISTENER = PIFNJARL_PLACES, SIGNALS, POLLED }; /* what is polled beside connections */

static unsigned char incoming[PIFNJARL_INCOMING], outgoing[OUTGOING];

static uint32_t answer_of(int result) /* of a call that gives -1 where it fails */
{
    bool waits = errno == EAGAIN || errno == EINTR;
    bool is_full = errno == EMFILE || errno == ENFILE || errno == ENOBUFS || errno == ENOMEM || errno == ENOSPC;
    return result >= 0 ? PIFNJARL_DID : waits ? PIFNJARL_AGAIN : is_full ? PIFNJARL_FULL : PIFNJARL_FAILED;
}

static uint32_t close_one(int *descriptor) /* where there is one */
{
    if (*descriptor >= 0)
        close(*descriptor);
    *descriptor = -1;
    return PIFNJARL_DID;
}

static size_t watch(struct pollfd *polled, size_t *of, size_t count, int descriptor, int events, size_t what) /* where there is one */
{
    if (descriptor < 0)
        return count;
    polled[count] = (struct pollfd){.fd = descriptor, .events = (short)events};
    of[count] = what;
    return count + 1;
}

static uint32_t await(struct descriptors *d, const struct pifnjarl_operation *o, struct pifnjarl_answer *a)
{
    struct pollfd polled[POLLED];
    size_t of[POLLED], count = 0;
    for (size_t place = 0; place < PIFNJARL_PLACES; place++)
        count = watch(polled, of, count, d->connections[place], (o->reads[place] ? POLLIN : 0) | (o->writes[place] ? POLLOUT : 0), place);
    count = watch(polled, of, count, o->flag ? d->listener : -1, POLLIN, LISTENER);
    count = watch(polled, of, count, d->signals, POLLIN, SIGNALS);
    int ready = poll(polled, (nfds_t)count, (int)o->number);
    if (ready < 0 && errno != EINTR)
        poll(NULL, 0, (int)o->number); /* time goes on all the same */
    for (size_t one = 0; ready > 0 && one < count; one++)
        if (of[one] < PIFNJARL_PLACES) {
            a->reads[of[one]] = (polled[one].revents & ~POLLOUT) != 0;
            a->writes[of[one]] = (polled[one].revents & ~POLLIN) != 0;
        } else if (polled[one].revents != 0) {
            a->number += of[one] == LISTENER ? PIFNJARL_ACCEPTS : PIFNJARL_SIGNALS;
        }
    return PIFNJARL_HAPPENED;
}

static uint32_t take_signal(struct descriptors *d, struct pifnjarl_answer *a)
{
    struct signalfd_siginfo which;
    bool is_there = read(d->signals, &which, sizeof which) == (ssize_t)sizeof which;
    a->number = is_there && which.ssi_signo != SIGUSR1;
    return is_there ? PIFNJARL_SIGNALLED : PIFNJARL_AGAIN;
}

static uint32_t tell_time(struct pifnjarl_answer *a)
{
    struct timespec at;
    clock_gettime(CLOCK_MONOTONIC, &at);
    a->number = (uint64_t)at.tv_sec * 1000000 + (uint64_t)at.tv_nsec / 1000;
    return PIFNJARL_TIME;
}

static void set_option(int connection, int level, int option, int value)
{
    setsockopt(connection, level, option, &value, sizeof value);
}

static uint32_t accept_host(struct descriptors *d, size_t place)
{
    struct address *peer = &d->peers[place];
    *peer = (struct address){.bytes = sizeof peer->at};
    d->connections[place] = accept4(d->listener, &peer->at.any, &peer->bytes, SOCK_NONBLOCK | SOCK_CLOEXEC);
    uint32_t came = answer_of(d->connections[place]);
    if (came != PIFNJARL_DID)
        return came;
    set_option(d->connections[place], SOL_TCP, TCP_NODELAY, 1);
    set_option(d->connections[place], SOL_SOCKET, SO_KEEPALIVE, 1);
    set_option(d->connections[place], SOL_TCP, TCP_KEEPIDLE, IDLE);
    set_option(d->connections[place], SOL_TCP, TCP_KEEPINTVL, INTERVAL);
    set_option(d->connections[place], SOL_TCP, TCP_KEEPCNT, PROBES);
    return PIFNJARL_DID;
}

static uint32_t read_host(struct descriptors *d, size_t place, size_t *count)
{
    ssize_t came = read(d->connections[place], incoming, sizeof incoming);
    *count = came > 0 ? (size_t)came : 0;
    return came > 0 ? PIFNJARL_CAME : came == 0 ? PIFNJARL_FAILED : answer_of(-1);
}

static uint32_t write_host(struct descriptors *d, unsigned char *handle, size_t place, struct pifnjarl_answer *a)
{
    size_t count = pifnjarl_loop_carried(handle, 0, outgoing, sizeof outgoing);
    ssize_t taken = send(d->connections[place], outgoing, count, MSG_NOSIGNAL);
    a->number = taken > 0 ? (uint64_t)taken : 0;
    return taken >= 0 ? PIFNJARL_TAKEN : answer_of(-1);
}

static uint32_t write_file(unsigned char *handle, int file, const struct pifnjarl_operation *o) /* all that it carries */
{
    for (size_t done = 0; done < o->carried;) {
        size_t count = pifnjarl_loop_carried(handle, done, outgoing, sizeof outgoing);
        ssize_t written = pwrite(file, outgoing, count, (off_t)(o->number + done));
        if (written == 0 || (written < 0 && errno != EINTR))
            return written == 0 ? PIFNJARL_FAILED : answer_of(-1);
        done += written > 0 ? (size_t)written : 0;
    }
    return PIFNJARL_DID;
}

static uint32_t create(struct descriptors *d)
{
    struct stat before;
    d->beside = image_file_create(d->unfinished, 0600);
    bool made = d->beside >= 0 && flock(d->beside, LOCK_EX | LOCK_NB) == 0 && fstat(d->held, &before) == 0;
    return made && image_file_take_after(d->beside, &before) ? PIFNJARL_DID : PIFNJARL_FAILED;
}

static uint32_t give_name(struct descriptors *d)
{
    uint32_t came = answer_of(rename(d->unfinished, d->path));
    if (came == PIFNJARL_DID) {
        close_one(&d->held); /* and with it the lock: the new file has one */
        d->held = d->beside;
        d->beside = -1;
    }
    return came;
}

static uint32_t discard(struct descriptors *d)
{
    if (d->beside >= 0)
        unlink(d->unfinished);
    return close_one(&d->beside);
}

static void add_peer(const struct descriptors *d, struct line *line) /* to the line of a connection that begins */
{
    size_t place;
    int bytes = 0;
    char text[ADDRESS_BYTES];
    line->kind = line->count;
    if (sscanf(line->bytes, "connection %zu begins%n", &place, &bytes) != 1 || (size_t)bytes != line->count || place >= PIFNJARL_PLACES)
        return;
    address_spell(&d->peers[place], text);
    line_add(line, " from %s", text);
}

static uint32_t print(struct descriptors *d, unsigned char *handle, struct lines *log)
{
    struct line line = {0};
    size_t count = pifnjarl_loop_carried(handle, 0, outgoing, sizeof outgoing);
    for (size_t one = 0; one < count; one++)
        if (outgoing[one] == PIFNJARL_CAUSE && d->cause == EEXIST)
            line_add(&line, "%s is no ordinary file", d->unfinished);
        else if (outgoing[one] == PIFNJARL_PATH || outgoing[one] == PIFNJARL_CAUSE)
            line_add(&line, "%s", outgoing[one] == PIFNJARL_PATH ? d->path : strerror(d->cause));
        else
            line_add(&line, "%c", outgoing[one]);
    add_peer(d, &line);
    lines_print(log, &line);
    return PIFNJARL_DID;
}

static uint32_t make(struct descriptors *d, unsigned char *handle, const struct pifnjarl_operation *o, struct pifnjarl_answer *a,
                     size_t *came, struct lines *log)
{
    switch ((enum pifnjarl_operation_kind)o->kind) {
    case PIFNJARL_POLL: lines_go_on(log); return await(d, o, a);
    case PIFNJARL_SIGNAL: return take_signal(d, a);
    case PIFNJARL_NOW: return tell_time(a);
    case PIFNJARL_ACCEPT: return accept_host(d, o->number);
    case PIFNJARL_READ: return read_host(d, o->number, came);
    case PIFNJARL_WRITE: return write_host(d, handle, o->number, a);
    case PIFNJARL_CLOSE: return close_one(&d->connections[o->number]);
    case PIFNJARL_PWRITE: return write_file(handle, o->flag ? d->beside : d->held, o);
    case PIFNJARL_FTRUNCATE: return answer_of(ftruncate(d->held, (off_t)o->number));
    case PIFNJARL_FSYNC: return answer_of(fsync(o->flag ? d->beside : d->held));
    case PIFNJARL_CREATE: return create(d);
    case PIFNJARL_RENAME: return give_name(d);
    case PIFNJARL_SYNC_FOLDER: return answer_of(fsync(d->folder));
    case PIFNJARL_DISCARD: return discard(d);
    case PIFNJARL_LOG: return print(d, handle, log);
    case PIFNJARL_END: break;
    }
    return PIFNJARL_FAILED;
}

bool make_operations(struct descriptors *d, unsigned char *handle, struct pifnjarl_operation *operation, struct lines *log)
{
    while (operation->kind != PIFNJARL_END) {
        struct pifnjarl_answer answer = {0};
        size_t came = 0;
        answer.kind = make(d, handle, operation, &answer, &came, log);
        if (operation->kind >= PIFNJARL_PWRITE && (answer.kind == PIFNJARL_FAILED || answer.kind == PIFNJARL_FULL))
            d->cause = errno; /* of a file's operation: a line may tell it later */
        pifnjarl_loop_step(handle, &answer, incoming, came, operation);
    }
    return operation->flag != 0;
}
