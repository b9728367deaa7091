/* Serves an image as an NVMe/TCP target: nvme_tcp IMAGE [--memory] [--listen ADDRESS:PORT] [-v]. All that is known of NVMe, and the loop
   that serves hosts, stand in crates/device_library: here the image is opened and locked, a socket listens, and the operations are made
   that the loop asks for (operations.c). A journal takes the image's place, and what is sent to hosts answers only what is on the disk; or
   with --memory the image is saved once, upon the signal that ends the program: SIGTERM, SIGINT, SIGHUP or SIGQUIT. */
#define _GNU_SOURCE
#include "address.h"
#include "image_uuid.h"
#include "kept_file.h"
#include "operations.h"
#include "pifnjarl_handle.h"

#include <errno.h>
#include <fcntl.h>
#include <inttypes.h>
#include <limits.h>
#include <netinet/in.h>
#include <signal.h>
#include <stddef.h>
#include <stdio.h>
#include <stdlib.h>
#include <string.h>
#include <sys/signalfd.h>
#include <sys/socket.h>
#include <sys/un.h>
#include <unistd.h>

/* the image, whether it is kept as a journal, and how much is told of serving it */
struct image {
    struct kept_file kept;
    bool is_durable;
    size_t level;
};

/* ---- errors */

static void complain(const char *what, const char *name, const char *why)
{
    fprintf(stderr, "%s: %s %s: %s\n", program_invocation_short_name, what, name, why);
}

static void complain_of_call(const char *what, const char *name)
{
    complain(what, name, strerror(errno));
}

static void complain_of_listening(const struct address *address)
{
    char text[ADDRESS_BYTES];
    address_spell(address, text);
    complain_of_call("cannot listen at", text);
}

/* Why a file can't be written to which a path leads: the new one that is to take its place may be what is wrong. */
static void complain_of_writing(const char *path)
{
    char unfinished[PATH_MAX];
    bool is_odd = errno == EEXIST && (size_t)snprintf(unfinished, sizeof unfinished, "%s.unfinished", path) < sizeof unfinished;
    complain("cannot write", is_odd ? unfinished : path, is_odd ? "it is no ordinary file" : strerror(errno));
}

/* Why there is no target on these bytes. */
static void complain_of_opening(const char *name, size_t opened, struct pifnjarl_maker maker)
{
    char other[100];
    snprintf(other, sizeof other, "made by version %" PRIu64 " of the device (profile %" PRIu64 "); open it with that", maker.version, maker.profile);
    complain("cannot serve", name,
             opened == PIFNJARL_OTHER_VERSION ? other
             : opened == PIFNJARL_DAMAGED     ? "it is a journal that is damaged"
                                              : pifnjarl_words((enum pifnjarl_result)opened));
}

/* ---- the image */

/* Opens a target on the image that is held, in memory of malloc. */
static unsigned char *open_target(struct image *image)
{
    size_t count;
    unsigned char *bytes = kept_file_read(&image->kept, &count);
    if (bytes == NULL) {
        complain_of_call("cannot read", image->kept.path);
        return NULL;
    }
    unsigned char *target = malloc(pifnjarl_handle_bytes());
    if (target != NULL)
        pifnjarl_handle_open(target, image->is_durable ? PIFNJARL_OPEN_TARGET_FILE : PIFNJARL_OPEN_TARGET, bytes, count);
    struct pifnjarl_maker maker = pifnjarl_maker_of(bytes, count);
    free(bytes);
    size_t opened = target == NULL ? PIFNJARL_WANT_OF_MEMORY : pifnjarl_opened(target);
    if (opened == PIFNJARL_DONE && kept_file_make_calls(&image->kept, target))
        return target;
    if (opened == PIFNJARL_DONE)
        complain_of_writing(image->kept.path);
    else
        complain_of_opening(image->kept.path, opened, maker);
    if (target != NULL)
        pifnjarl_handle_end(target);
    free(target);
    return NULL;
}

/* ---- the loop */

/* A socket that listens at an address, or -1. [::] is each address of this machine, also of IPv4. */
static int listen_at(const struct address *address)
{
    int yes = 1, no = 0;
    bool is_six = address->at.any.sa_family == AF_INET6;
    int listener = socket(address->at.any.sa_family, SOCK_STREAM | SOCK_NONBLOCK | SOCK_CLOEXEC, 0);
    if (listener < 0 || setsockopt(listener, SOL_SOCKET, SO_REUSEADDR, &yes, sizeof yes) != 0
        || (is_six && setsockopt(listener, IPPROTO_IPV6, IPV6_V6ONLY, &no, sizeof no) != 0)
        || bind(listener, &address->at.any, address->bytes) != 0 || listen(listener, PIFNJARL_CONNECTIONS) != 0)
        return -1;
    return listener;
}

/* Says where it listens, and by which name hosts know it, to whoever reads it. */
static bool announce(unsigned char *target, int listener)
{
    static struct lines out;
    struct line place = {0}, known = {0};
    unsigned char name[PIFNJARL_NQN_BYTES];
    int name_bytes = (int)pifnjarl_target_nqn(target, name, sizeof name);
    char text[ADDRESS_BYTES];
    struct address address = {.bytes = sizeof address.at};
    if (getsockname(listener, &address.at.any, &address.bytes) != 0)
        return false;
    address_spell(&address, text);
    line_add(&place, "listening on %s", text);
    line_add(&known, "%.*s", name_bytes, (const char *)name);
    lines_open(&out, STDOUT_FILENO, "");
    lines_print(&out, &place);
    lines_print(&out, &known);
    lines_close(&out);
    return true;
}

/* Says to the service manager that hosts are served from now on, if it waits for that: NOTIFY_SOCKET names its socket, with @ in front of a
   name that no file has (sd_notify(3)). */
static void notify_ready(void)
{
    static const char ready[] = "READY=1";
    struct sockaddr_un to = {.sun_family = AF_UNIX};
    const char *name = getenv("NOTIFY_SOCKET");
    if (name == NULL)
        return;
    size_t count = strlen(name) < sizeof to.sun_path ? strlen(name) : 0; /* a longer one is none */
    socklen_t bytes = (socklen_t)(offsetof(struct sockaddr_un, sun_path) + count);
    memcpy(to.sun_path, name, count);
    if (to.sun_path[0] == '@')
        to.sun_path[0] = 0;
    int notifier = socket(AF_UNIX, SOCK_DGRAM | SOCK_CLOEXEC, 0);
    if (notifier < 0 || sendto(notifier, ready, sizeof ready - 1, MSG_NOSIGNAL, (struct sockaddr *)&to, bytes) < 0)
        complain_of_call("cannot report to", name);
    if (notifier >= 0)
        close(notifier);
}

/* Makes the operations of the loop until it ends, and says whether it has done all. */
static bool serve(unsigned char *target, struct image *image, int listener, int signals)
{
    static struct lines log;
    char before[NAME_MAX + 3];
    struct kept_file *kept = &image->kept;
    struct pifnjarl_operation first;
    struct descriptors d = {.listener = listener, .signals = signals, .held = kept->file, .beside = -1, .path = kept->path,
                            .unfinished = kept->unfinished};
    for (size_t place = 0; place <= PIFNJARL_PLACES; place++)
        d.connections[place] = -1;
    d.folder = open(kept->folder, O_RDONLY | O_DIRECTORY | O_CLOEXEC);
    if (d.folder < 0) {
        complain_of_call("cannot open", kept->folder);
        return false;
    }
    bool begun = pifnjarl_loop_begin(target, image->level, &first);
    if (!begun)
        complain("cannot serve", kept->path, "memory is wanting");
    snprintf(before, sizeof before, "%s: ", program_invocation_short_name);
    lines_open(&log, STDERR_FILENO, before);
    bool done = begun && make_operations(&d, target, &first, &log);
    lines_close(&log);
    kept->file = d.held;
    kept->written = d.beside;
    close(d.folder);
    return done;
}

/* Holds the image at `path`. */
static bool hold(struct image *image, const char *path)
{
    enum kept_result opened = kept_file_open(&image->kept, path);
    if (opened != KEPT_OPENED)
        complain("cannot open", path, opened == KEPT_IN_USE ? "it is in use" : strerror(errno));
    return opened == KEPT_OPENED;
}

/* Has the target take the names that come of the image's UUID. */
static bool name_target(unsigned char *target, const struct image *image)
{
    char path[PATH_MAX];
    unsigned char uuid[IMAGE_UUID_BYTES];
    errno = ENAMETOOLONG;
    bool taken = (size_t)snprintf(path, sizeof path, "%s.uuid", image->kept.path) < sizeof path && image_uuid_take(path, uuid);
    if (!taken && errno == EEXIST)
        complain_of_writing(path);
    else if (!taken)
        complain("cannot take a UUID from", path, errno == EINVAL ? "it is no ordinary file with one" : strerror(errno));
    else if (!pifnjarl_target_name(target, uuid))
        complain("cannot serve", image->kept.path, "memory is wanting");
    else
        return true;
    return false;
}

/* Serves the image at `path` at an address until a signal comes. */
static bool run(struct image *image, const char *path, const struct address *address, int signals)
{
    if (!hold(image, path))
        return false;
    unsigned char *target = open_target(image);
    if (target == NULL)
        return false;
    bool named = name_target(target, image);
    int listener = named ? listen_at(address) : -1;
    bool listens = listener >= 0 && announce(target, listener);
    if (named && !listens)
        complain_of_listening(address);
    if (listens)
        notify_ready();
    bool done = listens && serve(target, image, listener, signals);
    pifnjarl_handle_end(target);
    free(target);
    return done;
}

/* The words of the command line; --durable says what is so without it. False where they are wrong. */
static bool read_words(int words, char **word, struct image *image, const char **place)
{
    bool has_durable = false, has_place = false;
    image->is_durable = true;
    *place = "127.0.0.1:4420";
    for (int next = 2; next < words; next++) {
        if (strcmp(word[next], "--memory") == 0 && image->is_durable)
            image->is_durable = false;
        else if (strcmp(word[next], "--durable") == 0 && !has_durable)
            has_durable = true;
        else if (strcmp(word[next], "-v") == 0 || strcmp(word[next], "-vv") == 0)
            image->level += word[next][2] == 0 ? 1 : 2;
        else if (strcmp(word[next], "--listen") == 0 && next + 1 < words && !has_place)
            has_place = (*place = word[++next]) != NULL;
        else
            return false;
    }
    return words >= 2 && (image->is_durable || !has_durable);
}

/* A descriptor that is ready when a signal has come which ends the program, or SIGUSR1; -1 where there is none. */
static int take_signals(void)
{
    struct sigaction hangup;
    sigset_t ends;
    sigemptyset(&ends);
    sigaddset(&ends, SIGTERM);
    sigaddset(&ends, SIGINT);
    sigaddset(&ends, SIGQUIT);
    sigaddset(&ends, SIGUSR1);
    if (sigaction(SIGHUP, NULL, &hangup) == 0 && hangup.sa_handler != SIG_IGN) /* nohup has it ignored */
        sigaddset(&ends, SIGHUP);
    sigprocmask(SIG_BLOCK, &ends, NULL);
    return signalfd(-1, &ends, SFD_CLOEXEC | SFD_NONBLOCK);
}

static void print_usage(FILE *to)
{
    fprintf(to, "usage: %s IMAGE [--memory] [--listen ADDRESS:PORT] [-v]\n", program_invocation_short_name);
}

/* Has standard input, output and error lead somewhere, so that no file which is opened gets the number of one, and no message goes into
   it. */
static bool open_streams(void)
{
    int stream;
    do
        stream = open("/dev/null", O_RDWR);
    while (stream >= 0 && stream <= STDERR_FILENO);
    if (stream > STDERR_FILENO)
        close(stream);
    return stream >= 0;
}

int main(int words, char **word)
{
    if (!open_streams())
        return 1;
    signal(SIGPIPE, SIG_IGN); /* who reads what is printed may go away */
    if (words == 2 && strcmp(word[1], "--help") == 0) {
        print_usage(stdout);
        return 0;
    }
    static char line[4096];
    setvbuf(stderr, line, _IOLBF, sizeof line); /* a line is written as one */
    struct image image = {.kept.file = -1};
    struct address address;
    const char *place;
    if (!read_words(words, word, &image, &place)) {
        print_usage(stderr);
        return 2;
    }
    if (!address_read(&address, place)) {
        complain("cannot listen at", place, "it is no ADDRESS:PORT, as 127.0.0.1:4420 or [::1]:4420");
        return 2;
    }
    int signals = take_signals();
    if (signals < 0) {
        complain_of_call("cannot open", word[1]);
        return 1;
    }
    bool done = run(&image, word[1], &address, signals);
    kept_file_close(&image.kept);
    return done ? 0 : 1;
}
