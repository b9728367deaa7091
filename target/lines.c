#define _GNU_SOURCE
#include "lines.h"

#include <errno.h>
#include <fcntl.h>
#include <inttypes.h>
#include <poll.h>
#include <stdarg.h>
#include <stdbool.h>
#include <stdio.h>
#include <string.h>
#include <sys/socket.h>
#include <sys/stat.h>
#include <unistd.h>

void line_add(struct line *line, const char *format, ...)
{
    va_list rest;
    size_t room = sizeof line->bytes - line->count;
    va_start(rest, format);
    int more = vsnprintf(line->bytes + line->count, room, format, rest);
    va_end(rest);
    if (more > 0)
        line->count += (size_t)more < room ? (size_t)more : room - 1;
}

/* ---- writing */

/* Writes what fits now. A socket, and what was opened anew, takes it without waiting; of others poll says whether they take something. */
static ssize_t write_now(const struct lines *lines, const char *bytes, size_t count)
{
    struct pollfd polled = {.fd = lines->descriptor, .events = POLLOUT};
    ssize_t sent = send(lines->descriptor, bytes, count, MSG_DONTWAIT | MSG_NOSIGNAL);
    if (sent >= 0 || errno != ENOTSOCK)
        return sent;
    return lines->own >= 0 || poll(&polled, 1, 0) == 1 ? write(lines->descriptor, bytes, count) : -1;
}

/* Writes the rest of a line. Is none left? */
static bool write_rest(struct lines *lines)
{
    struct line *rest = &lines->rest;
    ssize_t written = rest->count == 0 ? 0 : write_now(lines, rest->bytes, rest->count);
    if (written > 0) {
        rest->count -= (size_t)written;
        memmove(rest->bytes, rest->bytes + written, rest->count);
    }
    return rest->count == 0;
}

/* Writes a line. False where none of it could be written now. */
static bool write_line(struct lines *lines, const char *text)
{
    struct line line = {0};
    if (!write_rest(lines))
        return false;
    line_add(&line, "%s%s", lines->before, text);
    line.bytes[line.count++] = '\n';
    ssize_t written = write_now(lines, line.bytes, line.count);
    if (written <= 0)
        return false;
    lines->rest.count = line.count - (size_t)written;
    memcpy(lines->rest.bytes, line.bytes + written, lines->rest.count);
    return true;
}

/* Says how many lines were dropped, if any were. False where that can't be written now. */
static bool say_dropped(struct lines *lines)
{
    char text[64];
    snprintf(text, sizeof text, "lines that were not printed: %" PRIu64, lines->dropped);
    if (lines->dropped > 0 && !write_line(lines, text))
        return false;
    lines->dropped = 0;
    return true;
}

/* Writes a line that stands for so many. */
static void put(struct lines *lines, const char *text, uint64_t count)
{
    if (!say_dropped(lines) || !write_line(lines, text))
        lines->dropped += count;
}

/* ---- kinds */

/* Are two texts the same, but for their digits? */
static bool is_like(const char *one, const char *other)
{
    for (;; one++, other++) {
        one += strspn(one, "0123456789");
        other += strspn(other, "0123456789");
        if (*one != *other || *one == 0)
            return *one == *other;
    }
}

/* The kind of a line, of which this may be the first one. */
static struct line_kind *kind_of(struct lines *lines, const struct line *line)
{
    char like[KIND_BYTES];
    snprintf(like, sizeof like, "%.*s", (int)(line->kind > 0 ? line->kind : line->count), line->bytes);
    struct line_kind *kind = lines->kinds;
    while (kind < lines->kinds + LINE_KINDS - 1 && kind->like[0] != 0 && !is_like(kind->like, like))
        kind++;
    if (kind->like[0] == 0)
        memcpy(kind->like, like, sizeof like);
    return kind;
}

/* Says how many lines of each kind were left out, and begins to count them anew. */
static void say_left_out(struct lines *lines)
{
    char text[KIND_BYTES + 64];
    for (size_t kind = 0; kind < LINE_KINDS && lines->kinds[kind].like[0] != 0; kind++) {
        uint64_t came = lines->kinds[kind].came, more = came > LINES_OF_A_KIND ? came - LINES_OF_A_KIND : 0;
        snprintf(text, sizeof text, "%" PRIu64 " more lines like '%s'", more, lines->kinds[kind].like);
        if (more > 0)
            put(lines, text, more);
        lines->kinds[kind] = (struct line_kind){0};
    }
}

/* ---- lines */

void lines_open(struct lines *lines, int descriptor, const char *before)
{
    char name[32];
    struct stat about;
    *lines = (struct lines){.descriptor = descriptor, .own = -1, .before = before};
    /* a pipe or a terminal is opened anew: other programs have it open, and it may go on waiting for them */
    if (fstat(descriptor, &about) == 0 && (S_ISFIFO(about.st_mode) || S_ISCHR(about.st_mode))) {
        snprintf(name, sizeof name, "/proc/self/fd/%d", descriptor);
        lines->own = open(name, O_WRONLY | O_NONBLOCK | O_NOCTTY | O_CLOEXEC);
    }
    if (lines->own >= 0)
        lines->descriptor = lines->own;
}

void lines_print(struct lines *lines, struct line *line)
{
    lines_go_on(lines);
    if (++kind_of(lines, line)->came <= LINES_OF_A_KIND)
        put(lines, line->bytes, 1);
}

void lines_go_on(struct lines *lines)
{
    struct timespec now;
    clock_gettime(CLOCK_MONOTONIC, &now);
    if (now.tv_sec == lines->second)
        return;
    lines->second = now.tv_sec;
    say_left_out(lines);
    if (write_rest(lines))
        say_dropped(lines);
}

void lines_close(struct lines *lines)
{
    say_left_out(lines);
    if (write_rest(lines))
        say_dropped(lines);
    if (lines->own >= 0)
        close(lines->own);
}
