#define _POSIX_C_SOURCE 200809L

#include "http.h"

#include <errno.h>
#include <poll.h>
#include <stdio.h>
#include <stdlib.h>
#include <string.h>
#include <strings.h>
#include <sys/socket.h>
#include <sys/uio.h>
#include <time.h>
#include <unistd.h>

#define CLOSING_MILLISECONDS 1000 /* to send the last answer of a late client, and to let a client read its last answer */

/* On every answer. The pages load what is theirs and nothing else, and stand in nobody's frame; an answer key is kept nowhere. */
#define FIXED_HEADERS \
    "Cache-Control: no-store\r\n" \
    "X-Content-Type-Options: nosniff\r\n" \
    "Referrer-Policy: no-referrer\r\n" \
    "Cross-Origin-Resource-Policy: same-origin\r\n" \
    "Content-Security-Policy: default-src 'none'; style-src 'self'; script-src 'self'; connect-src 'self'; form-action 'self'; " \
    "base-uri 'none'; frame-ancestors 'none'\r\n"

const struct refusal gone = { 0, "" };
const struct refusal no_memory = { 503, "no memory for this, try again later" };
static const struct refusal late = { 408, "the request took too long" };
static const struct refusal bad_line = { 400, "the request's first line is not a method, an address and HTTP/1.1" };
static const struct refusal bad_header = { 400, "a line of the request's head is no header" };
static const struct refusal bad_host = { 400, "the request does not name exactly one Host" };
static const struct refusal bad_length = {
    400, "the body's length is not clear: send one Content-Length in digits, or Transfer-Encoding: chunked alone"
};
static const struct refusal bad_chunk = { 400, "the body's chunks can't be read" };
static const struct refusal long_head = { 431, "the request's head is longer than 16 KiB" };
static const struct refusal long_body = { 413, "the body is longer than 1 MiB" };
static const struct refusal other_version = { 505, "only HTTP/1.1 and HTTP/1.0 are spoken here" };

const char *phrase(unsigned status)
{
    switch (status) {
    case 200: return "OK";
    case 400: return "Bad Request";
    case 404: return "Not Found";
    case 405: return "Method Not Allowed";
    case 408: return "Request Timeout";
    case 413: return "Content Too Large";
    case 415: return "Unsupported Media Type";
    case 431: return "Request Header Fields Too Large";
    case 503: return "Service Unavailable";
    case 505: return "HTTP Version Not Supported";
    default: return "Internal Server Error";
    }
}

bool append(struct bytes *to, const void *data, size_t length)
{
    if (length == 0)
        return true;
    if (to->room - to->length < length) {
        size_t room = to->room < 512 ? 1024 : to->room * 2;
        if (room < to->length + length)
            room = to->length + length;
        uint8_t *moved = realloc(to->data, room);
        if (moved == NULL)
            return false;
        to->data = moved;
        to->room = room;
    }
    memcpy(to->data + to->length, data, length);
    to->length += length;
    return true;
}

/* ---- The socket, until the deadline ---- */

static int64_t now(void)
{
    struct timespec time;
    clock_gettime(CLOCK_MONOTONIC, &time);
    return (int64_t) time.tv_sec * 1000 + time.tv_nsec / 1000000;
}

/* Waits until the socket can be read or written. The deadline is looked at every time, however busy the socket is. */
static const struct refusal *wait_for(struct connection *connection, short event)
{
    for (;;) {
        int64_t left = connection->deadline - now();
        if (left <= 0)
            return &late;
        struct pollfd watched[2] = { { connection->socket, event, 0 }, { connection->end, POLLIN, 0 } };
        int count = poll(watched, 2, (int) left);
        if (count < 0 && errno != EINTR)
            return &gone;
        if (count > 0 && watched[1].revents != 0)
            return &gone;
        if (count > 0)
            return NULL;
    }
}

/* Gets more bytes into the buffer, which has room for them once what was used is gone. */
static const struct refusal *receive(struct connection *connection)
{
    if (connection->from > 0) {
        connection->to -= connection->from;
        memmove(connection->buffer, connection->buffer + connection->from, connection->to);
        connection->from = 0;
    }
    for (;;) {
        const struct refusal *refusal = wait_for(connection, POLLIN);
        if (refusal != NULL)
            return refusal;
        size_t room = sizeof connection->buffer - connection->to;
        ssize_t count = recv(connection->socket, connection->buffer + connection->to, room, MSG_DONTWAIT);
        if (count > 0) {
            connection->to += (size_t) count;
            return NULL;
        }
        if (count == 0 || (errno != EAGAIN && errno != EWOULDBLOCK && errno != EINTR))
            return &gone;
    }
}

static bool send_parts(struct connection *connection, struct iovec *parts, size_t count)
{
    while (count > 0) {
        if (parts->iov_len == 0) {
            parts++;
            count--;
            continue;
        }
        if (wait_for(connection, POLLOUT) != NULL)
            return false;
        struct msghdr message = { .msg_iov = parts, .msg_iovlen = count };
        ssize_t sent = sendmsg(connection->socket, &message, MSG_DONTWAIT | MSG_NOSIGNAL);
        if (sent < 0 && errno != EAGAIN && errno != EWOULDBLOCK && errno != EINTR)
            return false;
        for (size_t left = sent < 0 ? 0 : (size_t) sent; left > 0;) {
            size_t step = left < parts->iov_len ? left : parts->iov_len;
            parts->iov_base = (char *) parts->iov_base + step;
            parts->iov_len -= step;
            left -= step;
            if (parts->iov_len == 0) {
                parts++;
                count--;
            }
        }
    }
    return true;
}

/* ---- Heads ---- */

/* The next line, a zero byte in the place of its CR LF. Only visible characters, spaces, tabs and bytes above 127 may stand in one.
   It is there until the next receipt. `room` is what lines may still take together. */
static const struct refusal *next_line(struct connection *connection, size_t *room, char **line, const struct refusal *bad)
{
    size_t looked = 0;
    char *start, *stop;
    for (;;) {
        start = connection->buffer + connection->from;
        size_t length = connection->to - connection->from;
        stop = memchr(start + looked, '\n', length - looked);
        if (stop != NULL)
            break;
        looked = length;
        if (length == sizeof connection->buffer || length > *room)
            return &long_head;
        const struct refusal *refusal = receive(connection);
        if (refusal != NULL)
            return refusal;
    }
    size_t length = (size_t) (stop - start) + 1;
    if (length > *room)
        return &long_head;
    *room -= length;
    connection->from += length;
    if (length < 2 || stop[-1] != '\r')
        return bad;
    stop[-1] = '\0';
    for (char *byte = start; byte < stop - 1; byte++)
        if (((unsigned char) *byte < ' ' && *byte != '\t') || *byte == 127)
            return bad;
    *line = start;
    return NULL;
}

/* Letters, digits and the signs that a method or a header's name may have. */
static bool is_token(const char *text)
{
    static const char all[] = "!#$%&'*+-.^_`|~0123456789abcdefghijklmnopqrstuvwxyzABCDEFGHIJKLMNOPQRSTUVWXYZ";
    return *text != '\0' && text[strspn(text, all)] == '\0';
}

/* Cut if it is too long. */
static void copy(char *to, size_t room, const char *text)
{
    size_t length = strlen(text);
    if (length >= room)
        length = room - 1;
    memcpy(to, text, length);
    to[length] = '\0';
}

/* `METHOD ADDRESS HTTP/1.x`, parted by single spaces. */
static const struct refusal *read_first_line(char *line, struct request *request, bool *old)
{
    char *address = strchr(line, ' ');
    char *version = address == NULL ? NULL : strchr(address + 1, ' ');
    if (version == NULL)
        return &bad_line;
    *address++ = '\0';
    *version++ = '\0';
    if (!is_token(line) || strncmp(version, "HTTP/", 5) != 0 || version[5] < '0' || version[5] > '9' || version[6] != '.'
        || version[7] < '0' || version[7] > '9' || version[8] != '\0')
        return &bad_line;
    for (char *byte = address; *byte != '\0'; byte++)
        if ((unsigned char) *byte <= ' ' || (unsigned char) *byte >= 127)
            return &bad_line;
    if (strncasecmp(address, "http://", 7) == 0) { /* as a proxy is asked; servers must read it too */
        address += 7 + strcspn(address + 7, "/?");
        if (*address != '/')
            address = "/";
    }
    if (*address != '/' && strcmp(address, "*") != 0)
        return &bad_line;
    copy(request->method, sizeof request->method, line);
    copy(request->path, sizeof request->path, address);
    request->path[strcspn(request->path, "?")] = '\0';
    if (version[5] != '1')
        return &other_version;
    *old = version[7] == '0';
    return NULL;
}

/* How often each header came that may come but once. */
struct counts {
    unsigned host, length, coding;
};

/* Digits alone, of a number below 2^63. */
static bool read_length(const char *text, uint64_t *length)
{
    uint64_t number = 0;
    for (const char *digit = text; *digit != '\0'; digit++) {
        if (*digit < '0' || *digit > '9' || number > ((uint64_t) INT64_MAX - (uint64_t) (*digit - '0')) / 10)
            return false;
        number = number * 10 + (uint64_t) (*digit - '0');
    }
    *length = number;
    return *text != '\0';
}

/* Whether a word is in a list with commas. */
static bool lists(const char *list, const char *word)
{
    size_t length = strlen(word);
    for (const char *item = list;; item++) {
        item += strspn(item, " \t");
        size_t until = strcspn(item, ", \t");
        if (until == length && strncasecmp(item, word, length) == 0)
            return true;
        item += strcspn(item, ",");
        if (*item == '\0')
            return false;
    }
}

static const struct refusal *read_header(char *line, struct request *request, struct counts *counts)
{
    static const char host[] = "-._~%!$&'()*+;=:[]0123456789abcdefghijklmnopqrstuvwxyzABCDEFGHIJKLMNOPQRSTUVWXYZ";
    char *value = strchr(line, ':');
    if (value == NULL)
        return &bad_header;
    *value++ = '\0';
    if (!is_token(line)) /* a space before the colon, or at the start, where a line goes on with the one before, is refused here */
        return &bad_header;
    value += strspn(value, " \t");
    for (size_t length = strlen(value); length > 0 && (value[length - 1] == ' ' || value[length - 1] == '\t'); length--)
        value[length - 1] = '\0';

    if (strcasecmp(line, "Host") == 0) {
        if (++counts->host > 1 || value[strspn(value, host)] != '\0')
            return &bad_host;
    } else if (strcasecmp(line, "Content-Length") == 0) {
        if (++counts->length > 1 || !read_length(value, &request->length))
            return &bad_length;
    } else if (strcasecmp(line, "Transfer-Encoding") == 0) {
        if (++counts->coding > 1 || strcasecmp(value, "chunked") != 0)
            return &bad_length;
        request->chunked = true;
    } else if (strcasecmp(line, "Content-Type") == 0) {
        if (request->type[0] == '\0')
            copy(request->type, sizeof request->type, value);
    } else if (strcasecmp(line, "Connection") == 0) {
        request->closes = request->closes || lists(value, "close");
    } else if (strcasecmp(line, "Expect") == 0) {
        request->expects = strcasecmp(value, "100-continue") == 0;
    }
    return NULL;
}

static const struct refusal *read_lines(struct connection *connection, struct request *request)
{
    struct counts counts = { 0, 0, 0 };
    size_t room = HEAD_LIMIT;
    bool old = false;
    char *line;
    const struct refusal *refusal = next_line(connection, &room, &line, &bad_line);
    if (refusal == NULL && *line == '\0') /* one empty line before a request does no harm */
        refusal = next_line(connection, &room, &line, &bad_line);
    if (refusal == NULL)
        refusal = read_first_line(line, request, &old);
    while (refusal == NULL) {
        refusal = next_line(connection, &room, &line, &bad_header);
        if (refusal == NULL && *line == '\0')
            break;
        if (refusal == NULL)
            refusal = read_header(line, request, &counts);
    }
    if (refusal != NULL)
        return refusal;
    if (counts.host == 0 && !old)
        return &bad_host;
    if (counts.coding > 0 && (counts.length > 0 || old))
        return &bad_length;
    if (old) {
        request->closes = true;
        request->expects = false;
    }
    return NULL;
}

/* After a refusal nobody knows where a next request would begin; a late client is told so in a moment of grace. */
static const struct refusal *give_up(struct connection *connection, struct request *request, const struct refusal *refusal)
{
    request->closes = true;
    if (refusal == &late)
        connection->deadline = now() + CLOSING_MILLISECONDS;
    return refusal;
}

const struct refusal *read_head(struct connection *connection, struct request *request)
{
    *request = (struct request) { .closes = false };
    int seconds = connection->seconds < IDLE_SECONDS ? connection->seconds : IDLE_SECONDS;
    connection->deadline = now() + (int64_t) seconds * 1000;
    if (connection->from == connection->to && receive(connection) != NULL)
        return &gone;
    connection->deadline = now() + (int64_t) connection->seconds * 1000;
    const struct refusal *refusal = read_lines(connection, request);
    return refusal == NULL ? NULL : give_up(connection, request, refusal);
}

/* ---- Bodies ---- */

struct intake {
    struct bytes *body; /* what has come in, until the request is refused */
    size_t received;
    const struct refusal *refusal;
};

/* A piece of the body. The result is why no more is read; that the request is refused is no cause yet. */
static const struct refusal *take(struct connection *connection, struct intake *intake, uint64_t length)
{
    while (length > 0) {
        if (connection->from == connection->to) {
            const struct refusal *refusal = receive(connection);
            if (refusal != NULL)
                return refusal;
        }
        size_t piece = connection->to - connection->from;
        if (piece > length)
            piece = (size_t) length;
        intake->received += piece;
        if (intake->refusal == NULL && intake->received > BODY_LIMIT)
            intake->refusal = &long_body;
        if (intake->refusal == NULL && !append(intake->body, connection->buffer + connection->from, piece))
            intake->refusal = &no_memory;
        if (intake->received > DISCARD_LIMIT)
            return intake->refusal;
        connection->from += piece;
        length -= piece;
    }
    return NULL;
}

/* One to fifteen hexadecimal digits, then nothing or a semicolon and what nobody reads. */
static bool read_chunk_length(const char *line, uint64_t *length)
{
    size_t digits = strspn(line, "0123456789abcdefABCDEF");
    if (digits == 0 || digits > 15 || (line[digits] != '\0' && line[digits] != ';'))
        return false;
    *length = strtoull(line, NULL, 16);
    return true;
}

static const struct refusal *take_chunks(struct connection *connection, struct intake *intake)
{
    const struct refusal *refusal;
    char *line;
    for (;;) {
        uint64_t length;
        size_t room = HEAD_LIMIT;
        if ((refusal = next_line(connection, &room, &line, &bad_chunk)) != NULL)
            return refusal;
        if (!read_chunk_length(line, &length))
            return &bad_chunk;
        if (length == 0)
            break;
        if ((refusal = take(connection, intake, length)) != NULL || (refusal = next_line(connection, &room, &line, &bad_chunk)) != NULL)
            return refusal;
        if (*line != '\0')
            return &bad_chunk;
    }
    size_t room = HEAD_LIMIT;
    do { /* headers behind the body, which nobody reads */
        if ((refusal = next_line(connection, &room, &line, &bad_chunk)) != NULL)
            return refusal;
    } while (*line != '\0');
    return NULL;
}

const struct refusal *read_body(struct connection *connection, struct request *request, const struct refusal *refusal, struct bytes *body)
{
    if (refusal == NULL && request->length > BODY_LIMIT)
        refusal = &long_body;
    if (refusal != NULL && (request->expects || request->length > DISCARD_LIMIT)) {
        request->closes = true;
        return refusal;
    }
    if (request->expects && connection->from == connection->to && (request->chunked || request->length > 0)) {
        char text[] = "HTTP/1.1 100 Continue\r\n\r\n";
        struct iovec part = { text, sizeof text - 1 };
        if (!send_parts(connection, &part, 1))
            return give_up(connection, request, &gone);
    }
    struct intake intake = { body, 0, refusal };
    const struct refusal *stopped = request->chunked ? take_chunks(connection, &intake) : take(connection, &intake, request->length);
    return stopped == NULL ? intake.refusal : give_up(connection, request, stopped);
}

/* ---- Answers ---- */

bool send_answer(struct connection *connection, const struct request *request, const struct answer *answer)
{
    struct iovec parts[1 + ANSWER_PARTS];
    size_t length = 0;
    for (size_t i = 0; i < answer->count; i++) {
        parts[1 + i] = (struct iovec) { (void *) answer->parts[i].data, answer->parts[i].length };
        length += answer->parts[i].length;
    }
    char date[40], head[1024];
    struct tm parted;
    time_t seconds = time(NULL);
    gmtime_r(&seconds, &parted);
    strftime(date, sizeof date, "%a, %d %b %Y %H:%M:%S GMT", &parted);
    bool allow = answer->allow != NULL;
    int written = snprintf(head, sizeof head,
                           "HTTP/1.1 %u %s\r\nDate: %s\r\nContent-Type: %s\r\nContent-Length: %zu\r\n" FIXED_HEADERS "%s%s%s%s\r\n",
                           answer->status, phrase(answer->status), date, answer->type, length,
                           allow ? "Allow: " : "", allow ? answer->allow : "", allow ? "\r\n" : "",
                           request->closes ? "Connection: close\r\n" : "");
    if (written < 0 || (size_t) written >= sizeof head)
        return false;
    parts[0] = (struct iovec) { head, (size_t) written };
    return send_parts(connection, parts, strcmp(request->method, "HEAD") == 0 ? 1 : 1 + answer->count);
}

/* A socket that is closed with bytes unread tells the client so at once, and it may lose the answer; so those are read and thrown away for
   a moment. Of an answer that was not taken in time nothing is kept. */
void hang_up(struct connection *connection, bool answered)
{
    if (answered) {
        shutdown(connection->socket, SHUT_WR);
        int64_t until = now() + CLOSING_MILLISECONDS;
        if (connection->deadline > until)
            connection->deadline = until;
        size_t drained = 0;
        do {
            drained += connection->to;
            connection->from = connection->to = 0;
        } while (drained < DISCARD_LIMIT && receive(connection) == NULL);
    } else {
        struct linger at_once = { 1, 0 };
        setsockopt(connection->socket, SOL_SOCKET, SO_LINGER, &at_once, sizeof at_once);
    }
    close(connection->socket);
}
