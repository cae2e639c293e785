/* A web server for answer keys: it runs the plot hub's line program (document 01) on the sittings that it is sent.

       GET  /         a page to type a sitting, with its style sheet and scripts
       POST /key      the page's form: the page again, with the sitting and its key
       POST /key.txt  for programs: the sitting as the body, the key as the answer, byte for byte

   A sitting may hold any byte, so everything here goes by lengths; nothing ends at a zero byte. */

#define _POSIX_C_SOURCE 200809L

#include <arpa/inet.h>
#include <errno.h>
#include <malloc.h>
#include <netinet/in.h>
#include <netinet/tcp.h>
#include <poll.h>
#include <pthread.h>
#include <signal.h>
#include <stdio.h>
#include <stdlib.h>
#include <string.h>
#include <strings.h>
#include <sys/socket.h>
#include <unistd.h>

#include "http.h"
#include "plot_hub.h"

/* No key is longer than KEY_FACTOR * sitting + KEY_EXTRA bytes, see README.md. */
#define KEY_FACTOR ((size_t) 32)
#define KEY_EXTRA ((size_t) 1024)

#define CONNECTIONS 256              /* each has its thread */
#define STACK ((size_t) 512 * 1024)  /* the line program needs 128 KB at most */
#define REQUEST_SECONDS 30           /* for a whole request and its answer */

#define FIELD "sitting"
#define TEXT "text/plain; charset=utf-8"
#define HTML "text/html; charset=utf-8"
#define STYLE "text/css; charset=utf-8"
#define SCRIPT "text/javascript; charset=utf-8"

/* Document 01's listing. */
#define LISTING "O 3 2 1\nS 0 0 50 1 0 20\nS 0 0 70\nN 2\nD 2\nN 2\nN 1\nD 1\nF 0\nC 1\nR 0 15\n"

/* ---- The files of the page, put in by the assembler: none is read when the server runs ---- */

#define FILE_IN_PROGRAM(name, file) \
    __asm__(".section .rodata\n" #name ":\n.incbin \"" file "\"\n" #name "_end:\n.previous\n"); \
    extern const char name[], name##_end[]

FILE_IN_PROGRAM(page_html, "page.html");
FILE_IN_PROGRAM(error_html, "error.html");
FILE_IN_PROGRAM(style_css, "style.css");
FILE_IN_PROGRAM(order_js, "order.js");
FILE_IN_PROGRAM(reasons_js, "reasons.js");
FILE_IN_PROGRAM(page_js, "page.js");

/* A page with two places to fill, and what stands around them. */
struct template {
    struct span before, between, after;
};

static struct template page_template, error_template;

static const char *find(const char *from, const char *end, const char *text, size_t length)
{
    for (; (size_t) (end - from) >= length; from++)
        if (memcmp(from, text, length) == 0)
            return from;
    return NULL;
}

/* False unless the two marks stand in the file once each, in this order. */
static bool split(struct template *template, const char *start, const char *end, const char *first, const char *second)
{
    size_t first_length = strlen(first), second_length = strlen(second);
    const char *at = find(start, end, first, first_length);
    const char *then = find(start, end, second, second_length);
    if (at == NULL || then == NULL || then < at || find(at + 1, end, first, first_length) != NULL
        || find(then + 1, end, second, second_length) != NULL)
        return false;
    template->before = (struct span) { start, (size_t) (at - start) };
    at += first_length;
    template->between = (struct span) { at, (size_t) (then - at) };
    then += second_length;
    template->after = (struct span) { then, (size_t) (end - then) };
    return true;
}

/* ---- Bytes ---- */

/* Empty bytes have a place too: the line program is never lent NULL. */
static uint8_t *place(const struct bytes *bytes)
{
    static uint8_t nowhere[1];
    return bytes->data == NULL ? nowhere : bytes->data;
}

static struct span text_span(const char *text)
{
    return (struct span) { text, strlen(text) };
}

static bool append_span(struct bytes *to, struct span span)
{
    return append(to, span.data, span.length);
}

static bool append_escaped(struct bytes *to, const uint8_t *data, size_t length)
{
    size_t plain = 0; /* where the bytes begin that need no escape and are not yet appended */
    for (size_t i = 0; i < length; i++) {
        const char *escape;
        switch (data[i]) {
        case '&': escape = "&amp;"; break;
        case '<': escape = "&lt;"; break;
        case '>': escape = "&gt;"; break;
        case '"': escape = "&quot;"; break;
        case '\'': escape = "&#39;"; break;
        default: continue;
        }
        if (!append(to, data + plain, i - plain) || !append(to, escape, strlen(escape)))
            return false;
        plain = i + 1;
    }
    return append(to, data + plain, length - plain);
}

/* ---- Addresses ---- */

enum kind { FORM, ASSET, KEY, KEY_TEXT };

struct address {
    const char *path;
    enum kind kind;
    const char *type; /* and, of an asset, its bytes */
    const char *start, *end;
};

static const struct address addresses[] = {
    { "/", FORM, HTML, NULL, NULL },
    { "/key", KEY, HTML, NULL, NULL },
    { "/key.txt", KEY_TEXT, TEXT, NULL, NULL },
    { "/style.css", ASSET, STYLE, style_css, style_css_end },
    { "/order.js", ASSET, SCRIPT, order_js, order_js_end },
    { "/reasons.js", ASSET, SCRIPT, reasons_js, reasons_js_end },
    { "/page.js", ASSET, SCRIPT, page_js, page_js_end },
};

/* NULL: none of the server's. */
static const struct address *find_address(const char *path)
{
    for (size_t i = 0; i < sizeof addresses / sizeof addresses[0]; i++)
        if (strcmp(path, addresses[i].path) == 0)
            return &addresses[i];
    return NULL;
}

static const char *allowed(const struct address *address)
{
    return address->kind == KEY || address->kind == KEY_TEXT ? "POST" : "GET, HEAD";
}

static const struct refusal no_address = { 404, "there is no such address here" };
static const struct refusal other_method = { 405, "this address is for another method" };
static const struct refusal other_type = { 415, "/key reads application/x-www-form-urlencoded and multipart/form-data" };
static const struct refusal no_field = { 400, "the form has no field '" FIELD "', or can't be read" };
static const struct refusal no_key = { 500, "the line program gave no key" };

/* What the head tells already. */
static const struct refusal *check(const struct request *request, const struct address *address)
{
    if (address == NULL)
        return &no_address;
    bool get = strcmp(request->method, "GET") == 0 || strcmp(request->method, "HEAD") == 0;
    bool post = strcmp(request->method, "POST") == 0;
    return (address->kind == KEY || address->kind == KEY_TEXT ? post : get) ? NULL : &other_method;
}

/* ---- From a form to a sitting ---- */

static int hex_digit(uint8_t byte)
{
    if (byte >= '0' && byte <= '9')
        return byte - '0';
    if (byte >= 'a' && byte <= 'f')
        return byte - 'a' + 10;
    if (byte >= 'A' && byte <= 'F')
        return byte - 'A' + 10;
    return -1;
}

/* Decodes a name or a value of application/x-www-form-urlencoded in its place; the result is its length, never above the one before.
   A percent sign without two digits stays as it is, as browsers have it. */
static size_t decode(uint8_t *data, size_t length)
{
    size_t to = 0;
    for (size_t from = 0; from < length; from++) {
        uint8_t byte = data[from];
        if (byte == '+') {
            byte = ' ';
        } else if (byte == '%' && length - from > 2 && hex_digit(data[from + 1]) >= 0 && hex_digit(data[from + 2]) >= 0) {
            byte = (uint8_t) (hex_digit(data[from + 1]) * 16 + hex_digit(data[from + 2]));
            from += 2;
        }
        data[to++] = byte;
    }
    return to;
}

/* Finds the field in a form of `name=value` parted by `&`, the first if there are several. The value is decoded within the body. */
static bool find_field(struct bytes *body, uint8_t **value, size_t *length)
{
    uint8_t *next = place(body), *end = next + body->length;
    while (next < end) {
        uint8_t *name = next;
        uint8_t *stop = memchr(name, '&', (size_t) (end - name));
        if (stop == NULL)
            stop = end;
        next = stop < end ? stop + 1 : end;
        uint8_t *equals = memchr(name, '=', (size_t) (stop - name));
        uint8_t *name_end = equals == NULL ? stop : equals;
        size_t name_length = decode(name, (size_t) (name_end - name));
        if (name_length == strlen(FIELD) && memcmp(name, FIELD, name_length) == 0) {
            *value = equals == NULL ? stop : equals + 1;
            *length = decode(*value, (size_t) (stop - *value));
            return true;
        }
    }
    return false;
}

/* The value of a parameter in a header such as `form-data; name="sitting"`; quotes are taken off. */
static bool find_parameter(const char *text, const char *end, const char *name, struct span *value)
{
    while ((text = memchr(text, ';', (size_t) (end - text))) != NULL) {
        text++;
        while (text < end && (*text == ' ' || *text == '\t'))
            text++;
        const char *equals = memchr(text, '=', (size_t) (end - text));
        if (equals == NULL)
            return false;
        bool found = (size_t) (equals - text) == strlen(name) && strncasecmp(text, name, strlen(name)) == 0;
        const char *start = equals + 1, *stop;
        if (start < end && *start == '"') {
            start++;
            stop = memchr(start, '"', (size_t) (end - start));
            if (stop == NULL)
                return false;
        } else {
            for (stop = start; stop < end && *stop != ';' && *stop != ' ' && *stop != '\t'; stop++) {
            }
        }
        if (found) {
            *value = (struct span) { start, (size_t) (stop - start) };
            return true;
        }
        text = stop;
    }
    return false;
}

/* Goes behind the next line `--boundary` or `--boundary--`, the line end before it included; `last` says which. NULL: there is none.
   `stop` is set to where the line end before it begins. */
static const char *pass_boundary(const char *from, const char *end, const char *line, size_t length, const char **stop, bool *last)
{
    for (const char *at = from; (at = find(at, end, line, length)) != NULL; at++) {
        const char *behind = at + length;
        *stop = at;
        *last = end - behind >= 2 && memcmp(behind, "--", 2) == 0;
        if (*last)
            return behind + 2;
        while (behind < end && (*behind == ' ' || *behind == '\t'))
            behind++;
        if (end - behind >= 2 && memcmp(behind, "\r\n", 2) == 0)
            return behind; /* the line end stays: it may be the one before the next boundary */
    }
    return NULL;
}

/* Whether the head of a part names the field. `from` is put behind the empty line that ends the head; NULL if there is none. */
static bool names_field(const char **from, const char *end)
{
    static const char disposition[] = "Content-Disposition:";
    bool named = false;
    const char *line = *from, *stop;
    while ((stop = find(line, end, "\r\n", 2)) != NULL && stop > line) {
        struct span name;
        if ((size_t) (stop - line) > strlen(disposition) && strncasecmp(line, disposition, strlen(disposition)) == 0)
            named = find_parameter(line, stop, "name", &name) && name.length == strlen(FIELD) && memcmp(name.data, FIELD, name.length) == 0;
        line = stop + 2;
    }
    *from = stop == NULL ? NULL : stop + 2;
    return named;
}

/* Finds the field in a multipart form, the first if there are several; true if it is there and the form is whole. */
static bool find_part(const char *type, const struct bytes *body, uint8_t **value, size_t *length)
{
    struct span boundary;
    char line[4 + 70 + 1] = "\r\n--"; /* a boundary has at most 70 characters */
    if (!find_parameter(type, type + strlen(type), "boundary", &boundary) || boundary.length == 0 || boundary.length > 70)
        return false;
    memcpy(line + 4, boundary.data, boundary.length);
    size_t line_length = 4 + boundary.length;

    const char *start = (const char *) place(body), *end = start + body->length, *stop, *from;
    bool last, found = false;
    bool at_start = body->length >= line_length - 2 && memcmp(start, line + 2, line_length - 2) == 0;
    size_t skip = at_start ? 2 : 0; /* then no line end stands before it */
    from = pass_boundary(start, end, line + skip, line_length - skip, &stop, &last);
    while (from != NULL && !last) {
        from += 2;
        bool named = names_field(&from, end);
        if (from == NULL)
            return false;
        const char *content = from;
        from = pass_boundary(content - 2, end, line, line_length, &stop, &last);
        if (from != NULL && named && !found) {
            found = true;
            *value = place(body) + (content - start);
            *length = stop < content ? 0 : (size_t) (stop - content);
        }
    }
    return from != NULL && found;
}

/* Browsers send every line end of a text area as CR LF. To the line program a line with a carriage return is of another shape and prints
   `unread`, so the form's CR LF become LF again; a carriage return alone stays. The raw address converts nothing. */
static size_t convert_line_ends(uint8_t *data, size_t length)
{
    size_t to = 0;
    for (size_t from = 0; from < length; from++)
        if (data[from] != '\r' || length - from < 2 || data[from + 1] != '\n')
            data[to++] = data[from];
    return to;
}

/* The header begins with this media type; parameters may follow. */
static bool is_media_type(const char *header, const char *type)
{
    size_t length = strlen(type);
    return strncasecmp(header, type, length) == 0 && (header[length] == '\0' || strchr("; \t", header[length]) != NULL);
}

/* ---- From a sitting to its key ---- */

/* Runs the line program. It says when the buffer is too short and then has changed nothing, so it is run again with one twice as long.
   The caller frees the key. */
static const struct refusal *make_key(const uint8_t *sitting, size_t length, struct bytes *key)
{
    size_t limit = KEY_FACTOR * length + KEY_EXTRA;
    size_t room = 2 * length + KEY_EXTRA;
    for (;;) {
        uint8_t *buffer = malloc(room);
        if (buffer == NULL)
            return &no_memory;
        int64_t written = plot_hub_run(sitting, length, buffer, room);
        if (written >= 0) {
            *key = (struct bytes) { buffer, (size_t) written, room };
            return NULL;
        }
        free(buffer);
        if (written != PLOT_HUB_TOO_SHORT || room == limit)
            return &no_key;
        room = room < limit / 2 ? room * 2 : limit;
    }
}

/* The page with a sitting and its key, from a form. The caller frees it, whatever the result. */
static const struct refusal *make_key_page(const struct request *request, struct bytes *body, struct bytes *page)
{
    uint8_t *sitting = NULL;
    size_t length = 0;
    bool found;
    if (is_media_type(request->type, "application/x-www-form-urlencoded"))
        found = find_field(body, &sitting, &length);
    else if (is_media_type(request->type, "multipart/form-data"))
        found = find_part(request->type, body, &sitting, &length);
    else
        return &other_type;
    if (!found)
        return &no_field;
    length = convert_line_ends(sitting, length);

    struct bytes key = { NULL, 0, 0 };
    const struct refusal *refusal = make_key(sitting, length, &key);
    if (refusal != NULL)
        return refusal;
    /* HTML drops a line end directly behind <textarea> or <pre>: one stands in page.html and one here, so that the text's own stays. */
    bool whole = append_span(page, page_template.before)
        && append_escaped(page, sitting, length)
        && append_span(page, page_template.between)
        && append_span(page, text_span("<h2 id=\"key-title\">Key</h2>\n"
                                       "<pre id=\"key\" role=\"region\" tabindex=\"0\" aria-labelledby=\"key-title\">\n"))
        && append_escaped(page, key.data, key.length)
        && append_span(page, text_span("</pre>\n"))
        && append_span(page, page_template.after);
    free(key.data);
    return whole ? NULL : &no_memory;
}

/* ---- Answers ---- */

/* A page for people, a line of text for programs. It needs no memory. */
static bool send_refusal(struct connection *connection, const struct request *request, const struct address *address,
                         const struct refusal *refusal)
{
    char status[64];
    bool text = address != NULL && address->kind == KEY_TEXT;
    snprintf(status, sizeof status, text ? "%u: " : "%u %s", refusal->status, phrase(refusal->status));
    struct span says = text_span(refusal->text);
    struct span page[] = { error_template.before, text_span(status), error_template.between, says, error_template.after };
    struct span line[] = { text_span(status), says, text_span("\n") };
    struct answer answer = { refusal->status, text ? TEXT : HTML, NULL, text ? line : page, text ? 3 : 5 };
    if (refusal == &other_method)
        answer.allow = allowed(address);
    return send_answer(connection, request, &answer);
}

static bool send_one(struct connection *connection, const struct request *request, const char *type, const void *data, size_t length)
{
    struct span part = { data, length };
    struct answer answer = { 200, type, NULL, &part, 1 };
    return send_answer(connection, request, &answer);
}

static bool send_key(struct connection *connection, const struct request *request, const struct address *address, struct bytes *body)
{
    struct bytes made = { NULL, 0, 0 };
    const struct refusal *refusal = address->kind == KEY ? make_key_page(request, body, &made) : make_key(place(body), body->length, &made);
    free(body->data); /* a client that reads slowly shall not hold it */
    *body = (struct bytes) { NULL, 0, 0 };
    bool sent = refusal != NULL ? send_refusal(connection, request, address, refusal)
                                : send_one(connection, request, address->type, place(&made), made.length);
    free(made.data);
    return sent;
}

static bool send_form(struct connection *connection, const struct request *request)
{
    struct span parts[] = { page_template.before, text_span(LISTING), page_template.between, page_template.after };
    struct answer answer = { 200, HTML, NULL, parts, 4 };
    return send_answer(connection, request, &answer);
}

static bool answer(struct connection *connection, const struct request *request, const struct address *address, struct bytes *body)
{
    switch (address->kind) {
    case FORM:
        return send_form(connection, request);
    case ASSET:
        return send_one(connection, request, address->type, address->start, (size_t) (address->end - address->start));
    default:
        return send_key(connection, request, address, body);
    }
}

/* One request after the other, until one closes the connection. */
static void serve(struct connection *connection)
{
    struct request request;
    bool sent;
    do {
        struct bytes body = { NULL, 0, 0 };
        const struct refusal *refusal = read_head(connection, &request);
        const struct address *address = find_address(request.path);
        if (refusal == NULL)
            refusal = read_body(connection, &request, check(&request, address), &body);
        if (refusal == &gone) {
            free(body.data);
            close(connection->socket);
            return;
        }
        sent = refusal != NULL ? send_refusal(connection, &request, address, refusal) : answer(connection, &request, address, &body);
        free(body.data);
    } while (sent && !request.closes);
    hang_up(connection, sent);
}

/* ---- The server ---- */

struct server {
    int listening;
    int end; /* can be read as soon as the server is to end */
    int seconds;
};

/* Each thread takes a connection, serves it and takes the next. */
static void *take_connections(void *closure)
{
    const struct server *server = closure;
    struct pollfd end = { server->end, POLLIN, 0 };
    for (;;) {
        int one = 1, socket = accept(server->listening, NULL, NULL);
        if (socket >= 0) {
            struct connection connection = { .socket = socket, .end = server->end, .seconds = server->seconds };
            setsockopt(socket, IPPROTO_TCP, TCP_NODELAY, &one, sizeof one);
            serve(&connection);
        }
        bool wait = socket < 0 && errno != EINTR && errno != ECONNABORTED; /* no descriptor, no memory, or the end */
        if (poll(&end, 1, wait ? 100 : 0) > 0)
            return NULL;
    }
}

/* Loopback only: whoever wants it on a network puts a server with TLS before it. Negative: it can't. */
static int listen_on(uint16_t *port)
{
    struct sockaddr_in address = { .sin_family = AF_INET, .sin_port = htons(*port), .sin_addr.s_addr = htonl(INADDR_LOOPBACK) };
    socklen_t length = sizeof address;
    int one = 1, listening = socket(AF_INET, SOCK_STREAM, 0);
    if (listening < 0 || setsockopt(listening, SOL_SOCKET, SO_REUSEADDR, &one, sizeof one) < 0
        || bind(listening, (struct sockaddr *) &address, sizeof address) < 0 || listen(listening, SOMAXCONN) < 0
        || getsockname(listening, (struct sockaddr *) &address, &length) < 0)
        return -1;
    *port = ntohs(address.sin_port);
    return listening;
}

/* How many threads there are in the end; fewer than CONNECTIONS only if the system gives no more. */
static size_t start_threads(struct server *server, pthread_t *threads)
{
    size_t count = 0;
    pthread_attr_t attributes;
    if (pthread_attr_init(&attributes) != 0)
        return 0;
    if (pthread_attr_setstacksize(&attributes, STACK) == 0)
        while (count < CONNECTIONS && pthread_create(&threads[count], &attributes, take_connections, server) == 0)
            count++;
    pthread_attr_destroy(&attributes);
    return count;
}

static bool read_number(const char *text, unsigned long limit, unsigned long *number)
{
    *number = 0;
    for (const char *digit = text; *digit != '\0'; digit++) {
        if (*digit < '0' || *digit > '9')
            return false;
        *number = *number * 10 + (unsigned long) (*digit - '0');
        if (*number > limit)
            return false;
    }
    return *text != '\0';
}

/* Serves until SIGTERM or SIGINT; requests that are not answered by then are cut off. */
static int run(uint16_t port, int seconds)
{
    /* The threads inherit this; so the two signals wait for `sigwait` below. */
    sigset_t ends;
    sigemptyset(&ends);
    sigaddset(&ends, SIGTERM);
    sigaddset(&ends, SIGINT);
    pthread_sigmask(SIG_BLOCK, &ends, NULL);

    static pthread_t threads[CONNECTIONS];
    int end[2];
    struct server server = { .listening = listen_on(&port), .seconds = seconds };
    if (server.listening < 0 || pipe(end) < 0) {
        fprintf(stderr, "server: can't listen on 127.0.0.1:%u: %s\n", (unsigned) port, strerror(errno));
        return 1;
    }
    server.end = end[0];
    size_t count = start_threads(&server, threads);
    if (count == 0) {
        fprintf(stderr, "server: can't start a thread\n");
        return 1;
    }
    if (count < CONNECTIONS)
        fprintf(stderr, "server: only %zu connections at a time: the system gives no more threads\n", count);
    printf("http://127.0.0.1:%u/\n", (unsigned) port);
    fflush(stdout);

    int ended_by;
    sigwait(&ends, &ended_by);
    close(end[1]); /* the other end can be read now: whoever waits for a client stops */
    shutdown(server.listening, SHUT_RDWR);
    for (size_t i = 0; i < count; i++)
        pthread_join(threads[i], NULL);
    close(server.listening);
    close(end[0]);
    return 0;
}

int main(int count, char **arguments)
{
    unsigned long port, seconds = REQUEST_SECONDS;
    if (count < 2 || count > 3 || !read_number(arguments[1], UINT16_MAX, &port)
        || (count == 3 && (!read_number(arguments[2], 3600, &seconds) || seconds == 0))) {
        fprintf(stderr, "usage: server PORT [SECONDS]    (port 0: any free port; seconds for a request and its answer, %d if not given)\n",
                REQUEST_SECONDS);
        return 2;
    }
    /* Long blocks go back to the system as soon as they are freed; else the heaps of all the threads would keep some. */
    mallopt(M_MMAP_THRESHOLD, 64 * 1024);
    mallopt(M_ARENA_MAX, 4);
    if (!split(&page_template, page_html, page_html_end, "<!--SITTING-->", "<!--KEY-->")) {
        fprintf(stderr, "server: page.html does not have <!--SITTING--> and then <!--KEY-->, once each\n");
        return 1;
    }
    if (!split(&error_template, error_html, error_html_end, "<!--STATUS-->", "<!--TEXT-->")) {
        fprintf(stderr, "server: error.html does not have <!--STATUS--> and then <!--TEXT-->, once each\n");
        return 1;
    }
    return run((uint16_t) port, (int) seconds);
}
