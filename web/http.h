/* HTTP/1.1 on one connection: strict about what it reads, and with one deadline for a whole request and its answer.

   A head that two servers could read differently is refused and the connection closed, so that nothing behind it is taken for a request. */
#ifndef HTTP_H
#define HTTP_H

#include <stdbool.h>
#include <stddef.h>
#include <stdint.h>

#define BODY_LIMIT ((size_t) 1 << 20)    /* a longer body is answered 413 */
#define DISCARD_LIMIT ((size_t) 8 << 20) /* so much of a refused body is read, see `read_body` */
#define HEAD_LIMIT ((size_t) 16384)      /* a longer head, or trailer, is answered 431 */
#define IDLE_SECONDS 10                  /* a connection waits so long for a request's first byte */

/* ---- Bytes, by their length: a zero byte is one like any other ---- */

struct bytes {
    uint8_t *data;
    size_t length;
    size_t room;
};

struct span {
    const void *data;
    size_t length;
};

/* False if there is no memory; then nothing has changed. */
bool append(struct bytes *to, const void *data, size_t length);

/* ---- Requests and answers ---- */

struct connection {
    int socket;
    int end;          /* can be read as soon as the server is to end */
    int seconds;      /* for a request and its answer, from the first byte of the one to the last of the other */
    int64_t deadline; /* in milliseconds of the monotonic clock */
    size_t from, to;  /* buffer[from] to buffer[to - 1] have come in and are not yet used */
    char buffer[8192];
};

struct request {
    char method[16], path[64], type[256]; /* what is longer is cut, and then none that the server knows; `type`: Content-Type */
    bool closes;                          /* the connection is closed after the answer */
    bool expects;                         /* the client waits for a go-ahead before it sends the body */
    bool chunked;
    uint64_t length; /* of the body, if it is not chunked */
};

/* Why a request is refused. The functions below return NULL if it is not. */
struct refusal {
    unsigned status;
    const char *text;
};

extern const struct refusal gone;      /* the client, or the server's time: there is nobody to answer */
extern const struct refusal no_memory;

/* Waits for a request and reads it up to its body. What of it was understood stands in the request, whatever the result. */
const struct refusal *read_head(struct connection *connection, struct request *request);

/* Reads the body to its end, also that of a request that is refused already: a client that is still sending would not see the answer.
   One that asks first, or would send for long, is answered at once. The result is why the request is refused: as before, or by its body. */
const struct refusal *read_body(struct connection *connection, struct request *request, const struct refusal *refusal, struct bytes *body);

struct answer {
    unsigned status;
    const char *type;
    const char *allow; /* NULL: the answer has no such header */
    const struct span *parts;
    size_t count; /* at most ANSWER_PARTS */
};
#define ANSWER_PARTS 5

/* False if it was not sent whole before the deadline. */
bool send_answer(struct connection *connection, const struct request *request, const struct answer *answer);

/* Closes the connection; after an answer so that the client can still read it. */
void hang_up(struct connection *connection, bool answered);

/* "Not Found" and the like. */
const char *phrase(unsigned status);

#endif
