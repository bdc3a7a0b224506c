/* Stands between the library and a server, and lets one request or one reply come in part or not at all. Or it is the server itself: it
   answers each Open with XA_OK, and each other frame with bytes that a test put down. */
#ifndef RELAY_H
#define RELAY_H

#include <stddef.h>

struct relay;

/* A relay to the server at a port. */
struct relay *relay_make(int port);
/* A server that isn't one, with a pause before each byte of an answer. */
struct relay *fake_make(int pause);
int relay_port(const struct relay *relay);

/* Of the next request, or reply, this many bytes come, and then the connection ends. */
void relay_cut_request(struct relay *relay, int bytes);
void relay_cut_reply(struct relay *relay, int bytes);
/* The next reply doesn't come, and the connection stays. */
void relay_hold_reply(struct relay *relay);
/* The last connection gets these bytes. */
void relay_push(struct relay *relay, const unsigned char *bytes, size_t length);
/* Ends all connections. */
void relay_break(struct relay *relay);

/* The next frame that isn't an Open is answered with these bytes; with none, the connection ends. */
void fake_answer(struct relay *fake, const unsigned char *bytes, size_t length);
/* With a reply, of a place that ascends. */
void fake_reply(struct relay *fake, int code, int detail, int kind, const unsigned char *body, size_t length);
/* The last frame that came, and its length. */
size_t fake_last(struct relay *fake, unsigned char *to, size_t room);
/* How many connections there were. */
int relay_connections(const struct relay *relay);

#endif
