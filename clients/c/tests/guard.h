/* A server that lets in who has RFC 7677's password, 'pencil', or answers a First or a Final with the bytes that a test put down. All else
   is answered Access before a login, and XA_OK after it. */
#ifndef GUARD_H
#define GUARD_H

#include <stddef.h>

/* What a server keeps of that password, with RFC 7677's salt and count; as PostgreSQL spells it. */
#define VERIFIER "SCRAM-SHA-256$4096:" SALT "$" STORED_KEY ":" SERVER_KEY
#define SALT "W22ZaJ0SNY7soEsUEjb6gQ=="
#define STORED_KEY "WG5d8oPm3OtcPnkdi4Uo7BkeZkBFzpcXkuLmtbsT4qY="
#define SERVER_KEY "wfPLwcE6nTWhTAmQ7tl2KeoiWGPlZqQxSrmfPwDl2dU="
/* Its own part of the nonce. */
#define OWN "%hvYDpWUa2RaTCAfuxFIlj)hNlF$k0"

enum { FIRST_STEP = 74, FINAL_STEP = 75, CHALLENGED = 11, WELCOMED = 12 };

struct guard;

struct guard *guard_make(void);
int guard_port(const struct guard *guard);

/* That step is answered with a reply of this code, detail, kind and body from now on. `bytes` is how many of its bytes are sent, after
   which the connection ends; -1: all, and it goes on. */
void guard_answer(struct guard *guard, int step, int code, int detail, int kind, const char *body, int bytes);
/* It answers by itself again. */
void guard_answer_well(struct guard *guard);

/* What it was asked for since this was called last, as " 74 75 1"; also once one more connection has ended. In memory that stays until the
   next. */
const char *guard_asked(struct guard *guard);
const char *guard_ended(struct guard *guard);

/* Ends the last connection. */
void guard_break(struct guard *guard);

/* The message of the last First. */
const char *guard_first(struct guard *guard);

#endif
