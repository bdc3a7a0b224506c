/* A live 'xarm serve' with a log of its own, which can be killed, and started again at the same port and log. */
#ifndef SERVER_H
#define SERVER_H

#include <stdbool.h>
#include <sys/types.h>

struct server {
    pid_t process; /* 0: it doesn't run */
    int port;
    char name[32];
    char log[256];
    char socket[100]; /* empty: it has the port */
    char users[256];  /* who may log in; empty: it takes no logins */
    char info[300];   /* the info string of xa_open */
};

/* Makes one, and starts it; the path of its log is 'FOLDER/NAME' with a number. False: it didn't say 'ready'. */
bool server_make(struct server *server, const char *program, const char *folder, const char *name, bool has_socket);
bool server_start(struct server *server, const char *program);
/* By SIGKILL. */
void server_kill(struct server *server);

/* The last line that 'xarm talk' prints for some lines, the operator's calls, in memory that stays until the next. */
const char *server_talk(const struct server *server, const char *program, const char *lines);

/* A port where nobody listens, below those that connections are given by themselves. */
int free_port(void);

void sleep_for(int milliseconds);

#endif
