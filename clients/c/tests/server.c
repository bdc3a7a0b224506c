#define _GNU_SOURCE
#include "server.h"

#include <fcntl.h>
#include <netinet/in.h>
#include <signal.h>
#include <stdio.h>
#include <stdlib.h>
#include <string.h>
#include <sys/prctl.h>
#include <sys/socket.h>
#include <sys/wait.h>
#include <time.h>
#include <unistd.h>

enum { LEAST_PORT = 10000, PORTS = 22000 };

void sleep_for(int milliseconds)
{
    struct timespec time = {.tv_sec = milliseconds / 1000, .tv_nsec = milliseconds % 1000 * 1000000L};
    nanosleep(&time, NULL);
}

int free_port(void)
{
    static int next;
    if (next == 0)
        next = getpid() * 7;
    for (;;) {
        struct sockaddr_in address = {.sin_family = AF_INET, .sin_addr.s_addr = htonl(INADDR_LOOPBACK)};
        int port = LEAST_PORT + next++ % PORTS;
        int probe = socket(AF_INET, SOCK_STREAM | SOCK_CLOEXEC, 0);
        address.sin_port = htons((unsigned short)port);
        int taken = bind(probe, (const struct sockaddr *)&address, sizeof address);
        close(probe);
        if (taken == 0)
            return port;
    }
}

bool server_make(struct server *server, const char *program, const char *folder, const char *name, bool has_socket)
{
    static int servers;
    memset(server, 0, sizeof *server);
    server->port = free_port();
    servers++;
    snprintf(server->name, sizeof server->name, "%s", name);
    snprintf(server->log, sizeof server->log, "%s/%s%d-%d", folder, name, (int)getpid(), servers);
    snprintf(server->info, sizeof server->info, "host=127.0.0.1 port=%d name=%s timeout=20", server->port, name);
    if (has_socket) {
        snprintf(server->socket, sizeof server->socket, "%s/s%d-%d", folder, (int)getpid(), servers);
        snprintf(server->info, sizeof server->info, "socket=%s name=%s timeout=20", server->socket, name);
    }
    return server_start(server, program);
}

static void run(const struct server *server, const char *program)
{
    char port[12];
    const char *words[] = {
        program, "serve", "--log", server->log, "--name", server->name, "--port", port, "--tick", "0", NULL, server->users, NULL,
    };
    snprintf(port, sizeof port, "%d", server->port);
    if (server->socket[0] != '\0') {
        words[6] = "--socket";
        words[7] = server->socket;
    }
    if (server->users[0] != '\0')
        words[10] = "--users";
    execv(program, (char *const *)words);
    _exit(127);
}

bool server_start(struct server *server, const char *program)
{
    int tells[2];
    char line[6];
    size_t came = 0;
    ssize_t some = 1;
    if (pipe2(tells, O_CLOEXEC) != 0)
        return false;
    pid_t process = fork();
    if (process == 0) {
        prctl(PR_SET_PDEATHSIG, SIGKILL);
        dup2(tells[1], 1);
        run(server, program);
    }
    close(tells[1]);
    server->process = process;
    while (came < sizeof line && (some = read(tells[0], line + came, sizeof line - came)) > 0)
        came += (size_t)some;
    close(tells[0]);
    return came == sizeof line && memcmp(line, "ready\n", came) == 0;
}

void server_kill(struct server *server)
{
    if (server->process <= 0)
        return;
    kill(server->process, SIGKILL);
    waitpid(server->process, NULL, 0);
    server->process = 0;
}

const char *server_talk(const struct server *server, const char *program, const char *lines)
{
    static char line[1000];
    char command[1000];
    snprintf(command, sizeof command, "printf '%s' | '%s' talk --port %d", lines, program, server->port);
    FILE *printed = popen(command, "r");
    while (printed && fgets(line, sizeof line, printed))
        continue;
    if (printed)
        pclose(printed);
    line[strcspn(line, "\n")] = '\0';
    return line;
}
