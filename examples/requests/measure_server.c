/* A server of one's own: one of the programs of this folder, compiled natively with this file. measure_server FOLDER [OBJECT]

   FOLDER has the objects, each in a file of its number; they are mapped where programs have them. The request lies in object 1. The
   server tells its port, and answers one connection: requests of 48 bytes by answers of 24. */
#define _GNU_SOURCE
#include "bpfagent_program.h"
#include <arpa/inet.h>
#include <fcntl.h>
#include <netinet/tcp.h>
#include <stdio.h>
#include <stdlib.h>
#include <sys/mman.h>
#include <sys/stat.h>
#include <unistd.h>

#define OBJECTS 1024

uint64_t program(struct request *request, void *object);

static int connection;
static uint64_t lengths[OBJECTS + 1];
static struct request *asked;

static _Noreturn void fail(const char *what)
{
    perror(what);
    exit(1);
}

uint64_t object_length(uint64_t object)
{
    return object <= OBJECTS ? lengths[object] : 0;
}

/* Where a program awaits a request, the last one's answer goes out, and the next one comes in. */
uint64_t close_scopes(void)
{
    if (asked->number && send(connection, &asked->answered, ANSWER_BYTES, MSG_NOSIGNAL) != ANSWER_BYTES)
        exit(0);
    if (recv(connection, asked, REQUEST_BYTES, MSG_WAITALL) != REQUEST_BYTES)
        exit(0);
    return 0;
}

static void map(const char *folder, uint64_t object)
{
    char path[512];
    struct stat found;
    snprintf(path, sizeof path, "%s/%u", folder, (unsigned)object);
    int file = open(path, O_RDWR);
    if (file < 0)
        return;
    if (fstat(file, &found))
        fail(path);
    lengths[object] = (uint64_t)found.st_size;
    if (mmap(address_of(object, 0), lengths[object], PROT_READ | PROT_WRITE, MAP_PRIVATE | MAP_FIXED, file, 0) == MAP_FAILED)
        fail(path);
    close(file);
}

int main(int count, char **words)
{
    struct sockaddr_in place = { .sin_family = AF_INET, .sin_addr = { htonl(INADDR_LOOPBACK) } };
    socklen_t length = sizeof place;
    int at_once = 1, listener = socket(AF_INET, SOCK_STREAM, 0);
    if (count < 2)
        return 2;
    for (uint64_t object = 1; object <= OBJECTS; object++)
        map(words[1], object);
    asked = address_of(1, 0);
    if (bind(listener, (struct sockaddr *)&place, length) || listen(listener, 1) || getsockname(listener, (struct sockaddr *)&place, &length))
        fail("listen");
    printf("listening %d\n", ntohs(place.sin_port));
    fflush(stdout);
    for (;;) {
        connection = accept(listener, NULL, NULL);
        if (connection < 0 || setsockopt(connection, IPPROTO_TCP, TCP_NODELAY, &at_once, sizeof at_once))
            fail("accept");
        if (fork() == 0)
            program(asked, address_of(count > 2 ? strtoull(words[2], NULL, 10) : 0, 0));
        close(connection);
    }
}
