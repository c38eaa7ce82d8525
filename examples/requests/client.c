/* Sends requests to a program of a service on this machine: client PLACE MACHINE OBJECT

   PLACE is unix:PATH, or the number of a port. A line of standard input is a request of up to five numbers. A line of output is its result, or `status` and that. */
#include "client.h"

int main(int count, char **words)
{
    struct client c = { 0 };
    char line[LINE];
    if (count != 4)
        fail("use: client PLACE MACHINE OBJECT");
    c.machine = strtoul(words[2], NULL, 10);
    c.object = strtoul(words[3], NULL, 10);
    setvbuf(stdout, NULL, _IOLBF, LINE); /* each result at once, into a pipe too */
    dial(&c, words[1]);
    begin(&c);
    while (fgets(line, sizeof line, stdin)) {
        char *at = line;
        for (int k = 0; k < 5; k++)
            c.request.arguments[k] = strtoull(at, &at, 0);
        ask(&c);
        printf("%s%" PRIu64 "\n", c.request.status ? "status " : "", c.request.status ? c.request.status : c.request.result);
    }
    return close(c.socket);
}
