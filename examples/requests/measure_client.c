/* Sends the requests of a task by one way, and tells how long they took: measure_client WAY PORT NAME FIRST SIZE COUNT MORE..

   requests MACHINE OBJECT: to a program that awaits them. gets: by reads of the agent. server: to measure_server.c. redis SHA: to a
   script of Redis. pages: by reads of Redis. memcached. */
#include "client.h"
#include "measure.h"

static struct client client;
static struct task task;
static char text[1 << 16];
static char *script;

/* ---- bytes of the other ways */

static char bytes[1 << 20];
static size_t taken, there;

static void receive(void)
{
    if (taken) {
        memmove(bytes, bytes + taken, there -= taken);
        taken = 0;
    }
    ssize_t count = recv(client.socket, bytes + there, sizeof bytes - there, 0);
    if (count <= 0)
        fail("the server has gone: %s", count ? strerror(errno) : "it ended");
    there += (size_t)count;
}

/* So many bytes of what comes. They stay until the next call. */
static const char *take(size_t length)
{
    while (there - taken < length)
        receive();
    taken += length;
    return bytes + taken - length;
}

static const char *take_line(void)
{
    char *end;
    while (!(end = memchr(bytes + taken, '\n', there - taken)))
        receive();
    size_t length = (size_t)(end - (bytes + taken)) + 1;
    *end = 0;
    return take(length);
}

/* ---- ways */

static uint64_t by_request(const uint64_t *arguments)
{
    memcpy(client.request.arguments, arguments, sizeof client.request.arguments);
    ask(&client);
    if (client.request.status)
        fail("status %" PRIu64, client.request.status);
    return client.request.result;
}

static uint64_t by_server(const uint64_t *arguments)
{
    struct request *r = &client.request;
    memcpy(r->arguments, arguments, sizeof r->arguments);
    r->number++;
    if (send(client.socket, r, REQUEST_BYTES, MSG_NOSIGNAL) != REQUEST_BYTES)
        fail("the server has gone");
    memcpy(&r->answered, take(ANSWER_BYTES), ANSWER_BYTES);
    if (r->answered != r->number || r->status)
        fail("status %" PRIu64, r->status);
    return r->result;
}

static int digit(char c)
{
    return c <= '9' ? c - '0' : c - 'a' + 10;
}

static void take_bytes(unsigned char *into, size_t length)
{
    const char *line = take_line();
    if (strncmp(line, "bytes ", 6))
        fail("a read was answered %s", line);
    for (size_t k = 0; k < length; k++)
        into[k] = (unsigned char)(digit(line[6 + 2 * k]) << 4 | digit(line[7 + 2 * k]));
}

static void get(uint64_t address, void *into, size_t length)
{
    snprintf(text, sizeof text, "get %" PRIu64 " %" PRIu64 " %zu\n", address >> 32, address & UINT32_MAX, length);
    send_all(&client, text);
    take_bytes(into, length);
}

static uint64_t list_by_gets(const uint64_t *arguments)
{
    uint64_t node[2] = { 0, arguments[0] }, sum = 0;
    for (uint64_t left = arguments[1]; left; left--) {
        get(node[1], node, sizeof node);
        sum += node[0];
    }
    return sum;
}

static uint64_t tree_by_gets(const uint64_t *arguments)
{
    uint64_t node[32], at = arguments[0], place;
    do {
        get(at, node, sizeof node);
        for (place = 0; place + 1 < node[1] && node[2 + place + 1] <= arguments[1]; place++)
            ;
        at = node[17 + place];
    } while (node[0]);
    return at;
}

/* The reads of an object go out together. */
static uint64_t filter_by_gets(const uint64_t *arguments)
{
    unsigned char page[PAGE_BYTES];
    uint64_t sum = 0;
    size_t length = 0;
    for (unsigned at = 0; at < OBJECT_BYTES; at += PAGE_BYTES)
        length += (size_t)snprintf(text + length, sizeof text - length, "get %" PRIu64 " %u %u\n", arguments[0] >> 32, at, PAGE_BYTES);
    send_all(&client, text);
    for (unsigned at = 0; at < OBJECT_BYTES; at += PAGE_BYTES) {
        take_bytes(page, sizeof page);
        sum += sum_of(page, sizeof page, arguments);
    }
    return sum;
}

static uint64_t by_gets(const uint64_t *arguments)
{
    return is_named(&task, "list") ? list_by_gets(arguments) : is_named(&task, "tree") ? tree_by_gets(arguments) : filter_by_gets(arguments);
}

static uint64_t by_redis(const uint64_t *arguments)
{
    size_t length = (size_t)snprintf(text, sizeof text, "*8\r\n$7\r\nEVALSHA\r\n$40\r\n%s\r\n$1\r\n0\r\n", script);
    for (int k = 0; k < 5; k++) {
        char number[24];
        int digits = snprintf(number, sizeof number, "%" PRIu64, arguments[k]);
        length += (size_t)snprintf(text + length, sizeof text - length, "$%d\r\n%s\r\n", digits, number);
    }
    send_all(&client, text);
    const char *line = take_line();
    if (*line != ':')
        fail("Redis answers %s", line);
    return strtoull(line + 1, NULL, 10);
}

/* Reads of Redis, and a scan here. */
static uint64_t by_pages(const uint64_t *arguments)
{
    char key[24];
    int digits = snprintf(key, sizeof key, "o%" PRIu64, arguments[0] >> 32);
    snprintf(text, sizeof text, "*2\r\n$3\r\nGET\r\n$%d\r\n%s\r\n", digits, key);
    send_all(&client, text);
    size_t length = strtoull(take_line() + 1, NULL, 10);
    return sum_of((const unsigned char *)take(length + 2), length, arguments);
}

static uint64_t by_memcached(const uint64_t *arguments)
{
    const char *form = arguments[0] ? "incr k%" PRIu64 " 1\r\n" : "get k%" PRIu64 "\r\n";
    snprintf(text, sizeof text, form, arguments[1]);
    send_all(&client, text);
    const char *line = take_line();
    if (arguments[0])
        return strtoull(line, NULL, 10);
    if (strncmp(line, "VALUE ", 6))
        fail("memcached answers %s", line);
    uint64_t value = strtoull(take_line(), NULL, 10);
    take_line();
    return value;
}

int main(int count, char **words)
{
    static const struct {
        const char *name;
        uint64_t (*answer)(const uint64_t *);
    } ways[] = { { "requests", by_request }, { "gets", by_gets },   { "server", by_server },
                 { "redis", by_redis },      { "pages", by_pages }, { "memcached", by_memcached } };
    if (count < 7)
        fail("use: measure_client WAY PORT NAME FIRST SIZE COUNT MORE..");
    task = (struct task){ words[3], strtoull(words[4], NULL, 0), strtoull(words[5], NULL, 0) };
    dial(&client, words[2]);
    if (count == 9) {
        client.machine = strtoul(words[7], NULL, 10);
        client.object = strtoul(words[8], NULL, 10);
        begin(&client);
    } else if (count == 8) {
        script = words[7];
    }
    for (size_t k = 0; k < sizeof ways / sizeof *ways; k++)
        if (!strcmp(ways[k].name, words[1])) {
            unsigned long packets = client.packets;
            uint64_t times = strtoull(words[6], NULL, 10);
            time_all(&task, times, now, ways[k].answer);
            printf("%.3f\n", (double)(client.packets - packets) / (double)((times + 1) * parts_of(&task)));
        }
    return 0;
}
