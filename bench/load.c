/* Loads a memcached over loopback: some connections, each with DEPTH requests sent at once and the next when all their replies are
 * there. Prints requests a second, and the median and the 99th and 99.9th percentiles of the time from a send to its last reply, each as a
 * line of its name, its value and its unit with tabs between them.
 *
 * load [-k KEYS] [-p PREFIX] [-o] [-d BYTES] [-g PERCENT] [-l COUNT] [-s SECONDS] PORT[,PORT...] CONNECTIONS DEPTH REQUESTS: the connections
 * go to the ports in turn. PERCENT (95) in 100 requests are gets of one of KEYS (1,000) keys, which begin with PREFIX (key), the others
 * sets, with data of BYTES (100). The keys are set before the clock starts, with -o by an earlier run. Every reply has a known length, by
 * which it is counted, and the last bytes of each batch are compared. With -l it prints the COUNT longest of the times too, the longest
 * first. With -s it ends after this many seconds, if it hasn't sent all requests before, and prints how many were answered in each. */
#define _GNU_SOURCE
#include <arpa/inet.h>
#include <errno.h>
#include <netinet/in.h>
#include <netinet/tcp.h>
#include <stdint.h>
#include <stdio.h>
#include <stdlib.h>
#include <string.h>
#include <sys/epoll.h>
#include <sys/socket.h>
#include <time.h>
#include <unistd.h>

enum { MOST = 64, MOST_DEPTH = 1024, MOST_DATA = 1 << 20, WORDS = 60, MOST_PREFIX = 16, MOST_SECONDS = 3600, PATIENCE = 60000 };

struct client {
    int socket;
    char *text;         /* the batch, of which the bytes from sent to end are still to be sent */
    size_t sent, end;
    int awaits_room;    /* whether it is told when more can be sent */
    size_t wanted;      /* reply bytes of the batch that are still to come */
    int ends_with_get;  /* its last request is a get */
    char tail[5];       /* the last bytes that came */
    double sent_at;
};

static unsigned keys = 1000;
static const char *prefix = "key";
static int digits = 5;  /* of a key's number */
static size_t size = 100;
static unsigned gets = 95;  /* of 100 requests */
static int are_set;  /* the keys are, by an earlier run */
static long longest, seconds;  /* how many of the longest times are printed, and after how long no more is sent; 0 for none and no end */
static char data[MOST_DATA];
static int poll;
static uint64_t state = 88172645463325252u;

static unsigned next_random(void) {
    state ^= state << 13, state ^= state >> 7, state ^= state << 17;
    return (unsigned)(state >> 33);
}

static double now(void) {
    struct timespec t;
    clock_gettime(CLOCK_MONOTONIC, &t);
    return (double)t.tv_sec * 1e6 + (double)t.tv_nsec / 1e3;
}

static void fail(const char *what) {
    perror(what);
    exit(1);
}

static int connect_to(int port) {
    int one = 1, it = socket(AF_INET, SOCK_STREAM, 0);
    struct sockaddr_in address = {.sin_family = AF_INET, .sin_port = htons((uint16_t)port), .sin_addr = {htonl(INADDR_LOOPBACK)}};
    if (it < 0 || connect(it, (struct sockaddr *)&address, sizeof address)) fail("connect");
    setsockopt(it, IPPROTO_TCP, TCP_NODELAY, &one, sizeof one);
    return it;
}

/* Sends what the socket takes of the batch, and asks to be told where that isn't all. */
static void send_on(struct client *client) {
    while (client->sent < client->end) {
        ssize_t sent = send(client->socket, client->text + client->sent, client->end - client->sent, MSG_DONTWAIT);
        if (sent < 0 && errno == EAGAIN) break;
        if (sent <= 0) fail("send");
        client->sent += (size_t)sent;
    }
    int awaits_room = client->sent < client->end;
    if (awaits_room == client->awaits_room) return;
    struct epoll_event event = {.events = awaits_room ? EPOLLIN | EPOLLOUT : EPOLLIN, .data.ptr = client};
    if (epoll_ctl(poll, EPOLL_CTL_MOD, client->socket, &event)) fail("epoll_ctl");
    client->awaits_room = awaits_room;
}

/* A request, and how many bytes its reply has. */
static size_t ask(char *to, int is_get, unsigned key, size_t *wanted) {
    if (is_get) {
        *wanted += (size_t)snprintf(NULL, 0, "VALUE %s%0*u 0 %zu\r\n", prefix, digits, key, size) + size + strlen("\r\nEND\r\n");
        return (size_t)sprintf(to, "get %s%0*u\r\n", prefix, digits, key);
    }
    *wanted += strlen("STORED\r\n");
    size_t count = (size_t)sprintf(to, "set %s%0*u 0 0 %zu\r\n", prefix, digits, key, size);
    memcpy(to + count, data, size);
    memcpy(to + count + size, "\r\n", 2);
    return count + size + 2;
}

static void send_batch(struct client *client, int depth) {
    client->wanted = client->sent = client->end = 0;
    for (int i = 0; i < depth; i++) {
        client->ends_with_get = next_random() % 100 < gets;
        client->end += ask(client->text + client->end, client->ends_with_get, next_random() % keys, &client->wanted);
    }
    client->sent_at = now();
    send_on(client);
}

/* Takes in what is there. Whether the batch is answered. */
static int take_in(struct client *client) {
    static char bytes[1 << 16];
    ssize_t count = recv(client->socket, bytes, sizeof bytes, MSG_DONTWAIT);
    if (count < 0 && errno == EAGAIN) return 0;
    if (count <= 0 || (size_t)count > client->wanted) {
        fprintf(stderr, "another reply than the one that is wanted: %.*s\n", count > 0 ? (int)(count < 60 ? count : 60) : 0, bytes);
        exit(1);
    }
    for (ssize_t i = count > 5 ? count - 5 : 0; i < count; i++) memmove(client->tail, client->tail + 1, 4), client->tail[4] = bytes[i];
    client->wanted -= (size_t)count;
    if (client->wanted || client->sent < client->end) return 0;
    if (memcmp(client->tail, client->ends_with_get ? "END\r\n" : "RED\r\n", 5)) {
        fprintf(stderr, "another reply than the one that is wanted, which ends with %.5s\n", client->tail);
        exit(1);
    }
    return 1;
}

static int compare(const void *one, const void *two) {
    double a = *(const double *)one, b = *(const double *)two;
    return a < b ? -1 : a > b;
}

/* A client that is connected, with room for batches of this many requests, and in the poll. */
static struct client *open_client(struct client *client, int port, int depth) {
    client->socket = connect_to(port);
    client->text = malloc((size_t)depth * (size + WORDS));
    if (!client->text) fail("malloc");
    struct epoll_event event = {.events = EPOLLIN, .data.ptr = client};
    if (epoll_ctl(poll, EPOLL_CTL_ADD, client->socket, &event)) fail("epoll_ctl");
    return client;
}

static void set_keys(int port) {
    struct client setter = {0}, *client = open_client(&setter, port, MOST);
    for (unsigned key = 0; key < keys;) {
        client->wanted = client->sent = client->end = 0;
        for (int i = 0; i < MOST && key < keys; i++, key++) client->end += ask(client->text + client->end, 0, key, &client->wanted);
        client->ends_with_get = 0;
        do send_on(client);
        while (!take_in(client));
    }
    close(client->socket);
    free(client->text);
}

static double percentile(const double *times, long done, double share) {
    return times[(long)((double)done * share)];
}

/* What is measured: batches of requests, and when each was answered. */
struct run {
    int depth;              /* requests of a batch */
    long batches, begun, done;
    double start, until;    /* until when batches are begun, where that is limited */
    double *times;          /* from each batch's send to its last reply */
    long *in_second;        /* requests that were answered in each second */
};

/* Takes in the options. Whether they are known. */
static int take_options(int count, char **words) {
    int option;
    while ((option = getopt(count, words, "k:p:od:g:l:s:")) != -1) {
        if (option == 'k') keys = (unsigned)atol(optarg);
        if (option == 'p') prefix = optarg;
        if (option == 'o') are_set = 1;
        if (option == 'd') size = (size_t)atol(optarg);
        if (option == 'g') gets = (unsigned)atol(optarg);
        if (option == 'l') longest = atol(optarg);
        if (option == 's') seconds = atol(optarg);
        if (option == '?') return 0;
    }
    return 1;
}

/* Sends each client's next batch when the one before is answered, until all are. */
static void answer_all(struct run *run) {
    struct epoll_event events[MOST];
    while (run->done < run->begun) {
        int ready = epoll_wait(poll, events, MOST, PATIENCE);
        if (ready <= 0) {
            fprintf(stderr, "no reply comes\n");
            exit(1);
        }
        for (int i = 0; i < ready; i++) {
            struct client *client = events[i].data.ptr;
            send_on(client);
            if (!take_in(client)) continue;
            double moment = now();
            run->times[run->done++] = moment - client->sent_at;
            if (moment < run->until) run->in_second[(long)((moment - run->start) / 1e6)] += run->depth;
            if (run->begun < run->batches && (!seconds || moment < run->until)) run->begun++, send_batch(client, run->depth);
        }
    }
}

static void print_run(const struct run *run, double took) {
    qsort(run->times, (size_t)run->done, sizeof *run->times, compare);
    printf("requests\t%.0f\trequests/s\n", (double)(run->done * run->depth) / took);
    printf("50th percentile of the times to a reply\t%.0f\tus\n", percentile(run->times, run->done, 0.5));
    printf("99th percentile of the times to a reply\t%.0f\tus\n", percentile(run->times, run->done, 0.99));
    printf("99.9th percentile of the times to a reply\t%.0f\tus\n", percentile(run->times, run->done, 0.999));
    if (longest) printf("time of the run\t%.0f\tus\n", took * 1e6);
    for (long i = 0; i < longest && i < run->done; i++) printf("longest of the times to a reply\t%.0f\tus\n", run->times[run->done - 1 - i]);
    for (long i = 0; i < seconds; i++) printf("requests in a second\t%ld\trequests/s\n", run->in_second[i]);
}

int main(int count, char **words) {
    if (!take_options(count, words)) return 2;
    words += optind - 1, count -= optind - 1;
    if (count != 5) return fprintf(stderr, "load [-k KEYS] [-p PREFIX] [-o] [-d BYTES] [-g PERCENT] [-l COUNT] [-s SECONDS] PORT[,PORT...] CONNECTIONS DEPTH REQUESTS\n"), 2;
    int connections = atoi(words[2]), ports[MOST], known = 0;
    struct run run = {.depth = atoi(words[3])};
    for (char *word = strtok(words[1], ","); word && known < MOST; word = strtok(NULL, ",")) ports[known++] = atoi(word);
    if (run.depth < 1 || run.depth > MOST_DEPTH || connections < 1 || !known || !keys || seconds < 0 || seconds > MOST_SECONDS || size > MOST_DATA || gets > 100 || strlen(prefix) > MOST_PREFIX) return fprintf(stderr, "numbers out of range\n"), 2;
    if (keys > 100000) digits = 7;
    memset(data, 'v', size);
    poll = epoll_create1(0);
    for (int i = 0; i < known && !are_set; i++) set_keys(ports[i]);
    run.batches = atol(words[4]) / run.depth;
    run.in_second = calloc((size_t)seconds + 1, sizeof *run.in_second);
    run.times = malloc((size_t)run.batches * sizeof *run.times);
    struct client *clients = calloc((size_t)connections, sizeof *clients);
    for (int i = 0; i < connections; i++) open_client(&clients[i], ports[i % known], run.depth);
    run.start = now(), run.until = run.start + (double)seconds * 1e6;
    for (int i = 0; i < connections && run.begun < run.batches; i++, run.begun++) send_batch(&clients[i], run.depth);
    answer_all(&run);
    print_run(&run, (now() - run.start) / 1e6);
    return 0;
}
