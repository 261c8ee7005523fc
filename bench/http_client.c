// A client that keeps up with a server: it sends each message of a file over a connection of its own, in order, and opens
// the next ones before it reads a response, so that a connection is always waiting for the server.
//
// Usage: http_client PORT FILE OPEN: FILE has each message behind its length in decimal and a line feed; OPEN is how many
// connections are open at a time. Prints the seconds and the bytes of all responses. The status is 1 where one of them
// isn't `HTTP/1.1 200`.
#include <arpa/inet.h>
#include <netinet/in.h>
#include <stdio.h>
#include <stdlib.h>
#include <string.h>
#include <sys/socket.h>
#include <sys/stat.h>
#include <time.h>
#include <unistd.h>

enum { MOST_OPEN = 64, CHUNK = 65536 };

static struct sockaddr_in place = { .sin_family = AF_INET };

static void must(int is_well, const char *what) {
    if (!is_well) {
        perror(what);
        exit(1);
    }
}

static char *whole(const char *path) {
    FILE *file = fopen(path, "rb");
    struct stat about;
    must(file && !stat(path, &about), path);
    char *bytes = malloc((size_t)about.st_size + 1);
    bytes[fread(bytes, 1, (size_t)about.st_size, file)] = 0;
    fclose(file);
    return bytes;
}

// Opens a connection and sends the next message.
static int begin(char **at) {
    size_t length = strtoul(*at, at, 10), sent = 0;
    const char *message = *at + 1;
    int stream = socket(AF_INET, SOCK_STREAM, 0);
    must(!connect(stream, (struct sockaddr *)&place, sizeof place), "connect");
    while (sent < length) {
        ssize_t count = write(stream, message + sent, length - sent);
        must(count > 0, "write");
        sent += (size_t)count;
    }
    *at += 1 + length;
    return stream;
}

// Reads a response to its end, and gives its bytes.
static size_t finish(int stream) {
    static char room[CHUNK];
    size_t length = 0;
    for (ssize_t count; (count = read(stream, room, sizeof room)) != 0; length += (size_t)count) {
        must(count > 0, "read");
        if (!length && strncmp(room, "HTTP/1.1 200", 12)) {
            fprintf(stderr, "%.*s\n", (int)count, room);
            exit(1);
        }
    }
    close(stream);
    return length;
}

int main(int count, char **words) {
    if (count != 4) return 2;
    place.sin_port = htons((uint16_t)atoi(words[1]));
    place.sin_addr.s_addr = htonl(INADDR_LOOPBACK);
    int streams[MOST_OPEN], most = atoi(words[3]), open = 0, first = 0;
    if (most < 1 || most > MOST_OPEN) return 2;
    size_t bytes = 0;
    struct timespec began, ended;
    char *at = whole(words[2]);
    clock_gettime(CLOCK_MONOTONIC, &began);
    while (*at || open) {
        while (*at && open < most) streams[(first + open++) % MOST_OPEN] = begin(&at);
        bytes += finish(streams[first]);
        first = (first + 1) % MOST_OPEN;
        open--;
    }
    clock_gettime(CLOCK_MONOTONIC, &ended);
    printf("%.6f %zu\n", (double)(ended.tv_sec - began.tv_sec) + (double)(ended.tv_nsec - began.tv_nsec) / 1e9, bytes);
    return 0;
}
