// A plain registry over HTTP, without proofs: the peer that `usbreg serve` is timed beside. It is the registry of peer.c
// behind a loop of accept, read and write, one connection after another.
//
// Usage: http_peer STORE PORT TABLES [PAGE_SIZE]: serves POST /commands, GET /numbers/{pid}, GET /list and GET
// /reports/holders of a new store or one that is there, on 127.0.0.1, until it is killed. It believes its clients: their
// messages are whole and have the usual form.
#define NO_MAIN
#include "peer.c"

#include <arpa/inet.h>
#include <netinet/in.h>
#include <netinet/tcp.h>
#include <sys/socket.h>

enum { MOST = 32768, ROOM = 16 * 1024 * 1024 };

enum text { LIST, HOLDERS, TEXTS };

static sqlite3_stmt *one_number, *rows[TEXTS];
// The last list and the last report, which are given again until an order comes: a length of 0 says that there is none.
static char kept[TEXTS][ROOM];
static int lengths[TEXTS];

static void write_all(int stream, const char *bytes, size_t length) {
    while (length) {
        ssize_t count = write(stream, bytes, length);
        if (count <= 0) return;
        bytes += count;
        length -= (size_t)count;
    }
}

static void respond(int stream, int status, const char *phrase, const char *type, const char *body, size_t length) {
    char head[256];
    int count = sprintf(head, "HTTP/1.1 %d %s\r\ncontent-type: %s\r\ncontent-length: %zu\r\nconnection: close\r\n\r\n", status, phrase, type, length);
    write_all(stream, head, (size_t)count);
    write_all(stream, body, length);
}

// Reads a message: its length, once the body is whole, and where the body begins.
static size_t read_message(int stream, char *room, char **body) {
    size_t length = 0;
    for (;;) {
        ssize_t count = read(stream, room + length, MOST - 1 - length);
        if (count <= 0) return 0;
        length += (size_t)count;
        room[length] = 0;
        char *end = strstr(room, "\r\n\r\n");
        if (!end) continue;
        char *told = strstr(room, "content-length: ");
        size_t wanted = told && told < end ? strtoul(told + 16, NULL, 10) : 0;
        *body = end + 4;
        if ((size_t)(room + length - *body) >= wanted) return length;
    }
}

// The value of a field of the head.
static const char *value(const char *room, const char *name, char *text) {
    const char *at = strstr(room, name);
    size_t length = 0;
    if (at) {
        at += strlen(name);
        length = strcspn(at, "\r");
        memcpy(text, at, length);
    }
    text[length] = 0;
    return text;
}

// Acts on an order, as on a line that has the caller and the key in front.
static void command(int stream, const char *room, const char *body) {
    char caller[TEXT], key[TEXT], line[MOST + 3 * TEXT], shown[2 * TEXT + 64];
    sprintf(line, "{\"caller\":\"%s\",\"key\":\"%s\",%s", value(room, "registry-caller: ", caller), value(room, "registry-key: ", key), body + 1);
    int length = reply_line(line, shown), is_done = !strncmp(shown, "{\"done\"", 7);
    memset(lengths, 0, sizeof lengths);
    respond(stream, is_done ? 200 : 409, is_done ? "OK" : "Conflict", "application/json", shown, (size_t)length);
}

static void ask_number(int stream, const char *room) {
    char shown[4 * TEXT];
    int pid = (int)strtol(room + strlen("GET /numbers/"), NULL, 16), length;
    sqlite3_reset(one_number);
    sqlite3_bind_int(one_number, 1, pid);
    if (finds(one_number)) {
        const char *text[5];
        for (int at = 0; at < 5; at++) text[at] = (const char *)sqlite3_column_text(one_number, at);
        length = sprintf(shown, "{\"licence\":\"%s\",\"number\":\"%04x\",\"org\":\"%s\",\"site\":\"%s\",\"source\":\"%s\",\"state\":\"%s\",\"title\":\"%s\"}\n", text[2], pid, text[0], text[3], text[4], sqlite3_column_int(one_number, 5) ? "held" : "returned", text[1]);
    } else {
        length = sprintf(shown, "{\"number\":\"%04x\",\"state\":\"%s\"}\n", pid, reaches(FIXED, pid) || reaches(SPAN, pid) ? "reserved" : "free");
    }
    sqlite3_reset(one_number);
    respond(stream, 200, "OK", "application/json", shown, (size_t)length);
}

static int make_list(char *text) {
    int length = sprintf(text, "# List of USB numbers in the syntax of usb.ids\n\n1209  Shared products\n");
    while (finds(rows[LIST]) && length < ROOM - 1024)
        length += sprintf(text + length, "\t%04x  %s\n", sqlite3_column_int(rows[LIST], 0), sqlite3_column_text(rows[LIST], 1));
    return length;
}

static int make_holders(char *text) {
    int length = 0;
    while (finds(rows[HOLDERS]) && length < ROOM - 1024)
        length += sprintf(text + length, "%-32s%6d%6d\n", sqlite3_column_text(rows[HOLDERS], 0), sqlite3_column_int(rows[HOLDERS], 1), sqlite3_column_int(rows[HOLDERS], 2));
    return length;
}

static void ask_text(int stream, enum text which) {
    if (!lengths[which]) {
        sqlite3_reset(rows[which]);
        lengths[which] = which == LIST ? make_list(kept[which]) : make_holders(kept[which]);
        sqlite3_reset(rows[which]);
    }
    respond(stream, 200, "OK", "text/plain; charset=utf-8", kept[which], (size_t)lengths[which]);
}

int main(int count, char **words) {
    if (count != 4 && count != 5) return 2;
    open_store(words[1], words[3], count == 5 ? words[4] : "4096");
    must(sqlite3_prepare_v3(db, "SELECT org, title, licence, site, source, held FROM entries3 WHERE vid = 4617 AND pid = ?1", -1, SQLITE_PREPARE_PERSISTENT, &one_number, NULL) == SQLITE_OK);
    must(sqlite3_prepare_v3(db, "SELECT pid, title FROM entries3 WHERE vid = 4617 AND held = 1 ORDER BY pid", -1, SQLITE_PREPARE_PERSISTENT, &rows[LIST], NULL) == SQLITE_OK);
    must(sqlite3_prepare_v3(db, "SELECT org, sum(held), sum(1 - held) FROM entries3 GROUP BY org ORDER BY org", -1, SQLITE_PREPARE_PERSISTENT, &rows[HOLDERS], NULL) == SQLITE_OK);
    int listener = socket(AF_INET, SOCK_STREAM, 0), yes = 1;
    struct sockaddr_in place = { .sin_family = AF_INET, .sin_port = htons((uint16_t)atoi(words[2])), .sin_addr.s_addr = htonl(INADDR_LOOPBACK) };
    setsockopt(listener, SOL_SOCKET, SO_REUSEADDR, &yes, sizeof yes);
    if (bind(listener, (struct sockaddr *)&place, sizeof place) || listen(listener, 128)) return 1;
    static char room[MOST];
    for (;;) {
        int stream = accept(listener, NULL, NULL);
        char *body = room;
        if (stream < 0) return 1;
        setsockopt(stream, IPPROTO_TCP, TCP_NODELAY, &yes, sizeof yes);
        if (read_message(stream, room, &body)) {
            if (!strncmp(room, "POST /commands ", 15)) command(stream, room, body);
            else if (!strncmp(room, "GET /numbers/", 13)) ask_number(stream, room);
            else if (!strncmp(room, "GET /list ", 10)) ask_text(stream, LIST);
            else if (!strncmp(room, "GET /reports/holders ", 21)) ask_text(stream, HOLDERS);
        }
        close(stream);
    }
}
