/* Prints the messages of a stream of a feed, by their numbers (FEED.md):
 *
 *     cc -o feed_reader feed_reader.c -lnats
 *     ./feed_reader HOST:PORT USER PASSWORDS CA.PEM venue_NAME_events 1 [once]
 *
 * from that number on, each once and in order. It goes on as the stream grows, or ends where that ends with `once`. */
#include <nats/nats.h>
#include <stdio.h>
#include <stdlib.h>
#include <string.h>

static natsStatus check(natsStatus status, const char *what) {
    if (status != NATS_OK && status != NATS_NOT_FOUND) {
        fprintf(stderr, "feed_reader: %s: %s\n", what, natsStatus_GetText(status));
        exit(1);
    }
    return status;
}

/* The password of a user, of a file of lines USER:PASSWORD. */
static const char *password_of(const char *path, const char *user) {
    static char line[256];
    size_t size = strlen(user);
    FILE *file = fopen(path, "r");
    while (file && fgets(line, sizeof line, file)) {
        line[strcspn(line, "\n")] = 0;
        if (!strncmp(line, user, size) && line[size] == ':') {
            fclose(file);
            return line + size + 1;
        }
    }
    fprintf(stderr, "feed_reader: %s has no line of %s\n", path, user);
    exit(1);
}

static natsConnection *connected(const char *place, const char *user, const char *passwords, const char *authority) {
    natsOptions *options = NULL;
    natsConnection *connection = NULL;
    char url[256];
    snprintf(url, sizeof url, "tls://%s", place);
    check(natsOptions_Create(&options), "options");
    check(natsOptions_SetURL(options, url), place);
    check(natsOptions_SetUserInfo(options, user, password_of(passwords, user)), user);
    check(natsOptions_SetSecure(options, true), "TLS");
    check(natsOptions_LoadCATrustedCertificates(options, authority), authority);
    check(natsOptions_SetMaxReconnect(options, -1), "options");
    check(natsConnection_Connect(&connection, options), place);
    natsOptions_Destroy(options);
    return connection;
}

/* Whether this is the message of this number and stream, and no answer to somebody else. */
static int is_asked(natsMsg *message, const char *stream, unsigned long long number) {
    const char *of = NULL, *at = NULL;
    return natsMsgHeader_Get(message, "Nats-Stream", &of) == NATS_OK && !strcmp(of, stream) &&
           natsMsgHeader_Get(message, "Nats-Sequence", &at) == NATS_OK && strtoull(at, NULL, 10) == number;
}

int main(int count, char **words) {
    jsCtx *streams = NULL;
    natsConnection *connection;
    unsigned long long next;
    int once = count == 8 && !strcmp(words[7], "once");
    if (count != 7 && !once) {
        fprintf(stderr, "usage: feed_reader HOST:PORT USER PASSWORDS CA.PEM STREAM NUMBER [once]\n");
        return 2;
    }
    connection = connected(words[1], words[2], words[3], words[4]);
    check(natsConnection_JetStream(&streams, connection, NULL), "JetStream");
    for (next = strtoull(words[6], NULL, 10);;) {
        jsDirectGetMsgOptions which;
        natsMsg *message = NULL;
        natsStatus status;
        jsDirectGetMsgOptions_Init(&which);
        which.Sequence = next;
        status = js_DirectGetMsg(&message, streams, words[5], NULL, &which);
        if (status == NATS_OK) {
            if (is_asked(message, words[5], next)) {
                printf("%.*s\n", natsMsg_GetDataLength(message), natsMsg_GetData(message));
                next++;
            }
            natsMsg_Destroy(message);
        } else if (status == NATS_NOT_FOUND) { /* The stream hasn't got the message yet. */
            if (fflush(stdout) || once) break;
            nats_Sleep(50);
        } else { /* The servers don't answer now. */
            fprintf(stderr, "feed_reader: %llu: %s\n", next, natsStatus_GetText(status));
            nats_Sleep(1000);
        }
    }
    jsCtx_Destroy(streams);
    natsConnection_Destroy(connection);
    nats_Close();
    return ferror(stdout) ? 1 : 0;
}
