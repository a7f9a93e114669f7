// What libraries.py does, by hiredis: hiredis PORT. It ends by 1, and says why, at the first reply that isn't what its command means.
#include <hiredis/hiredis.h>
#include <stdarg.h>
#include <stdio.h>
#include <stdlib.h>
#include <string.h>

enum { PIPELINE = 1000, ACCOUNTS = 8, BYTES = 255 };

static redisContext *server;

static void fail(const char *what) {
    fprintf(stderr, "%s is answered otherwise; %s\n", what, server->err ? server->errstr : "the connection is well");
    exit(1);
}

static int is_text(const redisReply *reply, int type, const char *bytes, size_t length) {
    return reply && reply->type == type && (size_t)reply->len == length && memcmp(reply->str, bytes, length) == 0;
}

static int is_number(const redisReply *reply, long long number) {
    return reply && reply->type == REDIS_REPLY_INTEGER && reply->integer == number;
}

static redisReply *asked(const char *format, ...) {
    va_list words;
    va_start(words, format);
    redisReply *reply = redisvCommand(server, format, words);
    va_end(words);
    return reply;
}

static redisReply *next_reply(void) {
    void *reply = NULL;
    return redisGetReply(server, &reply) == REDIS_OK ? reply : NULL;
}

static void wants(int holds, const char *what, redisReply *reply) {
    if (!holds) fail(what);
    freeReplyObject(reply);
}

static void wants_text(const char *what, redisReply *reply, int type, const char *text) {
    wants(is_text(reply, type, text, strlen(text)), what, reply);
}

static void wants_number(const char *what, redisReply *reply, long long number) {
    wants(is_number(reply, number), what, reply);
}

// An array of these texts; NULL stands for null.
static void wants_texts(const char *what, redisReply *reply, size_t count, const char **texts) {
    int holds = reply && reply->type == REDIS_REPLY_ARRAY && reply->elements == count;
    for (size_t at = 0; holds && at < count; at++) {
        const redisReply *each = reply->element[at];
        holds = texts[at] ? is_text(each, REDIS_REPLY_STRING, texts[at], strlen(texts[at])) : each->type == REDIS_REPLY_NIL;
    }
    wants(holds, what, reply);
}

static void plain_requests(void) {
    char bytes[BYTES];
    for (int at = 0; at < BYTES; at++) bytes[at] = (char)at;
    wants_text("SET", asked("SET c:bytes %b", bytes, (size_t)BYTES), REDIS_REPLY_STATUS, "OK");
    redisReply *came = asked("GET c:bytes");
    wants(is_text(came, REDIS_REPLY_STRING, bytes, BYTES), "GET", came);
    wants_text("SET of no byte", asked("SET c:none %b", "", (size_t)0), REDIS_REPLY_STATUS, "OK");
    wants_texts("MGET", asked("MGET c:none c:absent"), 2, (const char *[]){"", NULL});
    wants_number("SETNX", asked("SETNX c:once 1"), 1);
    wants_number("SETNX again", asked("SETNX c:once 2"), 0);
}

static void other_kinds(void) {
    wants_number("RPUSH", asked("RPUSH c:list a b c"), 3);
    wants_texts("LRANGE", asked("LRANGE c:list 0 -1"), 3, (const char *[]){"a", "b", "c"});
    wants_number("HSET", asked("HSET c:hash f 1 g 2"), 2);
    wants_texts("HMGET", asked("HMGET c:hash g h"), 2, (const char *[]){"2", NULL});
    wants_number("SADD", asked("SADD c:left x y"), 2);
    wants_number("SADD", asked("SADD c:right y z"), 2);
    wants_texts("SINTER", asked("SINTER c:left c:right"), 1, (const char *[]){"y"});
    wants_number("SUNIONSTORE", asked("SUNIONSTORE c:both c:left c:right"), 3);
    redisReply *came = asked("INCR c:list");
    wants(came && came->type == REDIS_REPLY_ERROR && strncmp(came->str, "WRONGTYPE ", 10) == 0, "INCR of a list", came);
}

static void pipeline(void) {
    for (int number = 0; number < PIPELINE; number++) redisAppendCommand(server, "INCR c:count");
    for (int number = 1; number <= PIPELINE; number++) wants_number("a pipeline", next_reply(), number);
}

static void transaction(void) {
    redisAppendCommand(server, "MULTI");
    for (int number = 0; number < ACCOUNTS; number++) redisAppendCommand(server, "INCRBY c:account:%d %d", number, number);
    redisAppendCommand(server, "EXEC");
    wants_text("MULTI", next_reply(), REDIS_REPLY_STATUS, "OK");
    for (int number = 0; number < ACCOUNTS; number++) wants_text("a member", next_reply(), REDIS_REPLY_STATUS, "QUEUED");
    redisReply *all = next_reply();
    int holds = all && all->type == REDIS_REPLY_ARRAY && all->elements == ACCOUNTS;
    for (int number = 0; holds && number < ACCOUNTS; number++) holds = is_number(all->element[number], number);
    wants(holds, "EXEC", all);
}

int main(int count, char **words) {
    server = redisConnect("127.0.0.1", count > 1 ? atoi(words[1]) : 7379);
    if (!server || server->err) {
        fprintf(stderr, "no connection\n");
        return 1;
    }
    plain_requests();
    other_kinds();
    pipeline();
    transaction();
    redisFree(server);
    return 0;
}
