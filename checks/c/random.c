/*
 * 2,000 random calls by 8 clients, each in a thread of its own, none of which waits. A client that has ended begins again, or another forks or clones
 * into it. Each call has a place of its own among the events; in the order of these the calls are written as a script to the first file, and what
 * each was answered to the second, as ./ipcsh prints it. The journal of the service goes to the third.
 */
#define _GNU_SOURCE
#include "ipcsh.h"

#include <pthread.h>
#include <stdarg.h>
#include <stdatomic.h>
#include <stdio.h>
#include <stdlib.h>

enum { CLIENTS = 8, EACH = 250, CALLS = CLIENTS * EACH, BYTES = 64, SEMS = 4, OBJECTS = 8 };

struct text {
    size_t len;
    char at[2048];
};

struct called {
    uint64_t place;
    struct text line, row;
};

struct client {
    pthread_t thread;
    ipcsh *handle;
    int number;
    _Atomic int has_ended; /* as far as it knows */
    uint64_t state;
    struct called calls[EACH];
};

static struct client clients[CLIENTS];
static struct called *all[CALLS];

/* The latest place of a call that has ended: one that begins then has a later place. */
static _Atomic uint64_t latest;

static void put(struct text *text, const char *format, ...)
{
    va_list rest;
    va_start(rest, format);
    text->len += (size_t)vsnprintf(text->at + text->len, sizeof text->at - text->len, format, rest);
    va_end(rest);
    if (text->len >= sizeof text->at)
        abort();
}

static void put_bytes(struct text *text, const unsigned char *bytes, uint64_t len)
{
    put(text, "x:");
    for (uint64_t i = 0; i < len; i++)
        put(text, "%02x", bytes[i]);
}

/* xorshift */
static uint32_t any(struct client *it, uint32_t below)
{
    it->state ^= it->state << 13;
    it->state ^= it->state >> 7;
    it->state ^= it->state << 17;
    return (uint32_t)(it->state >> 33) % below;
}

static const char kind_letters[] = "qsm";
static const char *const op_names[] = {"msgget", "msgsnd", "msgrcv", "semget", "semop",    "semtimedop", "getval", "getpid", "getncnt",
                                       "getzcnt", "getall", "setval", "setall", "shmget", "shmat",      "shmdt",  "shmread", "shmwrite",
                                       "stat",    "set",    "rmid",   "ipcs",   "interrupt", "setcreds", "exit",
                                       "interrupt", "kill", "assume", "begin", "fork", "clone", "name", "exec"};

struct lists_of {
    unsigned char bytes[BYTES];
    struct ipcsh_semop ops[3];
    uint16_t values[SEMS];
    uint32_t groups[2];
};

static uint32_t any_flags(struct client *it)
{
    return (any(it, 4) ? (uint32_t)IPCSH_CREAT : 0) | (any(it, 8) ? 0u : (uint32_t)IPCSH_EXCL) | (any(it, 4) ? 0666 : any(it, 512));
}

/* One on processes and threads: mostly one that makes a thread, as others end them. */
static enum ipcsh_op any_life(struct client *it)
{
    static const enum ipcsh_op ops[] = {IPCSH_FORK, IPCSH_FORK, IPCSH_FORK, IPCSH_CLONE, IPCSH_CLONE, IPCSH_CLONE, IPCSH_BEGIN,
                                        IPCSH_EXEC, IPCSH_KILL, IPCSH_EXIT, IPCSH_EXIT, IPCSH_NAME, IPCSH_ASSUME, IPCSH_INTERRUPT_THREAD};
    return ops[any(it, sizeof ops / sizeof *ops)];
}

/* A removal is rarer than the others. A client that has ended begins after a few calls, which are refused. */
static enum ipcsh_op any_op(struct client *it)
{
    if (it->has_ended && !any(it, 6))
        return IPCSH_BEGIN;
    if (!any(it, 8))
        return any_life(it);
    uint32_t op = any(it, IPCSH_EXIT);
    return (enum ipcsh_op)(op == IPCSH_RMID && any(it, 4) ? any(it, IPCSH_RMID) : op);
}

static void any_ops(struct client *it, struct lists_of *own, struct ipcsh_lists *lists, struct text *line)
{
    lists->ops = own->ops;
    lists->ops_len = any(it, 4);
    for (size_t i = 0; i < lists->ops_len; i++) {
        own->ops[i] = (struct ipcsh_semop){(uint16_t)any(it, SEMS), (int16_t)((int)any(it, 5) - 2), (uint16_t)(IPCSH_NOWAIT | (any(it, 2) ? IPCSH_SEM_UNDO : 0))};
        put(line, " %u:%d:%u", own->ops[i].num, own->ops[i].op, own->ops[i].flags);
    }
}

static void any_bytes(struct client *it, struct lists_of *own, struct ipcsh_lists *lists)
{
    lists->text = own->bytes;
    lists->text_len = any(it, BYTES + 1);
    for (size_t i = 0; i < lists->text_len; i++)
        own->bytes[i] = (unsigned char)any(it, 256);
}

static void any_groups(struct client *it, struct lists_of *own, struct ipcsh_lists *lists, struct text *line)
{
    lists->groups = own->groups;
    lists->groups_len = 1 + any(it, 2);
    for (size_t i = 0; i < lists->groups_len; i++)
        put(line, "%s%u", i ? "," : " groups=", own->groups[i] = 10 + any(it, 3));
}

/* Credentials as a script has them: the real ones are the effective ones. */
static void any_identity(struct client *it, struct ipcsh_request *r, struct lists_of *own, struct ipcsh_lists *lists, struct text *line)
{
    r->uid = r->ruid = r->suid = 100 + any(it, 3);
    r->gid = r->rgid = r->sgid = 10 + any(it, 2);
    r->caps = any(it, 4) ? 0 : 31;
    put(line, " %u %u", r->uid, r->gid);
    if (any(it, 2))
        any_groups(it, own, lists, line);
    if (r->caps)
        put(line, " caps=IPC_OWNER,SYS_ADMIN,SYS_RESOURCE,SETUID,SETGID");
    if (any(it, 2))
        return;
    r->suid = 100 + any(it, 3);
    r->sgid = 10 + any(it, 2);
    put(line, " saved=%u:%u", r->suid, r->sgid);
}

/* Mostly one that has ended. */
static uint32_t any_client(struct client *it)
{
    uint32_t client = any(it, CLIENTS);
    for (int i = 0; i < 6 && !clients[client].has_ended; i++)
        client = any(it, CLIENTS);
    return client;
}

/* The same of a call on processes and threads as of others below. A script names a client, where a request has its number. */
static void any_process_call(struct client *it, struct ipcsh_request *r, struct lists_of *own, struct ipcsh_lists *lists, struct text *line)
{
    const uint32_t client = r->op == IPCSH_INTERRUPT_THREAD ? any(it, CLIENTS) : any_client(it);
    r->id = any(it, 20);
    switch (r->op) {
    case IPCSH_INTERRUPT_THREAD:
        r->id = client;
        put(line, " c%u", client);
        break;
    case IPCSH_FORK:
        r->num = client;
        put(line, " c%u %u", client, r->id);
        break;
    case IPCSH_CLONE:
        r->num = client;
        put(line, " c%u", client);
        break;
    case IPCSH_BEGIN: put(line, " %u", r->id); /* fall through */
    case IPCSH_ASSUME: any_identity(it, r, own, lists, line); break;
    case IPCSH_INTERRUPT: case IPCSH_KILL: case IPCSH_NAME: put(line, " %u", r->id); break;
    default: break;
    }
}

/* A call, its lists, and what follows its name in a script. */
static void any_call(struct client *it, struct ipcsh_request *r, struct lists_of *own, struct ipcsh_lists *lists, struct text *line)
{
    static const enum ipcsh_kind kind_of[] = {IPCSH_QUEUE, IPCSH_SEMS, IPCSH_SEGMENT};
    r->kind = kind_of[any(it, 3)];
    r->key = any(it, 4);
    r->flags = any_flags(it);
    r->id = any(it, any(it, 4) ? 3 : 12);
    r->num = any(it, SEMS + 1);
    switch (r->op) {
    case IPCSH_MSGGET: put(line, " %u %u", r->key, r->flags); break;
    case IPCSH_MSGSND:
        r->mtype = (int64_t)any(it, 4);
        r->flags = IPCSH_NOWAIT;
        any_bytes(it, own, lists);
        put(line, " %u %lld ", r->id, (long long)r->mtype);
        put_bytes(line, own->bytes, lists->text_len);
        put(line, " %u", r->flags);
        break;
    case IPCSH_MSGRCV:
        r->mtype = (int64_t)any(it, 7) - 3;
        r->size = any(it, BYTES + 1);
        r->flags = IPCSH_NOWAIT | (any(it, 2) ? (uint32_t)IPCSH_MSG_NOERROR : 0) | (any(it, 3) ? 0u : (uint32_t)IPCSH_MSG_EXCEPT);
        put(line, " %u %llu %lld %u", r->id, (unsigned long long)r->size, (long long)r->mtype, r->flags);
        break;
    case IPCSH_SEMGET: put(line, " %u %u %u", r->key, r->num, r->flags); break;
    case IPCSH_SEMOP:
        put(line, " %u", r->id);
        any_ops(it, own, lists, line);
        break;
    case IPCSH_SEMTIMEDOP:
        r->timeout = any(it, 9);
        put(line, " %u %llu", r->id, (unsigned long long)r->timeout);
        any_ops(it, own, lists, line);
        break;
    case IPCSH_GETVAL: case IPCSH_GETPID: case IPCSH_GETNCNT: case IPCSH_GETZCNT: put(line, " %u %u", r->id, r->num); break;
    case IPCSH_GETALL: put(line, " %u", r->id); break;
    case IPCSH_SETVAL:
        r->value = (int32_t)any(it, 6) - 1;
        put(line, " %u %u %d", r->id, r->num, r->value);
        break;
    case IPCSH_SETALL:
        put(line, " %u", r->id);
        lists->values = own->values;
        lists->values_len = any(it, SEMS + 1);
        for (size_t i = 0; i < lists->values_len; i++)
            put(line, " %u", own->values[i] = (uint16_t)(any(it, 20) ? any(it, 5) : 40000));
        break;
    case IPCSH_SHMGET:
        r->size = any(it, BYTES + 2);
        put(line, " %u %llu %u", r->key, (unsigned long long)r->size, r->flags);
        break;
    case IPCSH_SHMAT:
        r->flags = any(it, 4) ? 0u : (uint32_t)IPCSH_SHM_RDONLY;
        put(line, " %u %u", r->id, r->flags);
        break;
    case IPCSH_SHMDT:
        r->id = any(it, 2);
        put(line, " %u", r->id);
        break;
    case IPCSH_SHMREAD:
        r->id = any(it, 2);
        r->offset = any(it, 8);
        r->size = any(it, BYTES + 1);
        put(line, " %u %llu %llu", r->id, (unsigned long long)r->offset, (unsigned long long)r->size);
        break;
    case IPCSH_SHMWRITE:
        r->id = any(it, 2);
        r->offset = any(it, 8);
        any_bytes(it, own, lists);
        put(line, " %u %llu ", r->id, (unsigned long long)r->offset);
        put_bytes(line, own->bytes, lists->text_len);
        break;
    case IPCSH_STAT: case IPCSH_RMID: put(line, " %c %u", kind_letters[r->kind], r->id); break;
    case IPCSH_SET:
        r->uid = 100 + any(it, 3);
        r->gid = 10 + any(it, 2);
        r->mode = any(it, 512);
        r->more = any(it, 2);
        r->size = r->more ? any(it, 400) : 0;
        put(line, " %c %u %u %u %u", kind_letters[r->kind], r->id, r->uid, r->gid, r->mode);
        if (r->more)
            put(line, " %llu", (unsigned long long)r->size);
        break;
    case IPCSH_LISTING: put(line, " -%c", kind_letters[r->kind]); break;
    case IPCSH_SETCREDS:
        r->uid = 100 + any(it, 3);
        r->gid = 10 + any(it, 2);
        r->more = any(it, 2);
        put(line, " %u %u", r->uid, r->gid);
        if (r->more)
            any_groups(it, own, lists, line);
        break;
    default: any_process_call(it, r, own, lists, line);
    }
}

static void put_object(struct text *row, const struct ipcsh_object *o)
{
    static const char *const kinds[] = {"queue", "set", "segment"};
    put(row, " %s key 0x%08x uid %u gid %u cuid %u cgid %u mode %04o", kinds[o->kind], o->key, o->uid, o->gid, o->cuid, o->cgid, o->mode | (o->marked ? 01000 : 0));
#define N(name, field) put(row, " " name " %llu", (unsigned long long)o->field)
    switch (o->kind) {
    case IPCSH_QUEUE: N("cbytes", bytes); N("qnum", count); N("qbytes", qbytes); N("lspid", lspid); N("lrpid", lrpid); N("stime", stime); N("rtime", rtime); break;
    case IPCSH_SEMS: N("nsems", count); N("otime", otime); break;
    default: N("size", bytes); N("nattch", count); N("cpid", cpid); N("lpid", lpid); N("atime", atime); N("dtime", dtime);
    }
    N("ctime", ctime);
}

static void put_listed(struct text *row, const struct ipcsh_object *o)
{
    put(row, "\n  %c 0x%08x %u %u %04o", kind_letters[o->kind], o->key, o->id, o->uid, o->mode | (o->marked ? 01000 : 0));
    if (o->kind == IPCSH_SEMS)
        put(row, " %llu", (unsigned long long)o->count);
    else
        put(row, " %llu %llu", (unsigned long long)o->bytes, (unsigned long long)o->count);
}

static void put_reply(struct client *it, struct text *row, const struct ipcsh_reply *reply, const struct ipcsh_room *room)
{
    put(row, "%llu.%u c%d", (unsigned long long)reply->place, reply->turn, it->number);
    if (reply->error) {
        put(row, " error %u %s %s", reply->error, strerrorname_np((int)reply->error), ipcsh_rule_name(reply->rule));
        return;
    }
    switch (reply->answer) {
    case IPCSH_ANSWER_ID: put(row, " id %u", reply->value); break;
    case IPCSH_ANSWER_DONE: put(row, " ok"); break;
    case IPCSH_ANSWER_VALUE: put(row, " value %u", reply->value); break;
    case IPCSH_ANSWER_ATTACHED: put(row, " attached %u", reply->value); break;
    case IPCSH_ANSWER_MESSAGE:
        put(row, " message %lld ", (long long)reply->mtype);
        put_bytes(row, room->bytes, reply->len);
        break;
    case IPCSH_ANSWER_BYTES:
        put(row, " bytes ");
        put_bytes(row, room->bytes, reply->len);
        break;
    case IPCSH_ANSWER_VALUES:
        put(row, " values");
        for (uint64_t i = 0; i < reply->len; i++)
            put(row, " %u", room->values[i]);
        break;
    case IPCSH_ANSWER_STATUS: put_object(row, room->objects); break;
    case IPCSH_ANSWER_OBJECTS:
        put(row, " list %llu", (unsigned long long)reply->len);
        for (uint64_t i = 0; i < reply->len; i++)
            put_listed(row, &room->objects[i]);
        break;
    default: put(row, " no answer");
    }
}

/* Half of them are called, and half posted and waited for. Half have no room at first, and then enough: nothing is lost. */
static int asked(struct client *it, const struct ipcsh_request *request, const struct ipcsh_lists *lists, struct ipcsh_reply *reply, const struct ipcsh_room *room)
{
    const struct ipcsh_room *first = any(it, 2) ? room : NULL;
    int code;
    if (any(it, 2)) {
        code = ipcsh_call(it->handle, request, lists, reply, first);
    } else {
        code = ipcsh_post(it->handle, request, lists);
        code = code ? code : ipcsh_wait(it->handle, reply, first);
    }
    return code == IPCSH_NO_ROOM ? ipcsh_wait(it->handle, reply, room) : code;
}

static void call(struct client *it, struct called *called)
{
    struct ipcsh_request request = ipcsh_request_of(any_op(it), any(it, 1000));
    struct lists_of own;
    struct ipcsh_lists lists = {0};
    unsigned char bytes[BYTES];
    uint16_t values[SEMS];
    struct ipcsh_object objects[OBJECTS];
    struct ipcsh_reply reply;
    const struct ipcsh_room room = {bytes, sizeof bytes, values, SEMS, objects, OBJECTS};
    put(&called->line, "clock %llu\nc%d %s", (unsigned long long)request.clock, it->number, op_names[request.op]);
    any_call(it, &request, &own, &lists, &called->line);
    uint64_t before = latest;
    int code = asked(it, &request, &lists, &reply, &room);
    if (code)
        put(&called->row, "code %d", code);
    else
        put_reply(it, &called->row, &reply, &room);
    if (reply.place <= before)
        put(&called->row, " after %llu", (unsigned long long)before);
    it->has_ended = reply.error ? !strcmp(ipcsh_rule_name(reply.rule), "ended") : request.op == IPCSH_EXIT;
    called->place = reply.place;
    while (before < reply.place && !atomic_compare_exchange_weak(&latest, &before, reply.place)) {
    }
}

static void *run(void *given)
{
    struct client *it = given;
    for (int i = 0; i < EACH; i++)
        call(it, &it->calls[i]);
    return NULL;
}

static int by_place(const void *a, const void *b)
{
    const struct called *x = *(struct called *const *)a, *y = *(struct called *const *)b;
    return x->place < y->place ? -1 : x->place > y->place;
}

/* All of the journal, by the first client, which calls no more. */
static int write_journal(const char *path)
{
    static char text[65536];
    size_t len;
    FILE *file = fopen(path, "w");
    if (!file)
        return 2;
    do {
        if (ipcsh_read_journal(clients[0].handle, text, sizeof text, &len) || fwrite(text, 1, len, file) != len)
            return 2;
    } while (len);
    return fclose(file);
}

static int open_and_run(struct ipcsh_client *creds, uint64_t seed)
{
    const struct ipcsh_limits limits = {8, 8, 8, BYTES - 4, 4 * BYTES, SEMS, 2, BYTES, 0, 0};
    ipcsh *handles[CLIENTS];
    for (int i = 0; i < CLIENTS; i++)
        creds[i] = (struct ipcsh_client){.uid = 100 + (uint32_t)i % 3, .gid = 10, .caps = i == 0 ? 31 : i == 1 ? IPCSH_IPC_OWNER : 0,
                                         .ngroups = i == 2, .groups = {11}};
    if (ipcsh_open_with_journal(&limits, creds, CLIENTS, handles))
        return 2;
    for (int i = 0; i < CLIENTS; i++) {
        clients[i].handle = handles[i];
        clients[i].number = i;
        clients[i].state = seed * 100 + (uint64_t)i + 1;
        if (pthread_create(&clients[i].thread, NULL, run, &clients[i]))
            return 2;
    }
    for (int i = 0; i < CLIENTS; i++)
        pthread_join(clients[i].thread, NULL);
    return 0;
}

static void write_clients(FILE *script, const struct ipcsh_client *creds)
{
    for (int i = 0; i < CLIENTS; i++)
        fprintf(script, "client c%d %u %u%s%s\n", i, creds[i].uid, creds[i].gid, i == 2 ? " groups=11" : "",
                i == 0 ? " caps=IPC_OWNER,SYS_ADMIN,SYS_RESOURCE,SETUID,SETGID" : i == 1 ? " caps=IPC_OWNER" : "");
    fprintf(script, "limit slots 8\nlimit msgmax %d\nlimit msgmnb %d\nlimit semmsl %d\nlimit semopm 2\nlimit shmmax %d\n",
            BYTES - 4, 4 * BYTES, SEMS, BYTES);
}

int main(int argc, char **argv)
{
    struct ipcsh_client creds[CLIENTS];
    if (argc != 5 || open_and_run(creds, strtoull(argv[1], NULL, 10)) || write_journal(argv[4]))
        return 2;
    FILE *script = fopen(argv[2], "w"), *rows = fopen(argv[3], "w");
    if (!script || !rows)
        return 2;
    for (int i = 0; i < CLIENTS; i++) {
        ipcsh_close(clients[i].handle);
        for (int k = 0; k < EACH; k++)
            all[i * EACH + k] = &clients[i].calls[k];
    }
    write_clients(script, creds);
    qsort(all, CALLS, sizeof *all, by_place);
    for (int i = 0; i < CALLS; i++) {
        fprintf(script, "%s\n", all[i]->line.at);
        fprintf(rows, "%s\n", all[i]->row.at);
    }
    return fclose(script) || fclose(rows) ? 2 : 0;
}
