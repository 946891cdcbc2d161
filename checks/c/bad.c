/* What a program may get wrong that can be known: each line is what the library says to it. Nothing is lost by any of them. */
#include "ipcsh.h"

#include <stdio.h>

static void tell(const char *what, int code) { printf("%s: %d\n", what, code); }

static void opening(void)
{
    const struct ipcsh_limits limits = IPCSH_DEFAULT_LIMITS;
    struct ipcsh_limits other = IPCSH_DEFAULT_LIMITS;
    static const struct ipcsh_client many[65];
    struct ipcsh_client one = {.uid = 100, .gid = 10};
    ipcsh *handles[65];
    tell("open without limits", ipcsh_open(NULL, &one, 1, handles));
    tell("open without clients", ipcsh_open(&limits, NULL, 1, handles));
    tell("open without a place for handles", ipcsh_open(&limits, &one, 1, NULL));
    tell("open for no clients", ipcsh_open(&limits, &one, 0, handles));
    tell("open for 65 clients", ipcsh_open(&limits, many, 65, handles));
    printf("handle 64 is %s\n", handles[64] ? "there" : "NULL");
    one.ngroups = 33;
    tell("open with 33 groups", ipcsh_open(&limits, &one, 1, handles));
    one.ngroups = 0;
    one.caps = 32;
    tell("open with a sixth capability", ipcsh_open(&limits, &one, 1, handles));
    one.caps = 31;
    other.queues = 0;
    tell("open with no queues", ipcsh_open(&other, &one, 1, handles));
    other.queues = 32768;
    other.sets = 32769;
    tell("open with too many sets", ipcsh_open(&other, &one, 1, handles));
    other.sets = 1;
    other.segments = 0;
    tell("open with no segments", ipcsh_open(&other, &one, 1, handles));
    tell("a raw open with fewer places than clients", ipcsh_raw_open(&limits, many, 2, handles, 1));
    one.ngroups = 32;
    tell("open with a journal for no clients", ipcsh_open_with_journal(&limits, &one, 0, handles));
    tell("open with 32 groups", ipcsh_open(&limits, &one, 1, handles));
    ipcsh_close(handles[0]);
    ipcsh_close(NULL);
    tell("open for 64 clients", ipcsh_open(&limits, many, 64, handles));
    for (int i = 0; i < 64; i++)
        ipcsh_close(handles[i]);
}

static void calling(ipcsh *alice, ipcsh *bob)
{
    struct ipcsh_request request = ipcsh_request_of(IPCSH_EXIT, 0);
    struct ipcsh_reply reply = {.place = 77};
    struct ipcsh_lists lists = {.text_len = 1};
    struct ipcsh_room room = {.bytes_len = 1};
    uint32_t queue = 0;
    tell("post without a handle", ipcsh_post(NULL, &request, NULL));
    tell("post without a request", ipcsh_post(alice, NULL, NULL));
    tell("post of bytes at NULL", ipcsh_post(alice, &request, &lists));
    tell("advance without a handle", ipcsh_advance(NULL, &reply, NULL));
    tell("advance without a reply", ipcsh_advance(alice, NULL, NULL));
    tell("advance to bytes at NULL", ipcsh_advance(alice, &reply, &room));
    tell("call without a handle", ipcsh_call(NULL, &request, NULL, &reply, NULL));
    tell("call without a request", ipcsh_call(alice, NULL, NULL, &reply, NULL));
    tell("call without a reply", ipcsh_call(alice, &request, NULL, NULL, NULL));
    tell("call with bytes at NULL", ipcsh_call(alice, &request, &lists, &reply, NULL));
    tell("call to bytes at NULL", ipcsh_call(alice, &request, NULL, &reply, &room));
    tell("advance without a call", ipcsh_advance(alice, &reply, NULL));
    printf("the reply is %s\n", reply.place == 77 ? "as it was" : "changed");
    request.op = IPCSH_EXEC + 1;
    tell("an operation that there isn't", ipcsh_post(alice, &request, NULL));
    request.op = 4000000000u;
    tell("another one", ipcsh_post(alice, &request, NULL));
    request.op = IPCSH_STAT;
    request.kind = 3;
    tell("a kind that there isn't", ipcsh_post(alice, &request, NULL));
    tell("a call of it", ipcsh_call(alice, &request, NULL, &reply, NULL));
    tell("msgget without a place for the identifier", ipcsh_msgget(alice, 0, 1, IPCSH_CREAT | 0600, &reply, NULL));
    tell("msgget", ipcsh_msgget(alice, 0, 1, IPCSH_CREAT | 0600, &reply, &queue));
    printf("its place is %u: none of those above was called\n", (unsigned)reply.place);
    static char text[70000];
    tell("a text longer than MSGMAX", ipcsh_msgsnd(alice, 0, queue, 1, text, sizeof text, 0, &reply));
    printf("    %s\n", ipcsh_rule_name(reply.rule));
    tell("a type of 0", ipcsh_msgsnd(alice, 0, queue, 0, "hello", 5, 0, &reply));
    printf("    %s\n", ipcsh_rule_name(reply.rule));
    tell("a semop without operations", ipcsh_semop(alice, 0, 0, NULL, 0, &reply));
    printf("    %s\n", ipcsh_rule_name(reply.rule));
    tell("a queue of another", ipcsh_msgsnd(bob, 0, queue, 1, "hello", 5, 0, &reply));
    printf("    %s\n", ipcsh_rule_name(reply.rule));
    printf("a rule that there isn't: '%s'\n", ipcsh_rule_name(42));
}

/* A reply stays until there is room for it, and a second call until the first is done with. */
static void keeping(ipcsh *alice, ipcsh *bob)
{
    struct ipcsh_request receive = ipcsh_request_of(IPCSH_MSGRCV, 0);
    struct ipcsh_reply reply;
    char text[8] = "........";
    struct ipcsh_room room = {.bytes = text, .bytes_len = 4};
    receive.size = 80;
    tell("post", ipcsh_post(alice, &receive, NULL));
    tell("post once more", ipcsh_post(alice, &receive, NULL));
    tell("advance", ipcsh_advance(alice, &reply, &room));
    tell("post while it waits", ipcsh_post(alice, &receive, NULL));
    tell("call while it waits", ipcsh_call(alice, &receive, NULL, &reply, &room));
    tell("bob may not send", ipcsh_msgsnd(bob, 0, 0, 1, "hello", 5, 0, &reply));
    tell("bob interrupts alice", ipcsh_interrupt(bob, 0, 1, &reply));
    printf("    %s\n", ipcsh_rule_name(reply.rule));
    tell("bob takes alice's user", ipcsh_setcreds(bob, 0, 100, 10, NULL, 0, &reply));
    tell("he sends", ipcsh_msgsnd(bob, 0, 0, 1, "hello", 5, 0, &reply));
    tell("advance with room for 4 bytes", ipcsh_advance(alice, &reply, &room));
    printf("    %u bytes, and in the room %.8s\n", (unsigned)reply.len, text);
    tell("post before it is taken", ipcsh_post(alice, &receive, NULL));
    room.bytes_len = 8;
    tell("advance with room for 8 bytes", ipcsh_advance(alice, &reply, &room));
    printf("    %u bytes, and in the room %.8s\n", (unsigned)reply.len, text);
    tell("advance once more", ipcsh_advance(alice, &reply, &room));
    tell("bob sends again", ipcsh_msgsnd(bob, 0, 0, 1, "again", 5, 0, &reply));
    room.bytes_len = 4;
    tell("call with room for 4 bytes", ipcsh_call(alice, &receive, NULL, &reply, &room));
    tell("call before its reply is taken", ipcsh_call(alice, &receive, NULL, &reply, &room));
    room.bytes_len = 8;
    tell("wait with room for 8 bytes", ipcsh_wait(alice, &reply, &room));
    printf("    %u bytes, and in the room %.8s\n", (unsigned)reply.len, text);
    tell("post, and leave it in flight", ipcsh_post(alice, &receive, NULL));
}

/* The first handle reads the journal, of a service that keeps one, while it asks nothing. */
static void reading(const struct ipcsh_limits *limits, const struct ipcsh_client *clients)
{
    struct ipcsh_request receive = ipcsh_request_of(IPCSH_MSGRCV, 0);
    ipcsh *handles[2];
    char text[16] = "";
    size_t len = 77;
    if (ipcsh_open(limits, clients, 2, handles))
        return;
    tell("read the journal of a service that keeps none", ipcsh_read_journal(handles[0], text, sizeof text, &len));
    ipcsh_close(handles[0]);
    ipcsh_close(handles[1]);
    if (ipcsh_open_with_journal(limits, clients, 2, handles))
        return;
    tell("read it by the second handle", ipcsh_read_journal(handles[1], text, sizeof text, &len));
    tell("read it without a handle", ipcsh_read_journal(NULL, text, sizeof text, &len));
    tell("read it to NULL", ipcsh_read_journal(handles[0], NULL, sizeof text, &len));
    tell("read it without a place for the length", ipcsh_read_journal(handles[0], text, sizeof text, NULL));
    tell("post", ipcsh_post(handles[0], &receive, NULL));
    tell("read it while a call is in flight", ipcsh_read_journal(handles[0], text, sizeof text, &len));
    printf("the length is %s, and the text '%s'\n", len == 77 ? "as it was" : "changed", text);
    tell("wait", ipcsh_wait(handles[0], &(struct ipcsh_reply){.place = 0}, NULL));
    tell("read 15 bytes", ipcsh_read_journal(handles[0], text, 15, &len));
    printf("    %u: '%s'\n", (unsigned)len, text);
    tell("read none", ipcsh_read_journal(handles[0], NULL, 0, &len));
    printf("    %u\n", (unsigned)len);
    ipcsh_close(handles[0]);
    ipcsh_close(handles[1]);
}

int main(void)
{
    const struct ipcsh_limits limits = IPCSH_DEFAULT_LIMITS;
    const struct ipcsh_client clients[] = {{.uid = 100, .gid = 10}, {.uid = 101, .gid = 10, .caps = IPCSH_SETUID | IPCSH_SETGID}};
    ipcsh *handles[2];
    opening();
    if (ipcsh_open(&limits, clients, 2, handles))
        return 1;
    calling(handles[0], handles[1]);
    keeping(handles[0], handles[1]);
    reading(&limits, clients);
    ipcsh_close(handles[0]);
    ipcsh_close(handles[1]);
    return 0;
}
