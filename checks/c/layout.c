/* How the structs that go to the library are laid out, in bytes: each one's size, and where some of its fields are, its last among them. */
#include "ipcsh.h"

#define SIZE(name, size) _Static_assert(sizeof(struct name) == size, #name);
#define AT(name, field, offset) _Static_assert(offsetof(struct name, field) == offset, #name "." #field);

SIZE(ipcsh_limits, 40)
AT(ipcsh_limits, msgmax, 12)
AT(ipcsh_limits, first_seq, 32)
AT(ipcsh_limits, journal, 36)

SIZE(ipcsh_client, 144)
AT(ipcsh_client, ngroups, 12)
AT(ipcsh_client, groups, 16)

SIZE(ipcsh_semop, 6)
AT(ipcsh_semop, op, 2)
AT(ipcsh_semop, flags, 4)

/* Three bytes behind the capabilities are padding, which nobody reads. */
SIZE(ipcsh_request, 104)
AT(ipcsh_request, mtype, 32)
AT(ipcsh_request, op, 40)
AT(ipcsh_request, num, 60)
AT(ipcsh_request, value, 64)
AT(ipcsh_request, more, 80)
AT(ipcsh_request, ruid, 84)
AT(ipcsh_request, rgid, 88)
AT(ipcsh_request, suid, 92)
AT(ipcsh_request, sgid, 96)
AT(ipcsh_request, caps, 100)

/* Four bytes behind the value are padding, and four behind the mark. */
SIZE(ipcsh_reply, 48)
AT(ipcsh_reply, len, 16)
AT(ipcsh_reply, turn, 24)
AT(ipcsh_reply, value, 40)

SIZE(ipcsh_object, 128)
AT(ipcsh_object, ctime, 64)
AT(ipcsh_object, kind, 72)
AT(ipcsh_object, marked, 120)

/* The words of the enumerations are the numbers of 32 bits in these structs. */
_Static_assert(IPCSH_EXIT == 24 && IPCSH_INTERRUPT_THREAD == 25 && IPCSH_EXEC == 32, "enum ipcsh_op");
_Static_assert(IPCSH_SEGMENT == 2 && IPCSH_ANSWER_OBJECTS == 9, "enum ipcsh_kind, enum ipcsh_answer");
