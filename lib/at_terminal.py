"""at_terminal.py COMMAND..: runs the command at a terminal, types each line of standard input when it shows a prompt, and prints what it
shows. In these lines `^I` is a tab. A line that ends with `^C` or `^D` has that in the place of its end, typed when what stands before it is
shown. The status is the command's."""

import os
import pty
import select
import sys
import time

ENDS = {"^C": b"\x03", "^D": b"\x04"}
SECONDS = 120
# So many times in a row, each some hundredths of a second after the other, the command sleeps before Control-C is typed: readline takes a signal
# at once only while it waits for a key.
TIMES, BETWEEN = 10, 0.03


def shown_until(terminal, is_enough):
    """What the terminal shows until that is enough, or the command ends."""
    found = b""
    while not is_enough(found):
        if not select.select([terminal], [], [], SECONDS)[0]:
            sys.exit(f"after {SECONDS} s it has shown no more than {found!r}")
        try:
            part = os.read(terminal, 65536)
        except OSError:
            break
        found += part
        if not part:
            break
    return found


def has_prompt(found):
    return found.endswith(b"> ")


def has_answered(found):
    return b"\n" in found and has_prompt(found)


def is_asleep(command):
    with open(f"/proc/{command}/stat") as stat:
        return stat.read().rpartition(")")[2].split()[0] == "S"


def wait_for_sleep(command):
    seen = 0
    while seen < TIMES:
        seen = seen + 1 if is_asleep(command) else 0
        time.sleep(BETWEEN)


def type_line(terminal, command, line):
    """Types a line, and gives what is shown up to the next prompt."""
    text = line[:-2] if line[-2:] in ENDS else line
    shown = b""
    if text:
        os.write(terminal, text.replace("^I", "\t").encode())
    if text != line:
        shown = shown_until(terminal, lambda found: found.endswith(text.encode()))
        wait_for_sleep(command)
    os.write(terminal, ENDS.get(line[-2:], b"\n"))
    return shown + shown_until(terminal, has_answered)


def main():
    command, terminal = pty.fork()
    if command == 0:
        os.environ["TERM"] = "dumb"
        os.execvp(sys.argv[1], sys.argv[1:])
    shown = shown_until(terminal, has_prompt)
    for line in sys.stdin.read().splitlines():
        shown += type_line(terminal, command, line)
    shown += shown_until(terminal, lambda found: False)
    sys.stdout.write(shown.decode("utf-8", "replace").replace("\r", ""))
    return os.WEXITSTATUS(os.waitpid(command, 0)[1])


sys.exit(main())
