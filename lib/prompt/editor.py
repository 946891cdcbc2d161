"""The line editor of a terminal: readline's, with a history in a file."""

import contextlib
import os
import pathlib

import completion

try:
    import readline
except ImportError:
    readline = None
LONGEST = 1000


def history_file():
    folder = os.environ.get("XDG_STATE_HOME", "")
    return pathlib.Path(folder if os.path.isabs(folder) else os.path.expanduser("~/.local/state")) / "ipcsh/history"


def begin(session):
    """Gives the lines of this session completion, and those of earlier ones as history."""
    if readline is None:
        return
    readline.set_completer_delims(completion.BREAKS)
    readline.set_completer(completion.completer(session, lambda: readline.get_line_buffer()[: readline.get_endidx()]))
    readline.parse_and_bind("tab: complete")
    readline.set_history_length(LONGEST)
    with contextlib.suppress(OSError):
        readline.read_history_file(history_file())


def keep():
    """Writes the history, where that can be written. A terminal may go at any time, so it is written with each line."""
    if readline is not None:
        with contextlib.suppress(OSError):
            history_file().parent.mkdir(mode=0o700, parents=True, exist_ok=True)
            readline.write_history_file(history_file())
