"""What a script writes. An output that refuses a text gives a line on standard error and status 4, and no traceback."""
import errno
import os
import sys

NO_FILE, READ_FAULT, WRITE_FAULT = 2, 3, 4

for stream in (sys.stdout, sys.stderr):
    # A stream that was closed before the script began is None.
    if stream is not None:
        stream.reconfigure(encoding="utf-8", errors="backslashreplace")


def tell(text):
    """Writes a text to standard error, as far as that takes it."""
    if sys.stderr is None:
        return
    try:
        sys.stderr.write(text)
        sys.stderr.flush()
    except (OSError, ValueError):
        forget(2)
        sys.stderr = None


def say(text):
    """Writes a line of the launcher's to standard error."""
    tell(f"plant984: {text}\n")


def forget(descriptor):
    """Lets what a stream still holds go nowhere, since Python writes it as it ends."""
    try:
        os.dup2(os.open(os.devnull, os.O_WRONLY), descriptor)
    except OSError:
        pass


def write(text):
    """Writes a text to standard output, or ends with status 4; of a reader that has gone nothing is said."""
    try:
        if sys.stdout is None:
            raise OSError(errno.EBADF, os.strerror(errno.EBADF))
        sys.stdout.write(text)
        sys.stdout.flush()
    except OSError as error:
        if error.errno != errno.EPIPE:
            say(f"writing the output failed: {error.strerror}")
        forget(1)
        sys.exit(WRITE_FAULT)


def named(name):
    """A file's name as one line of text."""
    text = os.fsencode(name).decode(errors="backslashreplace")
    return text if text.isprintable() and text else repr(text)


def end_unread(error):
    """Ends where a file could not be read: with status 2 where there is none, and else with 3."""
    if isinstance(error, FileNotFoundError):
        say(f"there is no file {named(error.filename)}")
        sys.exit(NO_FILE)
    reasons = {errno.EISDIR: f"{named(error.filename)} is a folder", errno.EACCES: f"there is no permission to read {named(error.filename)}"}
    say(f"reading the input failed: {reasons.get(error.errno, f'{named(error.filename)}: {error.strerror}')}")
    sys.exit(READ_FAULT)
