"""What each script does before all else, in whatever way it was started. It is imported first: until `heed` is called Ctrl-C ends the script at once and
without a word, as nothing was begun."""

import os
import signal
import sys

# Signals that ask a script to end.
STOPS = (signal.SIGINT, signal.SIGTERM, signal.SIGHUP)

if signal.getsignal(signal.SIGINT) is signal.default_int_handler:
    signal.signal(signal.SIGINT, signal.SIG_DFL)


def hold_streams():
    """Gives each standard stream that is closed a file that can't be written, so that no other file takes its number: what is told would go into that."""
    for number in range(3):
        try:
            os.fstat(number)
        except OSError:
            os.set_inheritable(os.open(os.devnull, os.O_RDONLY), True)


def in_utf8():
    """Begins the script anew where Python takes names in another encoding than UTF-8, by the locale. The program writes names in UTF-8, so they would
    look like others."""
    is_set = getattr(sys.flags, "utf8_mode", True)
    if sys.getfilesystemencoding() != "utf-8" and not is_set and sys.executable:
        os.execv(sys.executable, [sys.executable, *(["-I"] if sys.flags.isolated else []), "-X", "utf8", *sys.argv])


def begin():
    """To be called by what is run as a script."""
    hold_streams()
    in_utf8()


class Stop:
    """What a signal does that asks the script to end."""

    is_heeded = True

    @classmethod
    def come(cls, *_):
        if cls.is_heeded:
            raise KeyboardInterrupt


def heed(numbers=STOPS[:1]):
    """Lets these signals, Ctrl-C unless given, ask the script to end, but for those that it was started to ignore."""
    for number in numbers:
        if signal.getsignal(number) is not signal.SIG_IGN:
            signal.signal(number, Stop.come)


def heed_no_more():
    """Lets no signal disturb how the script ends."""
    Stop.is_heeded = False
