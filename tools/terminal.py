"""The keyboard and the screen of a terminal, for tools/open-house. They know no socket: the keyboard is fed
the bytes that came, and the screen says which are due."""
import collections

LETTERS = frozenset(b"ABCDEFGHIJKLMNOPQRSTUVWXYZ0123456789+-/='.)$*,(")
MOST_LETTERS = 84
MOST_TEXT = 65_536  # characters that wait to be shown
QUIT_KEY, BACKSPACE, TAB, NEWLINE, RETURN, DELETE = 3, 8, 9, 10, 13, 127
BLOCK_END, BREAK, INTERRUPT, BLOCK, WILL, WONT, DO, DONT, COMMAND = 240, 243, 244, *range(250, 256)
ECHO, GO_AHEAD, TIMING_MARK = 1, 3, 6

# A line or a QUIT: what serve is sent, and what the visitor may be told of it.
Typed = collections.namedtuple("Typed", "wire shown")
QUIT = Typed(b"\3", "")


class Keyboard:
    """It takes out telnet's commands and answers them, makes lines of the other bytes, and shows to who has
    a telnet client what is typed. A client that sends no command is sent none."""

    def __init__(self, out):
        self.out = out  # where answers go, and what is shown as it is typed
        self.is_telnet = self.has_agreed = False
        self.shows = False  # the client leaves it to us to show what is typed
        self.place, self.verb = "data", 0
        self.letters = bytearray()
        self.hides = False  # the line is a password
        self.is_behind_login = self.is_behind_return = False

    def offer(self):
        """Asks a telnet client for single characters, once."""
        if not self.is_telnet:
            self.is_telnet = True
            self.out += bytes([COMMAND, WILL, ECHO, COMMAND, WILL, GO_AHEAD])

    def feed(self, piece):
        """What was typed with these bytes, one after another."""
        for byte in piece:
            key = self.key_of(byte)
            typed = None if key is None else self.press(key)
            if typed:
                yield typed

    def key_of(self, byte):
        """The key for which a byte stands, or None for one that belongs to a command."""
        place, self.place = self.place, "data"
        if place == "data" and byte != COMMAND:
            return byte
        if place == "data":
            self.place = "command"
        elif place == "command":
            return self.command(byte)
        elif place == "option":
            self.option(byte)
        elif place == "block":
            self.place = "block command" if byte == COMMAND else "block"
        elif byte != BLOCK_END:
            self.place = "block"
        return None

    def command(self, byte):
        if byte == COMMAND:
            return byte
        self.offer()
        if byte in (INTERRUPT, BREAK):
            return QUIT_KEY
        if byte == BLOCK:
            self.place = "block"
        elif byte in (WILL, WONT, DO, DONT):
            self.place, self.verb = "option", byte
        return None

    def option(self, option):
        """Answers what is asked, and no answer: else two sides could go on for ever."""
        reply = None
        if option == ECHO and self.verb in (DO, DONT):
            self.shows = self.verb == DO
        elif self.verb == DO and option != GO_AHEAD:
            # Behind an interrupt a client drops all text up to the answer to its timing mark.
            reply = WILL if option == TIMING_MARK else WONT
        elif self.verb == WILL and option != GO_AHEAD:
            reply = DONT
        elif self.verb == WILL and not self.has_agreed:
            self.has_agreed, reply = True, DO
        if reply:
            self.out += bytes([COMMAND, reply, option])

    def press(self, key):
        """What was typed with this key, or None where the line goes on. CR LF and CR NUL are one key."""
        is_second = self.is_behind_return and key in (NEWLINE, 0)
        self.is_behind_return = key == RETURN
        if key in (RETURN, NEWLINE) and not is_second:
            return self.end_line()
        if key == QUIT_KEY:
            if self.letters:
                self.show(b"\r\n")
            self.letters.clear()
            self.hides = False
            return QUIT
        if key in (BACKSPACE, DELETE) and self.letters:
            self.letters.pop()
            self.show(b"\b \b")
        elif (key >= 32 or key == TAB) and key != DELETE and len(self.letters) < MOST_LETTERS:
            letter = bytes([key]).upper()
            self.letters += letter if letter[0] in LETTERS else b" "
            self.show(self.letters[-1:])
        return None

    def show(self, piece):
        if self.shows and not self.hides:
            self.out += piece

    def end_line(self):
        line = bytes(self.letters).rstrip(b" ")
        shown = "(A PASSWORD)" if self.hides else line.decode()
        self.letters.clear()
        self.hides = False
        self.show(b"\r\n")
        # What follows a LOGIN is a password, unless serve says something else meanwhile.
        self.hides = self.is_behind_login = shown.split()[:1] == ["LOGIN"]
        return Typed(line + b"\n", shown)


class Screen:
    """What is still to be shown, at so many characters a second, or with 0 as fast as it goes."""

    def __init__(self, speed):
        self.speed = speed
        self.at_once = bytearray()  # goes before the text, and at any speed
        self.text = bytearray()
        self.left_out = 0  # lines for which there was no room
        self.credit, self.credit_at = 0.0, 0.0  # characters of the text that may be shown, and since when
        self.last_shown = NEWLINE

    def is_empty(self):
        return not self.at_once and not self.text

    def show(self, line):
        """A line more. Where too much waits it is left out, and later it is told how many were."""
        waits = len(self.text)
        if waits + len(line) > MOST_TEXT or (self.left_out and waits > MOST_TEXT // 2):
            self.left_out += 1
            return
        if self.left_out:
            self.text += b"(%d LINES ARE LEFT OUT)\r\n" % self.left_out
            self.left_out = 0
        self.text += line + b"\r\n"

    def say(self, text):
        for line in text.splitlines():
            self.show(line.encode())

    def break_in(self, text):
        """A line before all that waits."""
        self.at_once += (b"" if self.last_shown == NEWLINE else b"\r\n") + text.encode() + b"\r\n"

    def clear(self):
        self.text.clear()
        self.left_out = 0

    def cut(self, seconds):
        """Drops what can't be shown within a time."""
        if self.speed and len(self.text) > seconds * self.speed:
            del self.text[int(seconds * self.speed):]
            self.text += b"\r\n"

    def due(self, now):
        """What may be sent now: the text goes on when nothing waits before it."""
        if self.at_once:
            return bytes(self.at_once)
        if self.speed:
            # A sender that was late catches up by a quarter of a second at most.
            passed = min(now - self.credit_at, 0.25)
            self.credit, self.credit_at = min(self.credit, 1.0) + passed * self.speed, now
        return bytes(self.text[:int(self.credit) if self.speed else 16_384])

    def sent(self, count):
        """So many bytes of what was due were taken."""
        if not count:
            return
        buffer = self.at_once or self.text
        self.credit -= 0 if buffer is self.at_once else count
        self.last_shown = buffer[count - 1]
        del buffer[:count]
