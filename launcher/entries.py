"""The lines of a journal: its sections, their entries, and what each says in words."""
import re

WORDS = [
    (r"B", "a scan begins"),
    (r"I (\d+)", "the input drop of row {0} of the order of solve was read"),
    (r"S (\d+)", "the segment of row {0} was solved, or left out where its control is off"),
    (r"O (\d+) (\S+)", "the output drop of row {0} was given the words {1}"),
    (r"E", "the scan ended"),
    (r"X", "power failed, and the scan went no further"),
    (r"K", "a scan went by without power"),
    (r"N (\S+) (\S+)", "the request {1} of call {0} came without power: it had no effect, and there is no reply"),
    (r"L (.*)", "calls were handed on: {0}"),
    (r"P (\S+) (\S+) (\S+)", "the request {1} of call {0} was answered with {2}"),
    (r"F (\S+) G (\S+)", "call {0} came to a good result: the words {1}"),
    (r"F (\S+) B (\S+)", "call {0} ended with the error word {1}"),
    (r"Q (\S+) (\d+) (\S+)", "the host asked node {1} as call {0}: {2}"),
    (r"Q (\S+) ([\d.]+) (\S+)", "the host asked by the route {1} as call {0}: {2}"),
    (r"A (\S+) R (\S+)", "call {0} got the reply {1}"),
    (r"A (\S+) B (\S+)", "call {0} got no reply: {1}"),
    (r"T (\d+) (\S+) - (\S+)", "the end {0} accepted the request {2} of call {1}, which was for itself, and is refused"),
    (r"T (\d+) (\S+) ([\d.]+) (\S+)", "the end {0} accepted the request {3} of call {1}, which is to go on by the route {2}"),
    (r"U (\d+) (\S+) (\S+) ([\d.]+) (\S+)", "the end {0} sent the request {4} of call {1} on by the route {3}, as its own call {2}"),
    (r"A (\d+) (\S+) R (\S+)", "the end {0} got the reply {2} to its call {1}"),
    (r"A (\d+) (\S+) B (\S+)", "the end {0} got no reply to its call {1}: {2}"),
    (r"V (\d+) (\S+) (\S+)", "the end {0} gave the reply {2} to call {1} back"),
    (r"G (\d+)", "the end {0} left its ring for good"),
    (r"PO (\d+) Q (\S+) (\d+) (\S+)", "node {0} put the request {3} of call {1}, to node {2}, into its outbox"),
    (r"PO (\d+) Q (\S+) ([\d.]+) (\S+)", "node {0} put the request {3} of call {1}, by the route {2}, into its outbox"),
    (r"PO (\d+) R (\S+) (\S+)", "node {0} put the reply {2} to call {1} into its outbox"),
    (r"SE (\d+) A", "node {0} sent the head of its outbox, and was told that it was received"),
    (r"SE (\d+) S", "node {0} sent the head of its outbox, and was told nothing"),
    (r"SE (\d+) B", "node {0} sent the head of its outbox, and was told that four requests wait there"),
    (r"TA (\d+) Q (\S+) (\S+)", "node {0} took the request {2} of call {1} from its inbox"),
    (r"TA (\d+) Q (\S+) (\S+) ([\d.]+)", "node {0} took the request {2} of call {1}, which is to go on to {3}, from its inbox"),
    (r"TA (\d+) R (\S+) (\S+)", "node {0} took the reply {2} to call {1} from its inbox"),
    (r"LO (\d+) (\S+) (\S+) G (\S+)", "node {0} asked its own port {2} as call {1}, and got {3}"),
    (r"LO (\d+) (\S+) (\S+) B (\S+)", "node {0} asked its own port {2} as call {1}, and got the error word {3}"),
    (r"GU (\S+) (\S+)", "its node gave up call {0} with the error word {1}"),
    (r"PA (\d+) 0 (\S+)", "node {0} passed the token on, with work left; its global words: {1}"),
    (r"PA (\d+) 1 (\S+)", "node {0} passed the token on, and was done; its global words: {1}"),
    (r"LE (\d+) E", "node {0} left the ring, since all were done"),
    (r"LE (\d+) S", "node {0} left the ring, since it had used up its passes"),
    (r"LE (\d+) D(\d+)", "node {0} left the ring, since power had failed: failure {1} of its controller"),
    (r"JN (\d+)", "node {0} asked to come in again"),
]


NUMBER = r"(?:0|[1-9]\d*)"
HEAD = re.compile(rf"[CH] {NUMBER}|W {NUMBER} {NUMBER}|R( [1-9]\d*)?", re.ASCII)


def is_head(line):
    """Whether a line begins a section. A bridge has two addresses there, and a ring the number of its network, where that is not 0."""
    return bool(HEAD.fullmatch(line)) and all(int(number) <= 255 for number in re.findall(r"\d+", line))


def in_words(text):
    """What an entry says, or nothing where it does not read."""
    for pattern, words in WORDS:
        found = re.fullmatch(pattern, text)
        if found:
            return words.format(*found.groups())
    return ""


class Entry:
    def __init__(self, line, text):
        self.line, self.text, self.words = line, text, text.split(" ")


class Journal:
    """The lines from `%JOURNAL` on, numbered from 1, and the entries of each section."""

    def __init__(self, text):
        self.lines = text.split("\n")
        if self.lines[-1] == "":
            self.lines.pop()
        self.sections, self.end, entries = {}, None, None
        for number, line in enumerate(self.lines[1:], 2):
            if line == "%END":
                self.end = number
                break
            if is_head(line):
                entries = self.sections.setdefault(line, [])
            elif entries is not None:
                entries.append(Entry(number, line))

    def of(self, section):
        return self.sections.get(section, [])

    def bridge(self, node):
        """The head of the bridge that has an end with this address, or nothing."""
        return next((head for head in self.sections if head[0] == "W" and str(node) in head.split()), "")

    def station(self, node):
        """The entries of the controller, the host or the end of a bridge with an address."""
        of_end = [entry for entry in self.of(self.bridge(node)) if entry.words[1:2] == [str(node)]]
        return self.of(f"C {node}") or self.of(f"H {node}") or of_end

    def ring(self, *heads):
        """The entries of all rings that begin with one of some texts. A node is on one ring."""
        rings = [entries for head, entries in self.sections.items() if head[0] == "R"]
        return [entry for entries in rings for entry in entries if (entry.text + " ").startswith(heads)]
