"""A drive as `cases` answers it: what stands at the end of its file, and what was refused on the way."""

from typing import NamedTuple

from picture.answers import answered, answers_of, read_decisions, read_path, read_segments
from picture.journal import rows_of
from picture.language import commands_of, network_of, setup_of, words_of
from picture.refusals import Refusal, in_words

JOURNAL = "journal 700000\n"  # for a file that opens none
SLICES = (
    "lengths headings flags from to from_side to_side forward backward elements intrinsics near raw_logs distances answer decisions "
    "window_counts window_firsts window_lasts"
)
WHOLE = 4294967295
# Behind the file's own words: a `short` that still waits is undone, then four questions.
QUESTIONS = "".join("short %s %d\n" % (name, WHOLE) for name in SLICES.split()) + "close\nwords\nsegments\ncollapse built\n"
INTO_BROKEN_ROW = -23.0
FLOOR = -23.025850929940457  # document 01: the least that a candidate's log counts, behind the first row


class Unreadable(Exception):
    """The word of the file with this number, counted from 1, cannot be read."""

    def __init__(self, number):
        super().__init__(number)
        self.number = number


class Drive(NamedTuple):
    network: object
    rows: list
    lines: list  # of the file, where each row's fix stands; empty where that is not known
    broken: set  # numbers of rows
    path: list  # pairs of a row and a candidate
    score: object  # of the path, or none
    segments: list
    collapsed: list
    decisions: list
    refusals: list  # of the file's commands
    unanswered: list  # refusals of what the picture asked about the journal


def read_drive(text, ask):
    """The drive of a file. `ask` hands text to `cases` and gives the lines of its answers."""
    opening = "" if {"journal", "load", "poke"} & set(words_of(text)[0]) else JOURNAL
    lines = ask(opening.encode() + text + b"\n" + QUESTIONS.encode())
    stop_at_error(lines, len(opening.split()))
    commands = commands_of(opening.encode() + text)
    answers = answers_of(lines)
    calls = list(answered(commands, answers))
    return drive_of(commands, calls, list(answers), opening.count("\n"), ask)


def stop_at_error(lines, before):
    """Only the last line can be `error N`; so many words stood before the file's own."""
    if lines and lines[-1].startswith("error "):
        raise Unreadable(int(lines[-1].split()[1]) - before)


def drive_of(commands, calls, asked, lines_before, ask):
    """The drive, by the file's calls and by the answers on what stands behind them."""
    close, words, segments, collapse = asked
    rows = rows_of(words.lines) if close.refusal is None else []
    path, score = read_path(close)
    built = segments.refusal is None
    told = [("Closing", close), ("Building segments", segments)] + ([("Collapsing", collapse)] if built else [])
    numbers = [line - lines_before for line in lines_of_rows(calls)]
    return Drive(
        network=network_of(commands),
        rows=rows,
        lines=numbers if len(numbers) == len(rows) else [],
        broken=broken_rows(setup_of(commands), words.lines, rows, ask),
        path=path,
        score=score,
        segments=read_segments(segments),
        collapsed=read_segments(collapse) if built else [],
        decisions=read_decisions(collapse) if built else [],
        refusals=refusals_of(calls, lines_before),
        unanswered=[Refusal(None, what, answer.refusal) for what, answer in told if answer.refusal is not None],
    )


def refusals_of(calls, lines_before):
    """A command is listed once, by the first of its answers that is a refusal."""
    found = []
    for command, answers in calls:
        numbers = [answer.refusal for answer in answers if answer.refusal is not None]
        if numbers:
            found.append(Refusal(command.line - lines_before, in_words(command), numbers[0]))
    return found


def lines_of_rows(calls):
    """The line of each standing row's fix. A journal whose words were handed over or changed has none."""
    lines, known = [], True
    for command, answers in calls:
        done = bool(answers) and answers[0].words[1] == "ok"
        if command.keyword in ("load", "poke"):
            known = False
        elif command.keyword in ("journal", "open") and done:
            lines, known = [], True
        elif command.keyword == "feed" and done:
            lines.append(command.line)
        elif command.keyword == "strike" and done:
            del lines[max(0, len(lines) - int(command.words[0])) :]
    return lines if known else []


def looks_broken(row, rows):
    """Whether a row's scores and parents are those of a broken row. A row that is not may have them too."""
    if not row.candidates or row.predecessor is None:
        return False
    before = rows[row.predecessor]
    return all(
        candidate.parent is not None
        and before.candidates[candidate.parent].score == before.best
        and candidate.score == (before.best + INTO_BROKEN_ROW) + max(candidate.raw_log, FLOOR)
        for candidate in row.candidates
    )


def broken_rows(setup, words, rows, ask):
    """The rows that no step leads to, as `cases` lists steps."""
    numbers = [row.number for row in rows if looks_broken(row, rows)]
    if not numbers:
        return set()
    text = "%sload %d\n%s\n%s" % (setup, len(words), "\n".join(words), "".join("steps %d\n" % number for number in numbers))
    answers = answers_of(ask(text.encode()))
    return {number for number, answer in zip(numbers, answers) if answer.words == ["steps", "0"]}
