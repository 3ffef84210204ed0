"""Writes the vectors: questions and the answers that are expected.

    python3 vectors/make.py [QUESTIONS ANSWERS]      default: crates/replay/stdin crates/replay/stdout

The cases are in vectors/cases and vectors/random_cases.py; the model (vectors/model.py) answers them. Where a case has
hand-worked answers the model must give just these, and so it must with the recorded ones: else nothing is written.
"""

import sys
from pathlib import Path

HERE = Path(__file__).resolve().parent
sys.path.insert(0, str(HERE))

import agreement  # noqa: E402
import random_cases  # noqa: E402
from cases import (agree, blocks, candidates, categories, contents, following, listing, names, namespaces,  # noqa: E402
                   positions, refusals, routing, shapes, surprises)
from model import Replay, lines_of  # noqa: E402
from table import Table  # noqa: E402

TOPICS = (names, categories, contents, blocks, candidates, routing, namespaces, following, listing, positions, refusals,
          surprises, agree, shapes)


def differ(what, line, wanted, given):
    sys.exit(f"make.py: the model differs\n  {what} {line[:300]!r}\n  expected {wanted}\n  model {given}")


def answer_all(replay, lines, expected):
    """The model's answers, each list compared with what is expected where that is not None."""
    answers = []
    for line, wanted in zip(lines, expected):
        given = replay.answer(line)
        if wanted is not None and given != wanted:
            differ("question", line, wanted, given)
        answers += given
    return answers


def recorded(replay):
    """The recorded questions and answers, if there are any, checked against the model."""
    folder = HERE / "recorded"
    if not folder.is_dir():
        return [], []
    lines = lines_of((folder / "questions").read_bytes())
    answers = [line.decode("ascii") for line in lines_of((folder / "answers").read_bytes())]
    at = 0
    for line in lines:
        given = replay.answer(line)
        wanted = answers[at:at + len(given)]
        if given != wanted:
            differ("recorded question", line, wanted, given)
        at += len(given)
    if at != len(answers):
        sys.exit("make.py: vectors/recorded has more answers than its questions ask for")
    return lines, answers


def main():
    paths = sys.argv[1:] or [HERE.parent / "crates/replay/stdin", HERE.parent / "crates/replay/stdout"]
    replay = Replay()
    table = Table()
    for topic in TOPICS:
        topic.write(table)
    worked = sum(1 for wanted in table.answers if wanted)
    agreed = agreement.write(table)
    table.snapshot()
    random_cases.write(table, agreement.seek_listed)
    answers = answer_all(replay, table.lines, table.answers)
    reset = [b"worktree -", b"common ~", b"packed ~", b"namespace ~"]
    answer_all(replay, reset, [[]] * 4)
    recorded_lines, recorded_answers = recorded(replay)
    last = [b"# the format: input that ends without LF is answered as if LF stood there", b"wellformed 61"]
    answers += recorded_answers + answer_all(replay, last, [[], ["yes"]])
    Path(paths[0]).parent.mkdir(parents=True, exist_ok=True)
    Path(paths[0]).write_bytes(b"\n".join(table.lines + reset + recorded_lines + last))
    Path(paths[1]).write_bytes("".join(answer + "\n" for answer in answers).encode())
    asked = sum(1 for line in table.lines if line and not line.startswith(b"#"))
    print(f"{asked} lines, {worked} questions with hand-worked answers; {len(recorded_lines)} recorded lines; "
          f"{len(answers)} answers; {Path(paths[0]).stat().st_size} and {Path(paths[1]).stat().st_size} bytes")
    print(agreed)


if __name__ == "__main__":
    main()
