"""One question, from Python: may a volunteer use a right at a date and time, and if not, when next? ask.cpp and ask.rs are the same in C++ and Rust.

    ask.py ROTA VOLUNTEER RIGHT YEAR MONTH DAY HOUR MINUTE

Status: 0; 1 for a refusal; 2 for wrong use or a file that cannot be read.
"""

import sys

import softlode


def ask(name, volunteer, right, *date):
    with open(name, "rb") as file:
        rota = softlode.Rota(file.read())
    minute = softlode.minute(*date)
    answer = rota.may(volunteer, right, minute)
    if answer:
        return f"yes, by role {answer.role}"
    use = rota.table().next_use(volunteer, right, minute)
    return f"no, next on {softlode.date(use.minute)}" if use else "no, nor later"


def main(arguments):
    try:
        if len(arguments) != 8:
            raise ValueError("usage: ask ROTA VOLUNTEER RIGHT YEAR MONTH DAY HOUR MINUTE")
        print(ask(arguments[0], *map(int, arguments[1:])))
        return 0
    except softlode.Refusal as refusal:
        print(f"ask: {refusal}", file=sys.stderr)
        return 1
    except OSError:
        print(f"ask: cannot read {arguments[0]}", file=sys.stderr)
    except ValueError as wrong:
        print(f"ask: {wrong}", file=sys.stderr)
    return 2


sys.exit(main(sys.argv[1:]))
