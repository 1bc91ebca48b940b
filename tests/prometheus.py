"""Checks a file against the text form of Prometheus (version 0.0.4), and that it has the given samples.

    prometheus.py FILE [SAMPLE]..      SAMPLE: a line of the file, as 'name{label="value"} 1'

Each metric has its help and its type before its samples, once, and its samples stand together; names and labels are well formed, no sample comes
twice, counters end in _total and are not negative, and the last line has its end.
"""

import re
import sys

NAME = r"[a-zA-Z_:][a-zA-Z0-9_:]*"
LABEL = r'[a-zA-Z_][a-zA-Z0-9_]*="(?:[^"\\\n]|\\["\\n])*"'
SAMPLE = re.compile(rf"({NAME})(?:\{{({LABEL}(?:,{LABEL})*)\}})? (-?[0-9]+(?:\.[0-9]+)?(?:e[+-]?[0-9]+)?)")
HELP = re.compile(rf"# HELP ({NAME}) (\S.*)")
TYPE = re.compile(rf"# TYPE ({NAME}) (counter|gauge)")


def check(text):
    """Gives what is wrong with the text, or None."""
    if not text.endswith("\n"):
        return "the last line has no end"
    helped, types, samples = set(), {}, set()
    current = None
    for number, line in enumerate(text[:-1].split("\n"), 1):
        found_help, found_type, found = HELP.fullmatch(line), TYPE.fullmatch(line), SAMPLE.fullmatch(line)
        if found_help:
            if found_help[1] in helped:
                return f"line {number}: a second help"
            helped.add(found_help[1])
        elif found_type:
            current = found_type[1]
            if current in types or current not in helped:
                return f"line {number}: a second type, or one without a help"
            types[current] = found_type[2]
            if (found_type[2] == "counter") != current.endswith("_total"):
                return f"line {number}: a counter, and no other, ends in _total"
        elif found:
            if found[1] != current:
                return f"line {number}: a sample away from its metric"
            labels = tuple(sorted(re.findall(LABEL, found[2] or "")))
            if len({label.split("=")[0] for label in labels}) != len(labels):
                return f"line {number}: a label twice"
            if (found[1], labels) in samples:
                return f"line {number}: a sample twice"
            samples.add((found[1], labels))
            if types[current] == "counter" and float(found[3]) < 0:
                return f"line {number}: a counter below 0"
        else:
            return f"line {number}: neither a comment nor a sample"
    if set(types) != helped:
        return "a help without a type"
    return None


def main():
    with open(sys.argv[1], encoding="ascii", newline="") as file:
        text = file.read()
    wrong = check(text)
    missing = [sample for sample in sys.argv[2:] if sample not in text.split("\n")]
    for line in [wrong] if wrong else missing:
        print(f"{sys.argv[1]}: {line}")
    return 1 if wrong or missing else 0


if __name__ == "__main__":
    sys.exit(main())
