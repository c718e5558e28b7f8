#!/usr/bin/env python3
"""Brings the repository's own definitions and lemmas to the spelling of today's Rattle, behind port.py.

usage: python3 tools/respell.py            at the top of a tree that port.py has turned and that nobody has edited since

Words are in snake case: `refusalOf` is `refusal_of`, `form-right` is `form_right`. What is renamed is found in the tree itself, by its
declarations in specs/ and proofs/. Types, modules, functions of src/, exported names, strings and file names keep their names. Where two
names would fall together, HAND says what each is called. It goes over .antt and .rt files, and over what pages and comments have
between backticks. It is run once.
"""

import collections
import os
import re
import sys

# names that would fall together with another, or mean two things in one file
HAND = {
    "accepted-step": "accepted_step_lem",
    "accepted-under": "accepted_under_lem",
    "args-zero": "args_are_zero",
    "arm-ok": "arm_is_ok",
    "config-kept": "config_kept_lem",
    "fault-named": "fault_named_lem",
    "fault-output": "fault_output_lem",
    "fault-step": "fault_step_lem",
    "header-bytes": "header_bytes_lem",
    "is-accepted": "is_accepted_lem",
    "is-arm": "is_arm_lem",
    "is-place": "is_place_lem",
    "is-reset": "is_reset_lem",
    "moved-from": "moved_from_lem",
    "no-route": "without_route",
    "no-row": "without_row",
    "only-r": "only_r_lem",
    "own-command": "own_command_lem",
    "packet-step": "packet_step_lem",
    "place-in": "place_in_lem",
    "protected-kept": "protected_kept_lem",
    "protected-ok": "protected_is_ok",
    "refusal-of": "refusal_of_lem",
    "rejected-step": "rejected_step_lem",
    "route-ok": "route_is_ok",
    "row-ok": "row_is_ok",
    "rules-kept": "rules_kept_lem",
    "run-kept": "run_kept_lem",
    "settings-ok": "settings_are_ok",
    "start-ok": "start_is_ok",
    "states-by": "states_by_lem",
    "states-ok": "states_are_ok",
    "tick-step": "tick_step_lem",
    "unused-zero": "unused_zero_lem",
    "inOrder": "is_in_order",
    "leftBy": "left_by_move",
    "onRow": "is_on_row",
    "rowHere": "row_at",
}

# names that Rattle makes, which a proof declares or cites as they are
MADE = re.compile(r"(invariant|decreases|loop|returns|slice-aggregate|array-share)-|.*-(requires|preserved|init|smaller)(-|$)")
NAME = r"[^\s(){}\[\],;.:\"`]+"
DECLARED = re.compile(rf"\s*(?:abbrev pub |unfoldable pub |abbrev |unfoldable |pub )?({NAME}(?: {NAME})*) :(?= |$)")
TOKEN = re.compile(NAME)
CODE = re.compile(r"`[^`\n]*`")


def files(top, *ends):
    for folder, dirs, names in os.walk(top):
        dirs[:] = sorted(d for d in dirs if d not in ("out", ".git", "target"))
        for n in sorted(names):
            if n.endswith(ends):
                yield os.path.join(folder, n)


def read(path):
    with open(path, encoding="utf-8") as f:
        return f.read()


def snake(name):
    if name in HAND:
        return HAND[name]
    if not re.match(r"[a-z]", name):
        return name
    return re.sub(r"(?<=[a-z0-9])([A-Z])", lambda m: "_" + m.group(1).lower(), name.replace("-", "_"))


def renamed():
    found = collections.OrderedDict()
    for path in files("crates", ".antt"):
        for line in read(path).split("\n"):
            m = DECLARED.match(line)
            if m and not line.lstrip().startswith("--"):
                for name in m.group(1).split(" "):
                    if snake(name) != name and not MADE.match(name):
                        found[name] = snake(name)
    together = collections.defaultdict(set)
    for old, new in found.items():
        together[new].add(old)
    for new, olds in together.items():
        if len(olds) > 1:
            sys.exit(f"respell: {sorted(olds)} fall together as {new}: name one of them in HAND")
    return found


def in_code(text, names):
    return TOKEN.sub(lambda m: names.get(m.group(0), m.group(0)), text)


def in_comment(text, names):
    return CODE.sub(lambda m: in_code(m.group(0), names), text)


def source(text, names, mark, strings):
    out = []
    for line in text.split("\n"):
        at = line.find(mark + " ")
        if at < 0 and line.rstrip().endswith(mark):
            at = line.rfind(mark)
        code, comment = (line, "") if at < 0 else (line[:at], line[at:])
        if strings:
            parts = re.split(r'("(?:[^"\\]|\\.)*")', code)
            code = "".join(p if k % 2 else in_code(p, names) for k, p in enumerate(parts))
        else:
            code = in_code(code, names)
        out.append(code + in_comment(comment, names))
    return "\n".join(out)


def page(text, names):
    out, fenced = [], False
    for line in text.split("\n"):
        if line.startswith("```"):
            fenced = not fenced
            out.append(line)
        else:
            out.append(in_code(line, names) if fenced else in_comment(line, names))
    return "\n".join(out)


def main():
    if not os.path.isdir("crates"):
        sys.exit("respell: run it at the top of the repository")
    names = renamed()
    for path in files("crates", ".antt", ".rt"):
        old = read(path)
        new = source(old, names, "--", False) if path.endswith(".antt") else source(old, names, "//", True)
        if new != old:
            with open(path, "w", encoding="utf-8") as f:
                f.write(new)
    for path in [p for p in ["README.md"] + list(files("docs", ".md")) if os.path.isfile(p)]:
        old = read(path)
        new = page(old, names)
        if new != old:
            with open(path, "w", encoding="utf-8") as f:
                f.write(new)
    print(f"respell: {len(names)} names")


main()
