#!/usr/bin/env python3
"""Runs every command that README and FORMATS show, and compares what it prints with what is shown:  tests/shown.py [PAGE..]

A command stands in a fenced block ```console behind `$ `; one that ends in a backslash goes on in the next line, behind `> `.
Beneath it stands what a terminal shows, standard output and standard error as they come. An exit status that is not 0 stands
last, as `# exit status 1`. `[..]` alone in a line stands for any number of lines. The commands of a page are run in their order,
each in a new shell, in one scratch folder with links to all that the repository has: what one writes the next can read, and the
repository stays as it was.

Two things are not compared: what is said while something is proved or compiled, since it depends on what is there already, and
how many seconds something took (`13 s` is any number of seconds).

It fails, too, where a command stands in a fenced block of another sort, where a sentence names a command of the repository that is
not there, where a link leads to no file or heading, and where code that is shown is not in its file.
"""
import difflib
import os
import re
import subprocess
import sys
import tempfile

ROOT = os.path.dirname(os.path.dirname(os.path.abspath(__file__)))
PAGES = ["README.md", "docs/FORMATS.md"]

# Commands that are shown and not run here, each with the reason.
EXEMPT = {
    "make test": "this test is a part of it",
    "make bench": "it measures for minutes",
    "make refuse": "tests/refuse.sh runs it, and compares what it prints with what is shown",
    "bin/archive": "tests/rust.sh runs it",
}
# Where the code of a fenced block comes from.
CODE = {"c": ["examples/c/session.c"], "rust": ["rust/tamezohishu/examples/session.rs"]}
A_COMMAND = re.compile(r"(\$ |bin/|make |rt |bash |cargo |cc )")
ON_THE_WAY = re.compile(r"(make \w+|bin/\w+): (proving|proved|all \d+ crates|compiling)\b")

failed = False


def bad(where, what):
    global failed
    failed = True
    print(f"shown: {where}: {what}", file=sys.stderr)


def blocks(page, text):
    """The fenced blocks: line number, sort and lines of each; and the text without them."""
    found, rest, inside = [], [], None
    for number, line in enumerate(text.split("\n"), 1):
        if inside is None and line.startswith("```"):
            inside = (number, line[3:].strip(), [])
        elif inside is not None and line.startswith("```"):
            found.append(inside)
            inside = None
        elif inside is not None:
            inside[2].append(line)
        else:
            rest.append(line)
    if inside is not None:
        bad(f"{page}:{inside[0]}", "a fenced block without its end")
    return found, "\n".join(rest)


def commands(page, first, lines):
    """The commands of a block: line number, command, and the lines that are shown beneath it."""
    found, goes_on = [], False
    for number, line in enumerate(lines, first + 1):
        if goes_on:
            if not line.startswith("> "):
                bad(f"{page}:{number}", "a command that goes on, and no `> `")
            found[-1][1] += line[2:]
        elif line.startswith("$ "):
            found.append([number, line[2:], []])
        elif not found:
            bad(f"{page}:{number}", "a ```console block begins with `$ ` and a command")
            return []
        else:
            found[-1][2].append(line)
        goes_on = bool(found) and not found[-1][2] and found[-1][1].endswith("\\")
        if goes_on:
            found[-1][1] = found[-1][1][:-1]
    return found


def plain(lines):
    """The lines that are compared."""
    return [re.sub(r"\b\d+ s\b", "N s", line.rstrip()) for line in lines if not ON_THE_WAY.match(line)]


def fits(shown, printed):
    """Whether what was printed is what is shown, where `[..]` is any number of lines."""
    parts, at = [[]], 0
    for line in shown:
        if line == "[..]":
            parts.append([])
        else:
            parts[-1].append(line)
    for k, part in enumerate(parts):
        places = range(at, len(printed) - len(part) + 1)
        if k == 0:
            places = places[:1]
        if k == len(parts) - 1:
            places = [place for place in places if place + len(part) == len(printed)]
        place = next((place for place in places if printed[place:place + len(part)] == part), None)
        if place is None:
            return False
        at = place + len(part)
    return True


def run(command, folder):
    """What a command prints, with its exit status where that is not 0."""
    # a make within a make would say where it stands
    own = {name: value for name, value in os.environ.items() if not name.startswith(("MAKE", "MFLAGS"))}
    ended = subprocess.run(["bash", "-c", command], cwd=folder, env=own, stdin=subprocess.DEVNULL, stdout=subprocess.PIPE,
                           stderr=subprocess.STDOUT, check=False)
    printed = ended.stdout.decode("utf-8", "replace").split("\n")
    if printed[-1] == "":
        printed.pop()
    return printed + ([f"# exit status {ended.returncode}"] if ended.returncode else [])


def named(page, text):
    """Each command of the repository that a sentence names is there."""
    with open(os.path.join(ROOT, "Makefile"), encoding="utf-8") as file:
        targets = re.findall(r"^(\w+):", file.read(), re.M)
    for words in re.findall(r"`([^`\n]+)`", text):
        program = words.split()[0]
        if program == "make" and " " in words and words.split()[1] not in targets:
            bad(page, f"`{words}`: there is no such target")
        if re.match(r"(bin|tests)/\w", program) and not os.path.exists(os.path.join(ROOT, program)):
            bad(page, f"`{words}`: there is no {program}")


def linked(page, text):
    """Each link leads to a file, and where it names a heading, to that heading of a page."""
    for goal in re.findall(r"\]\(([^)\s]+)\)", text):
        name, _, heading = goal.partition("#")
        if re.match(r"\w+:", name):
            continue
        path = os.path.join(ROOT, os.path.dirname(page), name) if name else os.path.join(ROOT, page)
        if not os.path.exists(path):
            bad(page, f"a link to {name}, which is not there")
        elif heading:
            with open(path, encoding="utf-8") as file:
                headings = re.findall(r"^#+ (.*)", blocks(page, file.read())[1], re.M)
            if heading not in [re.sub(r"[^\w -]", "", one.lower()).strip().replace(" ", "-") for one in headings]:
                bad(page, f"a link to the heading {heading}, which is not there")


def bare(lines):
    return [line.strip() for line in lines if line.strip()]


def main():
    for page in sys.argv[1:] or PAGES:
        with open(os.path.join(ROOT, page), encoding="utf-8") as file:
            found, text = blocks(page, file.read())
        named(page, text)
        linked(page, text)
        ran = exempt = 0
        with tempfile.TemporaryDirectory() as folder:
            for name in os.listdir(ROOT):
                if name != ".git":
                    os.symlink(os.path.join(ROOT, name), os.path.join(folder, name))
            for first, sort, lines in found:
                if sort == "console":
                    for number, command, shown in commands(page, first, lines):
                        if command in EXEMPT:
                            exempt += 1
                            continue
                        ran += 1
                        shown, printed = plain(shown), plain(run(command, folder))
                        if not fits(shown, printed):
                            bad(f"{page}:{number}", f"`{command}` prints something else than is shown")
                            print("\n".join(difflib.unified_diff(shown, printed, "shown", "printed", lineterm="")), file=sys.stderr)
                elif sort in CODE:
                    wanted = bare(lines)
                    for name in CODE[sort]:
                        with open(os.path.join(ROOT, name), encoding="utf-8") as file:
                            code = bare(file.read().split("\n"))
                        if any(code[k:k + len(wanted)] == wanted for k in range(len(code))):
                            break
                    else:
                        bad(f"{page}:{first}", f"code that is not in {' or '.join(CODE[sort])}")
                else:
                    for line in lines:
                        if A_COMMAND.match(line):
                            bad(f"{page}:{first}", f"a command in a block that is not ```console: {line}")
        if not failed:
            print(f"shown: {page}: {ran} commands print what is shown, {exempt} are not run here: ok")
    return failed


sys.exit(main())
