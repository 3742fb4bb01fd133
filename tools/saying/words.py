"""Why words are no command, and what is wrong with the name of a file."""
import difflib
import os

FILES = {
    "check": "PROG",
    "fmt": "PROG",
    "plan": "PROG MAP MACH",
    "eval": "PROG MAP MACH DATA",
    "run": "PROG MAP MACH DATA",
    "demo": "N",
    "compile": "PROG MAP MACH",
    "exec": "PLAN DATA",
    "tune": "PROG MAP MACH",
    "span": "PROG MAP MACH COST",
}
OPTIONS = ("order=first", "order=last", "order=seed:N", "order=list:FILE", "trace=yes", "trace=no")
MOST_SEED = (1 << 64) - 1


def usage(words):
    """Which word is wrong, and why."""
    if not words:
        return "a command is missing"
    command, rest = words[0], words[1:]
    if command not in FILES:
        near = difflib.get_close_matches(command, FILES, 1)
        return f"`{command}` is no command" + (f"; is `{near[0]}` meant?" if near else "")
    wanted = FILES[command].split()
    if len(rest) < len(wanted):
        return f"`{command}` takes {FILES[command]}: {' '.join(wanted[len(rest) :])} missing"
    if command == "demo" and not seed(rest[0]):
        return f"`{rest[0]}` is no number of 1 to 20 digits below 2^64"
    return behind_files(command, rest[len(wanted) :], wanted)


def behind_files(command, words, wanted):
    if command not in ("run", "exec"):
        return f"`{command}` takes {' '.join(wanted)} alone, without `{words[0]}`" if words else None
    seen = set()
    for word in words:
        name = word.partition("=")[0]
        if not option(word):
            return f"`{word}` is none of the options: {', '.join(f'`{one}`' for one in OPTIONS)}"
        if name in seen:
            return f"`{name}=` stands twice"
        seen.add(name)
    return None


def option(word):
    if word.startswith("order=seed:"):
        return seed(word[len("order=seed:") :])
    listed = word.startswith("order=list:") and word != "order=list:"
    return listed or word in ("order=first", "order=last", "trace=yes", "trace=no")


def seed(word):
    digits = 1 <= len(word) <= 20 and all(c in "0123456789" for c in word)
    return digits and int(word) <= MOST_SEED


def absent(name):
    if name == "-":
        return "`-` is a name like others; standard input is /dev/stdin"
    folder, base = os.path.split(name)
    try:
        near = difflib.get_close_matches(base, os.listdir(folder or "."), 1)
    except OSError:
        return f"there is no folder `{folder}`"
    return f"is `{os.path.join(folder, near[0])}` meant?" if near else None


def unreadable(name):
    return f"`{name}` is a directory" if os.path.isdir(name) else None


def told(line, words):
    """Of the lines of the statuses 3, 4 and 7."""
    if line.startswith("usage: "):
        return usage(words)
    kind, _, name = line.partition(" ")
    return absent(name) if kind == "absent" else unreadable(name) if kind == "fault" else None
