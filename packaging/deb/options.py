"""What the program's help, the manual and the operator's guide say of each command's options, for packaging/deb/test: the name of its value,
and its default."""
import re

from unpacked import same

GUIDE = "usr/share/doc/xarm/docs/OPERATING.md"
# The commands that are none of an operator's.
OTHERS = {"check", "copy", "play", "scan", "serve", "shutdown", "talk", "tick", "user"}


def of_help(text):
    """The options of a command's help: the name of the value, and the default; empty where there is none."""
    found = re.findall(r"^ +(?:-\w, )?(--[a-z-]+)(?: <([A-Z]+)>)? +(.*)$", text, re.M)
    told = {option: (value, re.search(r"\[default: (.*)\]$", words)) for option, value, words in found if option != "--help"}
    return {option: (value, default.group(1) if default else "") for option, (value, default) in told.items()}


def plain(text):
    """A text without commas, markup and ends of lines."""
    return re.sub(r"\s+", " ", re.sub(r"^\.[A-Z]+ ", "", text.replace(",", ""), flags=re.M))


def of_manual(part):
    """Those of a command's part of the manual."""
    told = re.findall(r'^\.BI? (--[a-z-]+)(?: " ([A-Z]+)")?\n(.*?)(?=^\.TP$|\Z)', part, re.M | re.S)
    default = re.compile(r"(\S+) if it isn't given|(\d+)(?: for (?:never|without end))? which is also the default")
    ends = [(option, value, default.search(plain(words))) for option, value, words in told]
    return {option: (value, (end.group(1) or end.group(2)) if end else "") for option, value, end in ends}


def of_guide(page, commands):
    """Those of each command in the operator's guide: a list for a server, and a table for the others."""
    found = {command: {} for command in commands}
    for option, value, words in re.findall(r"^- `(--[a-z-]+)(?: ([A-Z]+))?`(?: \((.*?)\))?:", section(page, "Options"), re.M):
        default = words.replace(",", "")
        found["serve"][option] = value, default if re.fullmatch(r"[\d.]+", default) else ""
    for row in section(page, "Options of commands").splitlines():
        options, of, default = ([*row.split(" | "), ""] + [""])[:3] if row.startswith("`--") else ("", "", "")
        named = {command for command in re.findall(r"`([a-z-]+)`", of)} | (set(commands) - OTHERS if "an operator's" in of else set())
        for option, value in re.findall(r"`(--[a-z-]+)(?: ([A-Z]+))?`", options):
            for command in named:
                again = option in found[command]
                found[command][option] = value, "twice" if again else default.strip().replace(",", "")
    return found


def section(page, name):
    return re.split(rf"\n##+ {name}\n", page)[1].split("\n#")[0]


def options(package, parts):
    """The three agree, by the parts of the manual."""
    guide = of_guide(package.read(GUIDE), package.commands())
    for command, part in sorted(parts.items()):
        helps = of_help(package.help_of(command))
        yield f"manual: the values and defaults of {command}", same(of_manual(part), helps)
        yield f"guide: the options of {command}", same(guide[command], helps)
