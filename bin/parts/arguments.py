"""The program's command lines, as crates/command_lines, crates/dvr_run and crates/reach_audit define
them, and what is wrong with arguments that are none."""

import os

STORED = {"--settings": "FILE", "--store": "FILE"}
OPENING = {**STORED, "--delivery": "auto|manual"}
# The options of each command with a value, and those among them that are required.
OPTIONS = {
    "session": OPENING,
    "serve": {"--listen": "ADDRESS", "--connections": "N", **OPENING},
    "drill": {},
    "dvr": STORED,
    "audit": {"--wanted": "FILE", **STORED},
    "agent": {"--connect": "ADDRESS", "--host": "NAME", "--rounds": "N", "--settings": "FILE"},
}
REQUIRED = {
    "session": (),
    "serve": ("--listen", "--connections"),
    "drill": (),
    "dvr": (),
    "audit": ("--wanted",),
    "agent": ("--connect", "--host", "--rounds"),
}
USAGES = {
    "session": "neutron session [--settings FILE] [--store FILE] [--delivery auto|manual]",
    "serve": "neutron serve --listen ADDRESS --connections N [--settings FILE] [--store FILE]"
    " [--delivery auto|manual]",
    "drill": "neutron drill START SIZE [--replies]",
    "dvr": "neutron dvr [--settings FILE] [--store FILE]",
    "audit": "neutron audit --wanted FILE [--settings FILE] [--store FILE]",
    "agent": "neutron agent --connect ADDRESS --host NAME --rounds N [--settings FILE]",
    "--prove": "neutron --prove",
}
SAYS = {
    "session": "answers the requests of standard input on standard output",
    "serve": "serves N connections, 1 to 1000000, that come at an address as 127.0.0.1:9696",
    "drill": "answers requests that it makes, and writes counts (START to 2^64 - 1, SIZE to 10000)",
    "dvr": "answers events, one a line, by hosts that route between networks themselves",
    "audit": "says for each table of a file of who is to reach whom whether it holds",
    "agent": "asks a server N times, 1 to 1000000, as the agents of a host do",
    "--prove": "proves and builds the program",
}
NUMBERS = {
    "--connections": (1, 1000000),
    "--rounds": (1, 1000000),
    "START": (0, 2**64 - 1),
    "SIZE": (1, 10000),
}


class Wrong(Exception):
    """What is wrong with arguments."""


def usage_of(command):
    """The usage of a command, or of all where there is no such command."""
    return "\n".join(
        f"usage: {USAGES[name]}" for name in ([command] if command in USAGES else USAGES)
    )


def show_help():
    """What `--help` prints: each command with what it does."""
    lines = [line for name in USAGES for line in (f"  {USAGES[name]}", f"      {SAYS[name]}")]
    return "\n".join(
        ["usage:", *lines, "Without --store rows are held in memory. docs/API.md says the rest."]
    )


def check_value(name, value):
    """Refuses a value that is empty, begins with a hyphen, or isn't what the option takes."""
    if not value or value.startswith("-"):
        raise Wrong(f"{name} needs a value that isn't empty and doesn't begin with -")
    if name == "--delivery" and value not in ("auto", "manual"):
        raise Wrong(f"--delivery is auto or manual, and not {value}")
    if name in NUMBERS:
        least, most = NUMBERS[name]
        digits = value.isascii() and value.isdigit() and len(value) <= 20
        if not digits or not least <= int(value) <= most:
            raise Wrong(f"{name} is a number from {least} to {most}, and not {value}")


def options_in(command, given):
    """The options that the arguments after a command give, by their names."""
    found, rest = {}, list(given)
    while rest:
        name, joined, value = rest.pop(0).partition("=")
        if name not in OPTIONS[command]:
            raise Wrong(
                f"{command} has no option {name}"
                if name.startswith("-")
                else f"{name} is one argument too many"
            )
        if name in found:
            raise Wrong(f"{name} is given twice")
        found[name] = value if joined else rest.pop(0) if rest else ""
        check_value(name, found[name])
    for name in REQUIRED[command]:
        if name not in found:
            raise Wrong(f"{command} needs {name} {OPTIONS[command][name]}")
    return found


def check_drill(given):
    """Refuses what isn't START and SIZE, with or without `--replies`."""
    if given.count("--replies") > 1:
        raise Wrong("--replies is given twice")
    numbers = [word for word in given if word != "--replies"]
    for number in numbers:
        if number.startswith("-"):
            raise Wrong(f"drill has no option {number}")
    if len(numbers) != 2:
        raise Wrong("drill needs two numbers, START and SIZE")
    for name, number in zip(("START", "SIZE"), numbers):
        check_value(name, number)


def read(given):
    """The options that a command line gives. Raises Wrong if the arguments are no command line."""
    for word in given:
        try:
            os.fsencode(word).decode()
        except UnicodeDecodeError:
            raise Wrong("an argument isn't UTF-8") from None
    if not given:
        raise Wrong("a command is missing")
    if given[0] not in OPTIONS:
        raise Wrong(
            "--prove takes no other argument"
            if given[0] == "--prove"
            else f"{given[0]} is no command"
        )
    if "--" in given:
        raise Wrong("the argument -- isn't taken")
    if given[0] == "drill":
        check_drill(given[1:])
        return {}
    return options_in(given[0], given[1:])
