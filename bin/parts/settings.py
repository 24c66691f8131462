"""What is wrong with a settings file: the first key that breaks its rule, in the order of
docs/SETTINGS.md."""

import re

try:
    import tomllib
except ImportError:  # Python before 3.11
    tomllib = None

DRIVERS = ("openvswitch", "l2population")
QUOTAS = (
    "network",
    "subnet",
    "port",
    "router",
    "floatingip",
    "security_group",
    "security_group_rule",
    "rbac_policy",
)
TOP, HOST = ("drivers", "vxlan_first", "vxlan_last", "quotas", "hosts"), (
    "name",
    "physical",
    "vxlan",
    "l3",
    "dhcp",
)
NAME = re.compile(r"[A-Za-z0-9_.-]+")


def is_number(value, least, most):
    return type(value) is int and least <= value <= most  # pylint: disable=unidiomatic-typecheck


def is_name(value, most):
    return isinstance(value, str) and len(value) <= most and NAME.fullmatch(value) is not None


def are_texts(value):
    return isinstance(value, list) and all(isinstance(each, str) for each in value)


def are_different(values):
    return len(set(values)) == len(values)


def bad_drivers(drivers):
    if not are_texts(drivers) or not set(drivers) <= set(DRIVERS) or not are_different(drivers):
        return 'drivers has to be a list of different names among "openvswitch" and "l2population"'
    return None


def bad_numbers(table):
    """What is wrong with the numbers of vxlan networks."""
    first, last = table.get("vxlan_first", 1), table.get("vxlan_last", 1000)
    for key, value in (("vxlan_first", first), ("vxlan_last", last)):
        if not is_number(value, 1, 16777215):
            return f"{key} has to be a whole number from 1 to 16777215"
    return f"vxlan_first, {first}, is above vxlan_last, {last}" if first > last else None


def bad_quotas(quotas):
    if not isinstance(quotas, dict):
        return "quotas has to be a table"
    for key, value in quotas.items():
        if key not in QUOTAS:
            return f"quotas.{key} is no kind: they are {', '.join(QUOTAS)}"
        if not is_number(value, -1, 2147483647):
            return f"quotas.{key} has to be a whole number from -1 to 2147483647"
    return None


def bad_names(hosts):
    names = [host.get("name") for host in hosts]
    for place, name in enumerate(names, 1):
        if name is None:
            return f"host {place} has no name"
        if not is_name(name, 63):
            return f"the name of host {place} has to be 1 to 63 letters, digits, -, _ and ."
        if name in names[: place - 1]:
            return f"two hosts have the name {name}"
    return None


def bad_hosts(hosts):
    if (
        not isinstance(hosts, list)
        or not 1 <= len(hosts) <= 64
        or not all(isinstance(host, dict) for host in hosts)
    ):
        return "hosts has to be 1 to 64 tables, each under [[hosts]]"
    if (wrong := bad_names(hosts)) is not None:
        return wrong
    for host in hosts:
        physical = host.get("physical", [])
        if (
            not are_texts(physical)
            or not all(is_name(each, 64) for each in physical)
            or not are_different(physical)
        ):
            return f"physical of host {host['name']} has to be a list of different names"
    for key in HOST[2:]:
        for host in hosts:
            if not isinstance(host.get(key, False), bool):
                return f"{key} of host {host['name']} has to be true or false"
    return None


def unknown_key(table):
    """The first unknown key in byte order."""
    hosts = [f"hosts.{key}" for host in table.get("hosts", []) for key in host if key not in HOST]
    unknown = sorted([*(key for key in table if key not in TOP), *hosts], key=str.encode)
    return f"{unknown[0]} is no key" if unknown else None


def bad_key(table):
    """What is wrong with the settings of a table, or None."""
    return (
        bad_drivers(table.get("drivers", []))
        or bad_numbers(table)
        or bad_quotas(table.get("quotas", {}))
        or ("hosts" in table and bad_hosts(table["hosts"]))
        or unknown_key(table)
    )


def mistake(text):
    """What is wrong with the bytes of a settings file, or None where nothing is found."""
    if tomllib is None:
        return None
    try:
        return bad_key(tomllib.loads(text.decode()))
    except UnicodeDecodeError:
        return "it isn't UTF-8"
    except tomllib.TOMLDecodeError as error:
        return f"it is no TOML: {error}"
