"""Rules of security groups in words, and which part of a rule a packet doesn't match.

A packet has `version` (4 or 6), `protocol` (a number), `source` and `target`, and `port`, the
destination's, or for an echo `kind`, its type."""

import ipaddress

PROTOCOLS = {
    "icmp": 1,
    "igmp": 2,
    "tcp": 6,
    "udp": 17,
    "gre": 47,
    "esp": 50,
    "ah": 51,
    "ipv6-icmp": 58,
    "ospf": 89,
    "vrrp": 112,
    "sctp": 132,
}
PORTS = ("tcp", "udp")


def number_of(protocol):
    """The number of a protocol as it is printed: a name, or the text of a number."""
    return PROTOCOLS[protocol] if protocol in PROTOCOLS else int(protocol)


def called(protocol):
    """What a protocol with this number is called."""
    return next(
        (name for name, number in PROTOCOLS.items() if number == protocol), f"protocol {protocol}"
    )


def range_of(rule):
    """The ports of a rule, or the type and the code, in words."""
    low, high = rule["port_range_min"], rule["port_range_max"]
    if low is None and high is None:
        return ""
    if rule["protocol"] in PORTS:
        return str(low) if low == high else f"{low} to {high}"
    return f"type {low}" if high is None else f"type {low} code {high}"


def in_words(rule, groups):
    """A rule on a line. The groups are called by their ids."""
    toward = "from" if rule["direction"] == "ingress" else "to"
    group = rule["remote_group_id"]
    far = rule["remote_ip_prefix"] or (f"group {groups[group]}" if group else "")
    words = (
        rule["direction"],
        rule["ethertype"],
        rule["protocol"],
        range_of(rule),
        f"{toward} {far}" if far else "",
    )
    return " ".join(filter(None, words))


def members(group, ports):
    """The prefixes of a group's members: fixed addresses and pairs of the ports that have it."""
    for port in ports:
        if group in port["security_groups"]:
            yield from (fixed["ip_address"] for fixed in port["fixed_ips"])
            yield from (pair["ip_address"] for pair in port["allowed_address_pairs"])


def is_in(address, prefix):
    return ipaddress.ip_address(address) in ipaddress.ip_network(prefix)


def misfit_of_range(rule, packet):
    """What doesn't match among ports, types and codes."""
    low, high = rule["port_range_min"], rule["port_range_max"]
    if packet.kind is not None:
        if low not in (None, packet.kind):
            return f"its type is {low}, not {packet.kind}"
        return f"its code is {high}, not 0" if high not in (None, 0) else None
    if packet.port is None or (low or 0) <= packet.port <= (65535 if high is None else high):
        return None
    return f"its port{'s are' if low != high else ' is'} {range_of(rule)}, not {packet.port}"


def misfit(rule, packet, ports, groups):
    """The first part of a rule that a packet doesn't match, in words, or None if it matches."""
    far = packet.source if rule["direction"] == "ingress" else packet.target
    if rule["ethertype"] != f"IPv{packet.version}":
        return f"it is for {rule['ethertype']}"
    if rule["protocol"] is not None and number_of(rule["protocol"]) != packet.protocol:
        return f"its protocol is {rule['protocol']}, not {called(packet.protocol)}"
    if (found := misfit_of_range(rule, packet)) is not None:
        return found
    prefix, group = rule["remote_ip_prefix"], rule["remote_group_id"]
    if prefix and not is_in(far, prefix):
        return f"{far} isn't in {prefix}"
    if group and not any(is_in(far, each) for each in members(group, ports)):
        return f"{far} is no member of group {groups[group]}"
    return None
