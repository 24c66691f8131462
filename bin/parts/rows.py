"""Rows of the API as objects by kind and id: out of recorded replies, and what a row is called."""

import json

# The kinds, each with what a row of it has to tell to be drawn.
KINDS = {
    "networks": "id",
    "subnets": "network_id",
    "ports": "network_id",
    "routers": "id",
    "floatingips": "floating_network_id",
    "security_groups": "id",
}
INTERFACE, GATEWAY, FLOATING = (
    "network:router_interface",
    "network:router_gateway",
    "network:floatingip",
)
WORDS = {INTERFACE: "interface", GATEWAY: "gateway", "network:dhcp": "DHCP"}


def listed(text):
    """The rows by kind and id that the lists among the JSON objects of a text have."""
    rows, at, decoder = {kind: {} for kind in KINDS}, 0, json.JSONDecoder()
    while (at := text.find("{", at)) >= 0:
        body, at = decoder.raw_decode(text, at)
        for kind in KINDS:
            for row in body[kind] if isinstance(body.get(kind), list) else ():
                if isinstance(row, dict) and "id" in row:
                    rows[kind].setdefault(row["id"], {}).update(row)
    return {
        kind: {row["id"]: row for row in rows[kind].values() if KINDS[kind] in row}
        for kind in KINDS
    }


def named(row):
    """What a row is called."""
    what = WORDS.get(row["device_owner"], "port") if "device_owner" in row else ""
    ends = [end.lstrip("0") for end in (row["id"][:8], row["id"].rpartition("-")[2])]
    return str(row.get("name") or f"{what} {'-'.join(ends)}".strip())


def addresses(row, member="fixed_ips"):
    return [fixed["ip_address"] for fixed in row.get(member) or ()]
