"""Where things are in a cloud: ports by what they are called, who holds an address, and how each
is told in words."""

import ipaddress
import types

from rows import GATEWAY, INTERFACE, addresses, named


class Unfound(Exception):
    """What isn't there, or isn't there alone."""


def version_of(address):
    return ipaddress.ip_address(address).version


def is_address(text):
    try:
        ipaddress.ip_address(text)
        return True
    except ValueError:
        return False


class Cloud:
    """The rows of all projects, as an administrator lists them."""

    def __init__(self, rows):
        self.networks, self.subnets, self.ports, self.routers, self.floats, self.groups = (
            rows[kind]
            for kind in (
                "networks",
                "subnets",
                "ports",
                "routers",
                "floatingips",
                "security_groups",
            )
        )
        self.group_names = {key: named(row) for key, row in self.groups.items()}

    def network(self, key):
        """A network in words."""
        row = self.networks[key]
        segment = [
            row.get(f"provider:{name}")
            for name in ("network_type", "physical_network", "segmentation_id")
        ]
        kind = " ".join(str(part) for part in segment if part is not None)
        return f"network {named(row)} ({row['project_id']}, {kind})"

    def port(self, row):
        """A port in words."""
        where = [
            *addresses(row),
            f"on {row['binding:host_id']}" if row["binding:host_id"] else "on no host",
        ]
        return f"port {named(row)} ({', '.join(where)})"

    def router(self, key):
        """A router in words."""
        hosts = [port["binding:host_id"] for port in self.ports_of(key) if port["binding:host_id"]]
        row = self.routers[key]
        return f"router {named(row)} ({row['project_id']}, on {hosts[0] if hosts else 'no host'})"

    def owner(self, row):
        """Whose MAC or address a port's is, in words."""
        if row["device_owner"] in (INTERFACE, GATEWAY):
            return f"router {named(self.routers[row['device_id']])}"
        return "the DHCP server" if row["device_owner"] == "network:dhcp" else f"port {named(row)}"

    def ports_of(self, router):
        return [
            port
            for port in self.ports.values()
            if port["device_id"] == router and port["device_owner"] in (INTERFACE, GATEWAY)
        ]

    def ports_called(self, text, project):
        """The ports with this name, id, MAC or address, of one project where one is named."""
        return [
            port
            for port in self.ports.values()
            if project in (None, port["project_id"])
            and (
                text in (port["name"], port["id"], port["mac_address"]) or text in addresses(port)
            )
        ]

    def port_called(self, text, project):
        """The one port that is called so."""
        found = self.ports_called(text, project)
        if not found:
            raise Unfound(f"no port is called {text}")
        if len(found) > 1:
            owners = ", ".join(
                f"{port['id']} of {port['project_id'] or 'no project'}" for port in found
            )
            raise Unfound(
                f"{len(found)} ports are called {text}: name the project or the id ({owners})"
            )
        return found[0]

    def wire_called(self, text):
        """The network on a wire: a physical network, with `:` and a number where it is a vlan."""
        physical, _, number = text.partition(":")
        for row in self.networks.values():
            segment = row["provider:segmentation_id"]
            if physical == row["provider:physical_network"] and number == (
                "" if segment is None else str(segment)
            ):
                return row
        return None

    def holder(self, network, address):
        """The port of a network that has an address, or None."""
        return next(
            (
                port
                for port in self.ports.values()
                if port["network_id"] == network and address in addresses(port)
            ),
            None,
        )

    def with_mac(self, network, mac):
        return next(
            (
                port
                for port in self.ports.values()
                if port["network_id"] == network and port["mac_address"] == mac
            ),
            None,
        )

    def subnet_with(self, network, address):
        """The subnet of a network in which an address is, or None."""
        return next(
            (
                row
                for row in self.subnets.values()
                if row["network_id"] == network
                and ipaddress.ip_address(address) in ipaddress.ip_network(row["cidr"])
            ),
            None,
        )

    def own_address(self, port, version, target):
        """The address that a port sends from: in the target's subnet, or else its first of the
        version."""
        held = [address for address in addresses(port) if version_of(address) == version]
        if not held:
            raise Unfound(f"port {named(port)} has no address of IPv{version}")
        subnet = self.subnet_with(port["network_id"], target)
        return next(
            (
                address
                for address in held
                if subnet and ipaddress.ip_address(address) in ipaddress.ip_network(subnet["cidr"])
            ),
            held[0],
        )

    def next_of_host(self, network, source, target):
        """Where a host on a network sends what is for a target: there, or to a host route's hop or
        the gateway."""
        if self.subnet_with(network, target):
            return target
        subnet = self.subnet_with(network, source)
        if subnet is None:
            return self.router_toward(network, target)
        if hop := longest(subnet["host_routes"], target):
            return hop
        if subnet["gateway_ip"] is None:
            raise Unfound(f"subnet {subnet['cidr']} has no gateway, and {target} isn't in it")
        return subnet["gateway_ip"]

    def router_toward(self, network, target):
        """The gateway's address of a router on a network that is joined to the target's subnet."""
        for router in self.routers.values():
            ports = self.ports_of(router["id"])
            inner = any(self.subnet_with(port["network_id"], target) for port in ports)
            for port in ports if inner else ():
                if port["network_id"] == network:
                    return addresses(port)[0]
        raise Unfound(f"no router on {self.network(network)} leads to {target}")

    def next_of_router(self, router, network, target):
        """Where a router sends what is for a target, on a network where it is joined."""
        if self.subnet_with(network, target):
            return target
        if hop := longest(self.routers[router]["routes"], target):
            return hop
        gates = [
            row["gateway_ip"]
            for row in self.subnets.values()
            if row["network_id"] == network and row["ip_version"] == version_of(target)
        ]
        return gates[0] if gates else None

    def dead_why(self, port):
        """Why a port isn't live, or None."""
        network, kind = self.networks[port["network_id"]], port["binding:vif_type"]
        if port["device_owner"] in (INTERFACE, GATEWAY):
            return "it is a router's"
        if not port["admin_state_up"]:
            return "its admin_state_up is false"
        if not network["admin_state_up"]:
            return f"the admin_state_up of {self.network(network['id'])} is false"
        if not port["binding:host_id"]:
            return "it has no host (binding:host_id)"
        return (
            None
            if kind == "ovs"
            else f"host {port['binding:host_id']} can't carry its network ({kind})"
        )


def longest(routes, target):
    """The next hop of the route with the longest prefix in which a target is, or None."""
    address = ipaddress.ip_address(target)
    fit = [
        (ipaddress.ip_network(route["destination"]).prefixlen, route["nexthop"])
        for route in routes
        if address in ipaddress.ip_network(route["destination"])
    ]
    return max(fit)[1] if fit else None


def wire(network):
    """A sender on the wire of a network, as a port that has no rules."""
    return types.SimpleNamespace(
        network=network["id"],
        port=None,
        mac="02:00:00:00:00:aa",
        event={
            "physical_network": network["provider:physical_network"],
            "segmentation_id": network["provider:segmentation_id"],
        },
    )


def tap(port):
    """A port as a sender."""
    return types.SimpleNamespace(
        network=port["network_id"], port=port, mac=port["mac_address"], event={"port": port["id"]}
    )
