"""The rows of a store (docs/STORE.md), read from its file."""

import contextlib
import json
import pathlib
import shutil
import sqlite3

from rows import KINDS


def stored(path):
    """The rows by kind and id that a store has."""
    uri = f"{path.resolve().as_uri()}?mode=ro"
    # (while it is open, the program takes the store for one in use)
    with contextlib.closing(sqlite3.connect(uri, uri=True)) as base:
        base.row_factory = sqlite3.Row
        tables = {
            kind: [
                dict(row)
                for row in base.execute(
                    f"SELECT * FROM {kind.replace('gips', 'g_ips')} ORDER BY place"
                )
            ]
            for kind in (*KINDS, "rbac_policies")
        }
    policies = {
        (row["object_id"], row["action"])
        for row in tables.pop("rbac_policies")
        if row["target_tenant"] == "*"
    }
    for row in tables["networks"]:
        for word, action in (("shared", "access_as_shared"), ("router:external", "access_as_external")):
            row[word] = (row["id"], action) in policies
        row.update(
            {
                f"provider:{name}": row[name]
                for name in ("network_type", "physical_network", "segmentation_id")
            }
        )
    for row in tables["ports"]:
        row.update({name: json.loads(row[name]) for name in ("fixed_ips", "security_groups")})
        row["binding:host_id"] = row["host_id"]
    rows = {kind: {row["id"]: row for row in tables[kind]} for kind in KINDS}
    for row in tables["routers"]:
        port = rows["ports"].get(row["gateway_port_id"])
        row["external_gateway_info"] = port and {
            "enable_snat": row["enable_snat"],
            "network_id": port["network_id"],
            "external_fixed_ips": port["fixed_ips"],
        }
    return rows


def copy_store(store, folder):
    """Copies a store and its log into a folder, and gives the copy's path."""
    copy = pathlib.Path(folder) / "copy.db"
    for end in ("", "-wal") if pathlib.Path(f"{store}-wal").exists() else ("",):
        shutil.copyfile(f"{store}{end}", f"{copy}{end}")
    return copy
