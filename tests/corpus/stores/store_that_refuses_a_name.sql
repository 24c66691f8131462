CREATE TABLE format (number INTEGER NOT NULL) STRICT;
CREATE TABLE projects (place INTEGER PRIMARY KEY, ordinal INTEGER NOT NULL UNIQUE,
    name TEXT NOT NULL, count INTEGER NOT NULL) STRICT;
CREATE TABLE networks (place INTEGER PRIMARY KEY, id TEXT NOT NULL UNIQUE,
    project_id TEXT NOT NULL, name TEXT NOT NULL UNIQUE, description TEXT NOT NULL,
    admin_state_up INTEGER NOT NULL, network_type TEXT NOT NULL, physical_network TEXT,
    segmentation_id INTEGER) STRICT;
CREATE TABLE subnets (place INTEGER PRIMARY KEY, id TEXT NOT NULL UNIQUE,
    project_id TEXT NOT NULL, network_id TEXT NOT NULL, name TEXT NOT NULL,
    description TEXT NOT NULL, cidr TEXT NOT NULL, gateway_ip TEXT,
    allocation_pools TEXT NOT NULL, enable_dhcp INTEGER NOT NULL, ipv6_address_mode TEXT,
    ipv6_ra_mode TEXT, dns_nameservers TEXT NOT NULL,
    host_routes TEXT NOT NULL) STRICT;
CREATE TABLE ports (place INTEGER PRIMARY KEY, id TEXT NOT NULL UNIQUE,
    project_id TEXT NOT NULL, network_id TEXT NOT NULL, name TEXT NOT NULL,
    description TEXT NOT NULL, admin_state_up INTEGER NOT NULL, mac_address TEXT NOT NULL,
    fixed_ips TEXT NOT NULL, allowed_address_pairs TEXT NOT NULL,
    port_security_enabled INTEGER NOT NULL, security_groups TEXT NOT NULL,
    device_id TEXT NOT NULL, device_owner TEXT NOT NULL, host_id TEXT NOT NULL,
    vif_type TEXT NOT NULL, by_admin INTEGER NOT NULL) STRICT;
CREATE TABLE security_groups (place INTEGER PRIMARY KEY, id TEXT NOT NULL UNIQUE,
    project_id TEXT NOT NULL, name TEXT NOT NULL, description TEXT NOT NULL,
    is_default INTEGER NOT NULL) STRICT;
CREATE TABLE security_group_rules (place INTEGER PRIMARY KEY, id TEXT NOT NULL UNIQUE,
    project_id TEXT NOT NULL, security_group_id TEXT NOT NULL, description TEXT NOT NULL,
    direction TEXT NOT NULL, ethertype TEXT NOT NULL, protocol INTEGER, port_range_min INTEGER,
    port_range_max INTEGER, remote_ip_prefix TEXT, remote_group_id TEXT) STRICT;
CREATE TABLE routers (place INTEGER PRIMARY KEY, id TEXT NOT NULL UNIQUE,
    project_id TEXT NOT NULL, name TEXT NOT NULL, description TEXT NOT NULL,
    admin_state_up INTEGER NOT NULL, host TEXT, gateway_network_id TEXT, gateway_port_id TEXT,
    enable_snat INTEGER, routes TEXT NOT NULL) STRICT;
CREATE TABLE floating_ips (place INTEGER PRIMARY KEY, id TEXT NOT NULL UNIQUE,
    project_id TEXT NOT NULL, description TEXT NOT NULL, floating_network_id TEXT NOT NULL,
    own_port_id TEXT NOT NULL, floating_ip_address TEXT NOT NULL, port_id TEXT,
    fixed_ip_address TEXT, router_id TEXT) STRICT;
CREATE TABLE rbac_policies (place INTEGER PRIMARY KEY, id TEXT NOT NULL UNIQUE,
    project_id TEXT NOT NULL, object_id TEXT NOT NULL, action TEXT NOT NULL,
    target_tenant TEXT NOT NULL) STRICT;
INSERT INTO format (number) VALUES (2);
