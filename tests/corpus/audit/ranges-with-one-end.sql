CREATE TABLE format (number INTEGER NOT NULL) STRICT;
CREATE TABLE projects (place INTEGER PRIMARY KEY, ordinal INTEGER NOT NULL UNIQUE,
    name TEXT NOT NULL, count INTEGER NOT NULL) STRICT;
CREATE TABLE networks (place INTEGER PRIMARY KEY, id TEXT NOT NULL UNIQUE,
    project_id TEXT NOT NULL, name TEXT NOT NULL, description TEXT NOT NULL,
    admin_state_up INTEGER NOT NULL, network_type TEXT NOT NULL, physical_network TEXT,
    segmentation_id INTEGER) STRICT;
CREATE TABLE subnets (place INTEGER PRIMARY KEY, id TEXT NOT NULL UNIQUE,
    project_id TEXT NOT NULL, network_id TEXT NOT NULL, name TEXT NOT NULL,
    description TEXT NOT NULL, cidr TEXT NOT NULL, gateway_ip TEXT,
    allocation_pools TEXT NOT NULL, enable_dhcp INTEGER NOT NULL, ipv6_address_mode TEXT,
    ipv6_ra_mode TEXT, dns_nameservers TEXT NOT NULL,
    host_routes TEXT NOT NULL) STRICT;
CREATE TABLE ports (place INTEGER PRIMARY KEY, id TEXT NOT NULL UNIQUE,
    project_id TEXT NOT NULL, network_id TEXT NOT NULL, name TEXT NOT NULL,
    description TEXT NOT NULL, admin_state_up INTEGER NOT NULL, mac_address TEXT NOT NULL,
    fixed_ips TEXT NOT NULL, allowed_address_pairs TEXT NOT NULL,
    port_security_enabled INTEGER NOT NULL, security_groups TEXT NOT NULL,
    device_id TEXT NOT NULL, device_owner TEXT NOT NULL, host_id TEXT NOT NULL,
    vif_type TEXT NOT NULL, by_admin INTEGER NOT NULL) STRICT;
CREATE TABLE security_groups (place INTEGER PRIMARY KEY, id TEXT NOT NULL UNIQUE,
    project_id TEXT NOT NULL, name TEXT NOT NULL, description TEXT NOT NULL,
    is_default INTEGER NOT NULL) STRICT;
CREATE TABLE security_group_rules (place INTEGER PRIMARY KEY, id TEXT NOT NULL UNIQUE,
    project_id TEXT NOT NULL, security_group_id TEXT NOT NULL, description TEXT NOT NULL,
    direction TEXT NOT NULL, ethertype TEXT NOT NULL, protocol INTEGER, port_range_min INTEGER,
    port_range_max INTEGER, remote_ip_prefix TEXT, remote_group_id TEXT) STRICT;
CREATE TABLE routers (place INTEGER PRIMARY KEY, id TEXT NOT NULL UNIQUE,
    project_id TEXT NOT NULL, name TEXT NOT NULL, description TEXT NOT NULL,
    admin_state_up INTEGER NOT NULL, host TEXT, gateway_network_id TEXT, gateway_port_id TEXT,
    enable_snat INTEGER, routes TEXT NOT NULL) STRICT;
CREATE TABLE floating_ips (place INTEGER PRIMARY KEY, id TEXT NOT NULL UNIQUE,
    project_id TEXT NOT NULL, description TEXT NOT NULL, floating_network_id TEXT NOT NULL,
    own_port_id TEXT NOT NULL, floating_ip_address TEXT NOT NULL, port_id TEXT,
    fixed_ip_address TEXT, router_id TEXT) STRICT;
CREATE TABLE rbac_policies (place INTEGER PRIMARY KEY, id TEXT NOT NULL UNIQUE,
    project_id TEXT NOT NULL, object_id TEXT NOT NULL, action TEXT NOT NULL,
    target_tenant TEXT NOT NULL) STRICT;
INSERT INTO format (number) VALUES (2);
INSERT INTO projects (ordinal, name, count) VALUES (1, 'a', 99);
INSERT INTO networks (id, project_id, name, description, admin_state_up, network_type,
    physical_network, segmentation_id)
    VALUES ('00000001-0000-8000-8000-00000000000a', 'a', '', '', 1, 'vxlan', NULL, 1);
INSERT INTO subnets (id, project_id, network_id, name, description, cidr, gateway_ip,
    allocation_pools, enable_dhcp, ipv6_address_mode, ipv6_ra_mode, dns_nameservers, host_routes)
    VALUES ('00000001-0000-8000-8000-00000000000b', 'a', '00000001-0000-8000-8000-00000000000a',
    '', '', '10.0.0.0/24', NULL, '[]', 0, NULL, NULL, '[]', '[]');
INSERT INTO ports (id, project_id, network_id, name, description, admin_state_up, mac_address,
    fixed_ips, allowed_address_pairs, port_security_enabled, security_groups, device_id,
    device_owner, host_id, vif_type, by_admin)
    VALUES ('00000001-0000-8000-8000-000000000005', 'a', '00000001-0000-8000-8000-00000000000a',
    '', '', 1, '02:00:00:00:00:05',
    '[{"subnet_id":"00000001-0000-8000-8000-00000000000b","ip_address":"10.0.0.5"}]', '[]', 1,
    '["00000001-0000-8000-8000-000000000014"]', '', '', 'c1', 'ovs', 0);
INSERT INTO ports (id, project_id, network_id, name, description, admin_state_up, mac_address,
    fixed_ips, allowed_address_pairs, port_security_enabled, security_groups, device_id,
    device_owner, host_id, vif_type, by_admin)
    VALUES ('00000001-0000-8000-8000-000000000006', 'a', '00000001-0000-8000-8000-00000000000a',
    '', '', 1, '02:00:00:00:00:06',
    '[{"subnet_id":"00000001-0000-8000-8000-00000000000b","ip_address":"10.0.0.6"}]', '[]', 1,
    '["00000001-0000-8000-8000-000000000015"]', '', '', 'c1', 'ovs', 0);
INSERT INTO security_groups (id, project_id, name, description, is_default)
    VALUES ('00000001-0000-8000-8000-000000000001', 'a', 'default', '', 1);
INSERT INTO security_groups (id, project_id, name, description, is_default)
    VALUES ('00000001-0000-8000-8000-000000000014', 'a', 'clients', '', 0);
INSERT INTO security_groups (id, project_id, name, description, is_default)
    VALUES ('00000001-0000-8000-8000-000000000015', 'a', 'servers', '', 0);
INSERT INTO security_group_rules (id, project_id, security_group_id, description, direction,
    ethertype, protocol, port_range_min, port_range_max, remote_ip_prefix, remote_group_id)
    VALUES ('00000001-0000-8000-8000-000000000016', 'a', '00000001-0000-8000-8000-000000000014',
    '', 'egress', 'IPv4', NULL, NULL, NULL, NULL, NULL);
INSERT INTO security_group_rules (id, project_id, security_group_id, description, direction,
    ethertype, protocol, port_range_min, port_range_max, remote_ip_prefix, remote_group_id)
    VALUES ('00000001-0000-8000-8000-00000000003c', 'a', '00000001-0000-8000-8000-000000000015',
    '', 'ingress', 'IPv4', 6, 8080, NULL, NULL, NULL);
INSERT INTO security_group_rules (id, project_id, security_group_id, description, direction,
    ethertype, protocol, port_range_min, port_range_max, remote_ip_prefix, remote_group_id)
    VALUES ('00000001-0000-8000-8000-00000000003d', 'a', '00000001-0000-8000-8000-000000000015',
    '', 'ingress', 'IPv4', 17, NULL, 1023, NULL, NULL);
