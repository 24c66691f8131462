CREATE TABLE format (number INTEGER NOT NULL) STRICT;
CREATE TABLE projects (place INTEGER PRIMARY KEY, ordinal INTEGER NOT NULL UNIQUE,
    name TEXT NOT NULL, count INTEGER NOT NULL) STRICT;
CREATE TABLE networks (place INTEGER PRIMARY KEY, id TEXT NOT NULL UNIQUE,
    project_id TEXT NOT NULL, name TEXT NOT NULL, description TEXT NOT NULL,
    admin_state_up INTEGER NOT NULL, network_type TEXT NOT NULL, physical_network TEXT,
    segmentation_id INTEGER) STRICT;
CREATE TABLE subnets (place INTEGER PRIMARY KEY, id TEXT NOT NULL UNIQUE,
    project_id TEXT NOT NULL, network_id TEXT NOT NULL, name TEXT NOT NULL,
    description TEXT NOT NULL, cidr TEXT NOT NULL, gateway_ip TEXT,
    allocation_pools TEXT NOT NULL, enable_dhcp INTEGER NOT NULL, ipv6_address_mode TEXT,
    ipv6_ra_mode TEXT, dns_nameservers TEXT NOT NULL,
    host_routes TEXT NOT NULL) STRICT;
CREATE TABLE ports (place INTEGER PRIMARY KEY, id TEXT NOT NULL UNIQUE,
    project_id TEXT NOT NULL, network_id TEXT NOT NULL, name TEXT NOT NULL,
    description TEXT NOT NULL, admin_state_up INTEGER NOT NULL, mac_address TEXT NOT NULL,
    fixed_ips TEXT NOT NULL, allowed_address_pairs TEXT NOT NULL,
    port_security_enabled INTEGER NOT NULL, security_groups TEXT NOT NULL,
    device_id TEXT NOT NULL, device_owner TEXT NOT NULL, host_id TEXT NOT NULL,
    vif_type TEXT NOT NULL, by_admin INTEGER NOT NULL) STRICT;
CREATE TABLE security_groups (place INTEGER PRIMARY KEY, id TEXT NOT NULL UNIQUE,
    project_id TEXT NOT NULL, name TEXT NOT NULL, description TEXT NOT NULL,
    is_default INTEGER NOT NULL) STRICT;
CREATE TABLE security_group_rules (place INTEGER PRIMARY KEY, id TEXT NOT NULL UNIQUE,
    project_id TEXT NOT NULL, security_group_id TEXT NOT NULL, description TEXT NOT NULL,
    direction TEXT NOT NULL, ethertype TEXT NOT NULL, protocol INTEGER, port_range_min INTEGER,
    port_range_max INTEGER, remote_ip_prefix TEXT, remote_group_id TEXT) STRICT;
CREATE TABLE routers (place INTEGER PRIMARY KEY, id TEXT NOT NULL UNIQUE,
    project_id TEXT NOT NULL, name TEXT NOT NULL, description TEXT NOT NULL,
    admin_state_up INTEGER NOT NULL, host TEXT, gateway_network_id TEXT, gateway_port_id TEXT,
    enable_snat INTEGER, routes TEXT NOT NULL) STRICT;
CREATE TABLE floating_ips (place INTEGER PRIMARY KEY, id TEXT NOT NULL UNIQUE,
    project_id TEXT NOT NULL, description TEXT NOT NULL, floating_network_id TEXT NOT NULL,
    own_port_id TEXT NOT NULL, floating_ip_address TEXT NOT NULL, port_id TEXT,
    fixed_ip_address TEXT, router_id TEXT) STRICT;
CREATE TABLE rbac_policies (place INTEGER PRIMARY KEY, id TEXT NOT NULL UNIQUE,
    project_id TEXT NOT NULL, object_id TEXT NOT NULL, action TEXT NOT NULL,
    target_tenant TEXT NOT NULL) STRICT;
INSERT INTO format (number) VALUES (2);
INSERT INTO projects (ordinal, name, count) VALUES (1, 'a', 4611686018427387903);
INSERT INTO projects (ordinal, name, count) VALUES (2, 'b', 5);
INSERT INTO networks (id, project_id, name, description, admin_state_up, network_type,
    physical_network, segmentation_id)
    VALUES ('00000001-0000-8000-8000-00000000000a', 'a', '', '', 0, 'vlan', 'physnet1', 4094);
UPDATE networks SET name =
    replace(printf('%.51c', 'x'), 'x', char(233) || '''"\;')
    WHERE id = '00000001-0000-8000-8000-00000000000a';
UPDATE networks SET description =
    replace(printf('%.51c', 'x'), 'x', char(128512) || '''"\;')
    WHERE id = '00000001-0000-8000-8000-00000000000a';
INSERT INTO networks (id, project_id, name, description, admin_state_up, network_type,
    physical_network, segmentation_id)
    VALUES ('00000001-0000-8000-8000-00000000000b', 'a', '', '', 1, 'local', NULL, NULL);
INSERT INTO networks (id, project_id, name, description, admin_state_up, network_type,
    physical_network, segmentation_id)
    VALUES ('00000001-0000-8000-8000-000000000012', 'a', '', '', 1, 'vxlan', NULL, 16777215);
INSERT INTO networks (id, project_id, name, description, admin_state_up, network_type,
    physical_network, segmentation_id)
    VALUES ('00000001-0000-8000-8000-000000000013', 'a', '', '', 1, 'flat', 'physnet1', NULL);
INSERT INTO subnets (id, project_id, network_id, name, description, cidr, gateway_ip,
    allocation_pools, enable_dhcp, ipv6_address_mode, ipv6_ra_mode, dns_nameservers, host_routes)
    VALUES ('00000001-0000-8000-8000-00000000000c', 'a', '00000001-0000-8000-8000-00000000000a',
    '', '', '2001:db8::/64', '2001:db8::1',
    '[{"start":"2001:db8::2","end":"2001:db8::ffff:ffff:ffff:ffff"}]', 1, 'slaac', NULL,
    '["::1"]', '[{"destination":"::/0","nexthop":"2001:db8::9"}]');
UPDATE subnets SET name =
    replace(printf('%.51c', 'x'), 'x', char(233) || '''"\;')
    WHERE id = '00000001-0000-8000-8000-00000000000c';
UPDATE subnets SET description =
    replace(printf('%.51c', 'x'), 'x', char(128512) || '''"\;')
    WHERE id = '00000001-0000-8000-8000-00000000000c';
INSERT INTO subnets (id, project_id, network_id, name, description, cidr, gateway_ip,
    allocation_pools, enable_dhcp, ipv6_address_mode, ipv6_ra_mode, dns_nameservers, host_routes)
    VALUES ('00000001-0000-8000-8000-00000000000d', 'a', '00000001-0000-8000-8000-00000000000b',
    '', '', '10.0.0.0/24', NULL, '[]', 0, NULL, NULL, '[]', '[]');
INSERT INTO subnets (id, project_id, network_id, name, description, cidr, gateway_ip,
    allocation_pools, enable_dhcp, ipv6_address_mode, ipv6_ra_mode, dns_nameservers, host_routes)
    VALUES ('00000001-0000-8000-8000-00000000000e', 'a', '00000001-0000-8000-8000-00000000000a',
    '', '', 'ffff:ffff:ffff:ffff::/64', NULL, '[]', 1, NULL, 'dhcpv6-stateless', '[]', '[]');
INSERT INTO subnets (id, project_id, network_id, name, description, cidr, gateway_ip,
    allocation_pools, enable_dhcp, ipv6_address_mode, ipv6_ra_mode, dns_nameservers, host_routes)
    VALUES ('00000001-0000-8000-8000-00000000000f', 'a', '00000001-0000-8000-8000-00000000000a',
    '', '', '255.255.255.252/30', NULL, '[]', 0, NULL, NULL, '[]', '[]');
INSERT INTO subnets (id, project_id, network_id, name, description, cidr, gateway_ip,
    allocation_pools, enable_dhcp, ipv6_address_mode, ipv6_ra_mode, dns_nameservers, host_routes)
    VALUES ('00000001-0000-8000-8000-000000000010', 'a', '00000001-0000-8000-8000-00000000000b',
    '', '', '203.0.113.0/24', NULL, '[]', 0, NULL, NULL, '[]', '[]');
INSERT INTO subnets (id, project_id, network_id, name, description, cidr, gateway_ip,
    allocation_pools, enable_dhcp, ipv6_address_mode, ipv6_ra_mode, dns_nameservers, host_routes)
    VALUES ('00000001-0000-8000-8000-000000000016', 'a', '00000001-0000-8000-8000-000000000012',
    '', '', '2001:db8:1::/64', NULL, '[]', 1, 'dhcpv6-stateful', 'dhcpv6-stateful', '[]', '[]');
INSERT INTO ports (id, project_id, network_id, name, description, admin_state_up, mac_address,
    fixed_ips, allowed_address_pairs, port_security_enabled, security_groups, device_id,
    device_owner, host_id, vif_type, by_admin)
    VALUES ('00000001-0000-8000-bfff-ffffffffffff', 'a', '00000001-0000-8000-8000-00000000000a',
    '', '', 0, '02:00:00:00:00:14',
    '[{"subnet_id":"00000001-0000-8000-8000-00000000000f","ip_address":"255.255.255.254"},{"subnet_id":"00000001-0000-8000-8000-00000000000e","ip_address":"ffff:ffff:ffff:ffff:ffff:ffff:ffff:ffff"}]',
    '[{"mac_address":"02:00:00:00:00:ff","ip_address":"0.0.0.0/0"},{"mac_address":"02:00:00:00:00:01","ip_address":"::7/128"}]',
    1, '["00000001-0000-8000-8000-000000000001","00000001-0000-8000-8000-000000000002"]', 'i-1',
    'compute:nova', 'c1', 'binding_failed', 1);
UPDATE ports SET name =
    replace(printf('%.51c', 'x'), 'x', char(233) || '''"\;')
    WHERE id = '00000001-0000-8000-bfff-ffffffffffff';
UPDATE ports SET description =
    replace(printf('%.51c', 'x'), 'x', char(128512) || '''"\;')
    WHERE id = '00000001-0000-8000-bfff-ffffffffffff';
INSERT INTO ports (id, project_id, network_id, name, description, admin_state_up, mac_address,
    fixed_ips, allowed_address_pairs, port_security_enabled, security_groups, device_id,
    device_owner, host_id, vif_type, by_admin)
    VALUES ('00000001-0000-8000-8000-000000000011', 'a', '00000001-0000-8000-8000-00000000000a',
    '', '', 1, 'fe:ff:ff:ff:ff:ff',
    '[{"subnet_id":"00000001-0000-8000-8000-00000000000c","ip_address":"2001:db8::fcff:ffff:feff:ffff"},{"subnet_id":"00000001-0000-8000-8000-00000000000e","ip_address":"ffff:ffff:ffff:ffff::2"}]',
    '[]', 0, '[]', '', 'network:dhcp', 'c1', 'ovs', 0);
INSERT INTO ports (id, project_id, network_id, name, description, admin_state_up, mac_address,
    fixed_ips, allowed_address_pairs, port_security_enabled, security_groups, device_id,
    device_owner, host_id, vif_type, by_admin)
    VALUES ('00000001-0000-8000-8000-000000000015', 'a', '00000001-0000-8000-8000-00000000000b',
    '', '', 1, '02:00:00:00:00:15', '[]', '[]', 0, '[]', '', '', '', 'unbound', 0);
INSERT INTO ports (id, project_id, network_id, name, description, admin_state_up, mac_address,
    fixed_ips, allowed_address_pairs, port_security_enabled, security_groups, device_id,
    device_owner, host_id, vif_type, by_admin)
    VALUES ('00000001-0000-8000-8000-000000000017', 'a', '00000001-0000-8000-8000-000000000012',
    '', '', 1, 'fa:16:3e:00:00:00',
    '[{"subnet_id":"00000001-0000-8000-8000-000000000016","ip_address":"2001:db8:1::2"}]', '[]',
    0, '[]', '', 'network:dhcp', 'c1', 'ovs', 0);
INSERT INTO ports (id, project_id, network_id, name, description, admin_state_up, mac_address,
    fixed_ips, allowed_address_pairs, port_security_enabled, security_groups, device_id,
    device_owner, host_id, vif_type, by_admin)
    VALUES ('00000001-0000-8000-8000-000000000029', '', '00000001-0000-8000-8000-00000000000b',
    '', '', 1, '02:00:00:00:00:29',
    '[{"subnet_id":"00000001-0000-8000-8000-00000000000d","ip_address":"10.0.0.41"}]', '[]', 0,
    '[]', '00000001-0000-8000-8000-000000000028', 'network:router_gateway', '', 'unbound', 0);
INSERT INTO ports (id, project_id, network_id, name, description, admin_state_up, mac_address,
    fixed_ips, allowed_address_pairs, port_security_enabled, security_groups, device_id,
    device_owner, host_id, vif_type, by_admin)
    VALUES ('00000001-0000-8000-8000-00000000002b', 'a', '00000001-0000-8000-8000-00000000000a',
    '', '', 1, '02:00:00:00:00:2b',
    '[{"subnet_id":"00000001-0000-8000-8000-00000000000f","ip_address":"255.255.255.253"}]',
    '[]', 0, '[]', '00000001-0000-8000-8000-000000000028', 'network:router_interface', '',
    'unbound', 0);
INSERT INTO ports (id, project_id, network_id, name, description, admin_state_up, mac_address,
    fixed_ips, allowed_address_pairs, port_security_enabled, security_groups, device_id,
    device_owner, host_id, vif_type, by_admin)
    VALUES ('00000001-0000-8000-8000-000000000033', '', '00000001-0000-8000-8000-00000000000b',
    '', '', 1, '02:00:00:00:00:33',
    '[{"subnet_id":"00000001-0000-8000-8000-000000000010","ip_address":"203.0.113.5"}]', '[]', 0,
    '[]', '', 'network:floatingip', '', 'unbound', 0);
INSERT INTO ports (id, project_id, network_id, name, description, admin_state_up, mac_address,
    fixed_ips, allowed_address_pairs, port_security_enabled, security_groups, device_id,
    device_owner, host_id, vif_type, by_admin)
    VALUES ('00000001-0000-8000-8000-000000000035', '', '00000001-0000-8000-8000-00000000000b',
    '', '', 1, '02:00:00:00:00:35',
    '[{"subnet_id":"00000001-0000-8000-8000-000000000010","ip_address":"203.0.113.6"}]', '[]', 0,
    '[]', '', 'network:floatingip', '', 'unbound', 0);
INSERT INTO security_groups (id, project_id, name, description, is_default)
    VALUES ('00000001-0000-8000-8000-000000000001', 'a', 'default', '', 1);
UPDATE security_groups SET description =
    replace(printf('%.51c', 'x'), 'x', char(128512) || '''"\;')
    WHERE id = '00000001-0000-8000-8000-000000000001';
INSERT INTO security_groups (id, project_id, name, description, is_default)
    VALUES ('00000001-0000-8000-8000-000000000002', 'a', '', '', 0);
INSERT INTO security_groups (id, project_id, name, description, is_default)
    VALUES ('00000002-0000-8000-8000-000000000001', 'b', 'default', '', 1);
INSERT INTO security_group_rules (id, project_id, security_group_id, description, direction,
    ethertype, protocol, port_range_min, port_range_max, remote_ip_prefix, remote_group_id)
    VALUES ('00000001-0000-8000-8000-000000000003', 'a', '00000001-0000-8000-8000-000000000001',
    '', 'ingress', 'IPv6', 255, 0, 65535, '::1/128', '00000001-0000-8000-8000-000000000002');
UPDATE security_group_rules SET description =
    replace(printf('%.51c', 'x'), 'x', char(128512) || '''"\;')
    WHERE id = '00000001-0000-8000-8000-000000000003';
INSERT INTO security_group_rules (id, project_id, security_group_id, description, direction,
    ethertype, protocol, port_range_min, port_range_max, remote_ip_prefix, remote_group_id)
    VALUES ('00000001-0000-8000-8000-000000000004', 'a', '00000001-0000-8000-8000-000000000002',
    '', 'egress', 'IPv4', NULL, NULL, NULL, NULL, NULL);
INSERT INTO routers (id, project_id, name, description, admin_state_up, host, gateway_network_id,
    gateway_port_id, enable_snat, routes)
    VALUES ('00000001-0000-8000-8000-000000000028', 'a', '', '', 0, 'c1',
    '00000001-0000-8000-8000-00000000000b', '00000001-0000-8000-8000-000000000029', 0,
    '[{"destination":"0.0.0.0/0","nexthop":"10.0.0.1"},{"destination":"255.255.255.255/32","nexthop":"10.0.0.2"}]');
UPDATE routers SET name =
    replace(printf('%.51c', 'x'), 'x', char(233) || '''"\;')
    WHERE id = '00000001-0000-8000-8000-000000000028';
UPDATE routers SET description =
    replace(printf('%.51c', 'x'), 'x', char(128512) || '''"\;')
    WHERE id = '00000001-0000-8000-8000-000000000028';
INSERT INTO routers (id, project_id, name, description, admin_state_up, host, gateway_network_id,
    gateway_port_id, enable_snat, routes)
    VALUES ('00000001-0000-8000-8000-00000000002a', 'a', '', '', 1, NULL, NULL, NULL, NULL, '[]');
INSERT INTO floating_ips (id, project_id, description, floating_network_id, own_port_id,
    floating_ip_address, port_id, fixed_ip_address, router_id)
    VALUES ('00000001-0000-8000-8000-000000000032', 'a', '',
    '00000001-0000-8000-8000-00000000000b', '00000001-0000-8000-8000-000000000033',
    '203.0.113.5', '00000001-0000-8000-bfff-ffffffffffff', '255.255.255.254',
    '00000001-0000-8000-8000-000000000028');
UPDATE floating_ips SET description =
    replace(printf('%.51c', 'x'), 'x', char(128512) || '''"\;')
    WHERE id = '00000001-0000-8000-8000-000000000032';
INSERT INTO floating_ips (id, project_id, description, floating_network_id, own_port_id,
    floating_ip_address, port_id, fixed_ip_address, router_id)
    VALUES ('00000001-0000-8000-8000-000000000034', 'a', '',
    '00000001-0000-8000-8000-00000000000b', '00000001-0000-8000-8000-000000000035',
    '203.0.113.6', NULL, NULL, NULL);
INSERT INTO rbac_policies (id, project_id, object_id, action, target_tenant)
    VALUES ('00000001-0000-8000-8000-00000000003c', 'a', '00000001-0000-8000-8000-00000000000b',
    'access_as_external', '*');
INSERT INTO rbac_policies (id, project_id, object_id, action, target_tenant)
    VALUES ('00000001-0000-8000-8000-00000000003d', 'a', '00000001-0000-8000-8000-00000000000a',
    'access_as_shared', 'b');
