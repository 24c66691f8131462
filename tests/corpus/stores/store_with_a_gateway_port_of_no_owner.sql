-- A router whose gateway names a port of the gateway's network that has no owner.
UPDATE ports SET network_id = (SELECT id FROM networks WHERE name = 'outer') WHERE name = 'spare';
UPDATE routers SET gateway_network_id = (SELECT id FROM networks WHERE name = 'outer'),
    gateway_port_id = (SELECT id FROM ports WHERE name = 'spare'), enable_snat = 1
    WHERE name = 'spare';
