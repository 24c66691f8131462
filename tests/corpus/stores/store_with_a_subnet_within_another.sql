-- A subnet within another of the same network.
UPDATE subnets SET network_id = (SELECT network_id FROM subnets WHERE name = 'inner'),
    cidr = '10.0.0.128/25', allocation_pools = '[]' WHERE name = 'spare';
