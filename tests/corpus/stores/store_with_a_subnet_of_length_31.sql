-- A subnet of length 31.
UPDATE subnets SET cidr = '10.0.0.0/31', allocation_pools = '[]' WHERE name = 'spare';
