UPDATE subnets SET allocation_pools = '[{"start":"10.0.0.9","end":"10.0.0.2"}]';
