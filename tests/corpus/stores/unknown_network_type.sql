UPDATE networks SET network_type = 'gre';
