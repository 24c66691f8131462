UPDATE subnets SET cidr = '10.0.0.1/24';
