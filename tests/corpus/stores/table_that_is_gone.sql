DROP TABLE subnets;
