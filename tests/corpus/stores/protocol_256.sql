UPDATE security_group_rules SET protocol = 256;
