UPDATE ports SET fixed_ips = '[';
