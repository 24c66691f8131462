-- A port that holds the base of its subnet.
UPDATE ports
    SET fixed_ips = '[{"subnet_id":"00000001-0000-8000-8000-00000000000a","ip_address":"10.0.0.0"}]'
    WHERE name = 'spare';
