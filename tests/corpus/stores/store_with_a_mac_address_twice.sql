-- A second port with the instance's MAC address.
UPDATE ports SET mac_address = (SELECT mac_address FROM ports WHERE name = 'instance')
    WHERE name = 'spare';
