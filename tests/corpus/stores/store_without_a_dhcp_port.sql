-- The DHCP port of a network is gone.
DELETE FROM ports WHERE device_owner = 'network:dhcp';
