-- The port by which a floating address's router reaches the instance is gone.
DELETE FROM ports WHERE device_owner = 'network:router_interface';
