-- A second default group of the project a.
UPDATE security_groups SET name = 'default', is_default = 1 WHERE name = 'spare';
