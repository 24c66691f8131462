-- A port, made by an administrator, on a network that is not there.
UPDATE ports SET network_id = '00000001-0000-8000-8000-000000000063', by_admin = 1
    WHERE name = 'spare';
