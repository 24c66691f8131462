-- A port of the project b on a network of the project a.
UPDATE ports SET project_id = 'b' WHERE name = 'spare';
