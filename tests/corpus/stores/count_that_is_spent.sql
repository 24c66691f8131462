-- The project drew 2^62 - 1 ids.
UPDATE projects SET count = 4611686018427387903;
