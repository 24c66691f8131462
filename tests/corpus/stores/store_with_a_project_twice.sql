-- A second project with the name a.
INSERT INTO projects (ordinal, name, count) VALUES (3, 'a', 99);
