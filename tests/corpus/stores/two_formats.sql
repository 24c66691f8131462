INSERT INTO format (number) VALUES (2);
