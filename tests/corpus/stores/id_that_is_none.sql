UPDATE networks SET id = 'n1' WHERE place = 1;
