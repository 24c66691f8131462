UPDATE networks SET name = 'by hand' WHERE place = 2;
