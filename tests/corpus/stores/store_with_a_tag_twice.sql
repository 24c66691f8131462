-- Two networks with one tag.
UPDATE networks SET segmentation_id = 5 WHERE segmentation_id = 6;
