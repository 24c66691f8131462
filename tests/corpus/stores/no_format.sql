DELETE FROM format;
