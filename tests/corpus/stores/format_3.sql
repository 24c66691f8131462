UPDATE format SET number = 3;
