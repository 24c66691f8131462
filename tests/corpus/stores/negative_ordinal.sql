UPDATE projects SET ordinal = -1;
