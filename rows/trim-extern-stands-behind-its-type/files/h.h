int extern y, z[];
