int z; /* x */
