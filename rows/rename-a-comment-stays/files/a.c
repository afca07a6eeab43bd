int x; /* x */
