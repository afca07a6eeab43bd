int k = sizeof h;
