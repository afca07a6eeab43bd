int k = W;
