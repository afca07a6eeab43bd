int strings;
