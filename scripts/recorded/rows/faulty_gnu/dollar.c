int with$sign;
