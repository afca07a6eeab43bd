const char *prefixed = u8"text";
