#error the folder of -idirafter comes behind all others
