int called(int value) { return absent(value); }
