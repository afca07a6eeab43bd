enum e { e } v = e;
enum e w;
