enum later *kept;
enum later { FIRST };
